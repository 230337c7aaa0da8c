"""Files in and out, with what is wrong in one line."""

import os
import sys
from pathlib import Path

from people.faults import Fault, reason


def read(path, what):
    """A file's bytes; `-` is standard input."""
    if path == "-":
        if sys.stdin is None:
            raise Fault(path, f"standard input is closed; name {what}")
        return sys.stdin.buffer.read()
    try:
        return Path(path).read_bytes()
    except IsADirectoryError:
        raise Fault(path, "a folder; name a file in it") from None
    except FileNotFoundError:
        raise Fault(path, f"no such file; name {what}") from None
    except (OSError, ValueError) as error:
        raise Fault(path, f"cannot be read ({reason(error)}); name {what} that can") from None


def named_after(path, ending):
    """The name of what is made of a file unless told, in the folder where one stands."""
    return f"{'scene' if path == '-' else Path(Path(path).name.removesuffix('.gz')).stem}{ending}"


def ask_for_folder(path):
    """Says at once that a file has nowhere to go, before any work is done for it."""
    folder = Path(path).parent
    if path != "-" and Path(path).is_dir():
        raise Fault(path, "a folder; name a file in it with -o")
    if path != "-" and not folder.is_dir():
        raise Fault(path, f"there is no folder {folder}; make it (mkdir -p {folder}) or name another with -o")


def write(path, data):
    """Writes a file whole."""
    try:
        if path == "-":
            sys.stdout.buffer.write(data)
            sys.stdout.buffer.flush()
        else:
            _write_whole(path, data)
    except BrokenPipeError:
        raise
    except OSError as error:
        raise Fault(path, f"cannot be written ({reason(error)}); name another place with -o") from None


def _write_whole(path, data):
    """What a full disk has cut off is not left behind; a file that cannot be opened stays as it was."""
    with open(path, "wb", buffering=0) as file:
        try:
            while data:
                data = data[file.write(data) :]
        except OSError:
            if os.path.isfile(path):
                os.unlink(path)
            raise
