"""The command line: one parser with a command each, and every fault in one line."""

import argparse
import os
import sys

from people import check, explain, film, font, keys, mend, pack, painting, sheet
from people.faults import Fault, say

FAULT, WRONG_LINE, INTERRUPTED = 1, 2, 130


class Parser(argparse.ArgumentParser):
    """Says what is wrong in a command line in one line."""

    def __init__(self, *words, **more):
        form = argparse.RawDescriptionHelpFormatter
        super().__init__(*words, allow_abbrev=False, formatter_class=form, **more)

    def error(self, message):
        say(f"{self.prog}: {message}; `{self.prog} --help` says what to write")
        sys.exit(WRONG_LINE)

    def exit(self, status=0, message=None):
        sys.stdout.flush()  # so that a closed output is met here, and not after the last line of this program
        super().exit(status, message)


def _natural(low, high):
    def read(text):
        if not text.isascii() or not text.isdigit() or not low <= int(text) <= high:
            raise argparse.ArgumentTypeError(f"'{text}' does not pass, {low} to {high} do")
        return int(text)

    return read


def _span(text):
    try:
        return painting.span(text)
    except ValueError as wrong:
        raise argparse.ArgumentTypeError(str(wrong)) from None


# ---- words that several commands take


def _scene_file(parser, more="(`spoonwing scene` has its keys)"):
    parser.add_argument("scene", metavar="SCENE", help=f"a scene {more}")


def _output(parser, form, help, required=False):
    parser.add_argument("-o", dest="output", metavar=form, required=required, help=help)


def _zoom(parser):
    help = "each pixel N times across and down"
    parser.add_argument("--zoom", type=_natural(1, 16), default=1, metavar="N", help=help)


def _frame(parser):
    help = "the frame number; screen.frame unless told"
    parser.add_argument("--frame", type=_natural(0, keys.LAST_FRAME), metavar="N", help=help)


def _frames(parser):
    help = "both included; all that change anything unless told"
    parser.add_argument("--frames", type=_span, metavar="A..B", help=help)


def _rate(parser):
    help = "frames a second; 60 unless told"
    parser.add_argument("--rate", type=_natural(1, 240), default=film.RATE, metavar="N", help=help)


def _kind(parser, kinds):
    help = "what the file is, where its name and bytes do not tell"
    parser.add_argument("--as", dest="kind", choices=kinds, help=help)


# ---- the commands: each adds its words and says what is run


def _still(parser):
    _scene_file(parser)
    _output(parser, "FILE.png", "the picture; the scene's name in .png unless told, - for standard output")
    _frame(parser)
    _zoom(parser)
    return painting.still


def _film(parser):
    _scene_file(parser)
    _output(parser, "FILE", ".webp (exact colours), .gif (256 colours) or .png (numbered); .webp unless told")
    _frames(parser)
    _rate(parser)
    _zoom(parser)
    return painting.make_film


def _check(parser):
    parser.add_argument("files", metavar="SCENE|IMAGE|SHEET", nargs="+", help="what is to be checked")
    _kind(parser, check.KINDS)
    return check.check


def _sheet(parser):
    _scene_file(parser, "of at most 1,024 pixels")
    _output(parser, "FILE", "the sheet; standard output unless told")
    _frames(parser)
    return sheet.make


def _read(parser):
    parser.add_argument("line", metavar="LINE|FILE", help="a line's digits, a sheet, or - for standard input")
    return sheet.read


def _show(parser):
    help = "what the sheet program printed, or - for standard input"
    parser.add_argument("printed", metavar="FILE", help=help)
    _output(parser, "FILE", ".png (numbered if several lines), .webp or .gif", required=True)
    _rate(parser)
    _zoom(parser)
    return sheet.show


def _explain(parser):
    help = "as 10, 0A, FE or OFF_SCREEN; a list of all unless told"
    parser.add_argument("numbers", metavar="NUMBER", nargs="*", help=help)
    return explain.explain


def _mend(parser):
    help = "a register image of 208 bytes or 416 digits, or a scene"
    parser.add_argument("file", metavar="IMAGE|SCENE", help=help)
    _output(parser, "FILE", "the mended image, in the form of the one that came")
    _kind(parser, ("scene", "image"))
    return mend.mend


def _pack(parser):
    _scene_file(parser)
    _output(parser, "DIR", "a folder, which is made", required=True)
    _frame(parser)
    return pack.pack


def _font(parser):
    parser.add_argument("font", metavar="FONT", help="spoonwing, or a PSF, BDF or text art file")
    _output(parser, "FILE.png", "the picture; the font's name in .png unless told")
    help = "bits a pixel of a letter has, 1 or 2"
    parser.add_argument("--letters", type=_natural(1, 2), default=1, metavar="N", help=help)
    _zoom(parser)
    return font.show


def _scene(_):
    return lambda words: print(keys.reference())


COMMANDS = {
    "still": ("paint a frame of a scene", _still),
    "film": ("paint a scene from frame to frame", _film),
    "check": ("say all that is wrong in a scene, a register image or a sheet", _check),
    "mend": ("repair a register image that is refused, or say what to write in a scene", _mend),
    "explain": ("tell a refusal's cause and cure", _explain),
    "scene": ("print the keys of a scene, each with what passes", _scene),
    "font": ("paint a font's letters", _font),
    "sheet": ("print a scene as lines for the sheet program", _sheet),
    "read": ("take a sheet's lines apart in words", _read),
    "show": ("make pictures of what the sheet program printed", _show),
    "pack": ("write a frame of a scene as files and as a C header for a host", _pack),
}

ABOUT = """Scenes for the Spoonwing display: every pixel is painted by the proved calls."""


def _parser():
    listed = "\n".join(f"  {name:<8} {sentence}" for name, (sentence, _) in COMMANDS.items())
    parser = Parser(
        prog="spoonwing",
        usage="spoonwing COMMAND ..",
        description=f"{ABOUT}\n\n{listed}\n\n`spoonwing COMMAND --help` says more of each.",
    )
    commands = parser.add_subparsers(prog="spoonwing", metavar="COMMAND", help=argparse.SUPPRESS)
    for name, (sentence, add) in COMMANDS.items():
        command = commands.add_parser(name, description=f"{sentence[0].upper()}{sentence[1:]}.")
        command.set_defaults(run=add(command))
    return parser


def _ask_for_command(parser, words):
    """A misspelt command is told the nearest one."""
    if not words:
        parser.error("no command")
    if words == ["help"]:
        words[:] = ["--help"]
    if not words[0].startswith("-") and words[0] not in COMMANDS:
        parser.error(f"no command '{words[0]}'; {keys.nearest(words[0], list(COMMANDS))}")


def _drop_output():
    """What is left to be written would be tried once more at the end, and told at length."""
    os.dup2(os.open(os.devnull, os.O_WRONLY), sys.stdout.fileno())


def run(words):
    """Does a command and answers the exit status."""
    if sys.stdout is None:
        say("spoonwing: the output is closed; leave >&- out")
        return FAULT
    try:
        parser = _parser()
        _ask_for_command(parser, words)
        parsed = parser.parse_args(words)
        status = parsed.run(parsed)
        sys.stdout.flush()
        return status or 0
    except Fault as fault:
        for line in fault.lines:
            say(line)
    except BrokenPipeError:
        _drop_output()
        say("spoonwing: the output was closed before all was written")
    except OSError as error:
        _drop_output()
        what = f"{error.filename or 'the output'}: {error.strerror or error}"
        say(f"spoonwing: {what}; look at the disk and at its rights")
    except KeyboardInterrupt:
        say("spoonwing: interrupted")
        return INTERRUPTED
    except RecursionError:
        say("spoonwing: the input is nested too deeply; write it flatter")
    except Exception as error:  # a fault of this program: one line, and no traceback for its user
        say(f"spoonwing: a fault of its own, please tell its makers: {type(error).__name__}: {error}")
    return FAULT
