"""Pictures in and out by Pillow: PNG files as the bytes of a layer, frames as PNG."""

import importlib
import io
import subprocess
from collections import namedtuple
from functools import lru_cache
from pathlib import Path

from people.faults import Fault, reason
from people.registers import MOST_SIDE

Picture = namedtuple("Picture", "name size data")

_TOOLS = Path(__file__).parent.parent / "tools" / "lib.sh"


@lru_cache(maxsize=None)
def library():
    """Pillow's Image, which is asked for only where a picture is read or written."""
    try:
        from PIL import Image
    except ImportError:
        Image = _fetched()
    Image.MAX_IMAGE_PIXELS = None  # sizes are asked for here, before a picture is unpacked
    return Image


def _fetched():
    """Gets Pillow as the tools get what is missing: said before, as root, or with what to type."""
    fetch = '. "$1"; need python3-pil python3-pil'
    subprocess.run(["bash", "-c", fetch, "spoonwing", _TOOLS], check=False)
    importlib.invalidate_caches()
    try:
        from PIL import Image
    except ImportError:
        raise Fault(
            "pictures", "Pillow, Python's library of pictures, is missing; type the line above"
        ) from None
    return Image


def load(folder, name):
    """A picture's name, size and bytes, four a pixel."""
    path = Path(folder, name)
    image = library()
    try:
        with image.open(path) as opened:
            if max(opened.size) > MOST_SIDE:
                width, height = opened.size
                raise Fault(name, f"is {width} by {height}; write one of at most {MOST_SIDE} either way")
            if opened.mode.startswith(("I", "F")):
                raise Fault(name, "has more than 8 bits a channel; save it with 8")
            return Picture(name, opened.size, opened.convert("RGBA").tobytes())
    except FileNotFoundError:
        raise Fault(name, f"no such file in {_shown(folder)}; write the path of a PNG from there on") from None
    except IsADirectoryError:
        raise Fault(name, "a folder; write the path of a PNG in it") from None
    except Fault:
        raise
    except Exception as error:  # what a damaged file makes of Pillow has many names
        raise Fault(name, f"is no picture that can be read ({reason(error)}); save it as PNG") from None


def _shown(folder):
    return "this folder" if str(folder) == "." else folder


def of_pixels(pixels, width, height, zoom=1):
    """A painted frame as an image; its alpha is 255 all over and is left out. Zooming repeats pixels."""
    image = library().frombuffer("RGBA", (width, height), pixels, "raw", "RGBA", 0, 1).convert("RGB")
    return image.resize((width * zoom, height * zoom), library().NEAREST) if zoom > 1 else image


def png(image):
    data = io.BytesIO()
    image.save(data, "PNG", optimize=False, compress_level=6)
    return data.getvalue()
