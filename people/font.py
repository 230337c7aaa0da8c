"""The command `font`: a font as a picture, painted by the display itself."""

from pathlib import Path

from people import banks, files, film, fonts, pictures, scene
from people.faults import Notes
from people.painter import Painter
from people.timeline import Timeline

_ROW = 16  # letters
_SCALE = 4
_EDGE = 8
_INK = {"scale": _SCALE, "colour": "ink"}


def show(words):
    out = words.output or files.named_after(words.font, ".png")
    files.ask_for_folder(out)
    font = fonts.load(words.font, words.letters, ".")
    notes = Notes(words.font)
    loaded = scene.of_tables(notes, _scene(words.font, words.letters), Path("."))
    notes.warnings = []  # which letters are missing is said below, in one line
    notes.end()
    with Painter() as painter:
        pixels = film.paint(painter, Timeline(loaded).frame(0), words.font)
    files.write(out, pictures.png(pictures.of_pixels(pixels, loaded.width, loaded.height, words.zoom)))
    has = sum(font.has(chr(code)) for code in fonts.CODES)
    if out != "-":
        print(f"The picture is {out}: {has} of the {len(fonts.CODES)} letters, 16 a row, from space on")


def _scene(font, letters):
    """A page of all letters, as a scene."""
    cell = banks.CELL * _SCALE
    rows = [range(first, first + _ROW) for first in fonts.CODES[::_ROW]]
    draw = [
        {"text": "".join(map(chr, row)), "at": [_EDGE, _EDGE + place * (cell + _EDGE)]} | _INK
        for place, row in enumerate(rows)
    ]
    size = [2 * _EDGE + _ROW * cell, _EDGE + len(rows) * (cell + _EDGE)]
    return {
        "screen": {"width": size[0], "height": size[1], "background": "#0A1420", "letters": letters},
        "layer": [{"name": "letters", "size": size, "font": font, "colours": {"ink": "#FFF4DE"}, "draw": draw}],
    }
