"""The language of scenes: every key in one table, read by it, and its reference printed from it."""

import difflib
import textwrap
from collections import namedtuple

from people import kinds
from people.banks import MOST_WEIGHT, SCALES
from people.registers import MOST_SIDE

Key = namedtuple("Key", "section name kind sentence")

LAST_FRAME = 2**32 - 1
LONGEST_FADE = 65535
_PLACE = kinds.row(2, "[x, y]", kinds.whole(0, MOST_SIDE))
_SIZE = kinds.row(2, "[width, height]", kinds.whole(1, MOST_SIDE))
_DEPTH = kinds.whole(0, 7)
_BYTE = kinds.whole(0, 255)
_FRAME = kinds.whole(0, LAST_FRAME)
# A fade that starts farther ahead than half of all frame numbers would count as over.
_START = kinds.whole(0, LAST_FRAME // 2)
_LENGTH = kinds.whole(1, LONGEST_FADE)
_FADE = kinds.one_of("card", "ink")
_FADING = kinds.table("{ from = 0, to = 255, start = 0, length = 60 }")
_PICTURE = kinds.text('the path of a PNG, such as "bird.png"')
_FONT = kinds.text('"spoonwing", or the path of a PSF or BDF file')
_COLOURS = kinds.table('{ ink = "#FFFFFF" }')
_BOX = kinds.row(4, "[left, top, right, bottom]", kinds.whole(0, MOST_SIDE))

# What each section is for, in the order of a scene.
SECTIONS = {
    "": "The file: three kinds of sections",
    "screen": "[screen]: what is painted on",
    "layer": "[[layer]]: at most eight; each has a picture, or colours and what is drawn with them",
    "fading": "[layer.fading]: when a fade runs, and between which values",
    "draw": "[[layer.draw]]: a box or a text, later ones over earlier ones",
    "change": "[[change]]: what is otherwise from a frame on, of a layer or of the screen",
}

# Their headings, as a hint has them.
HEADS = {"screen": "[screen]", "layer": "[[layer]]", "draw": "[[layer.draw]]", "change": "[[change]]"}

TABLE = [
    Key("", "screen", kinds.table("[screen] and under it width and height"), "the screen; needed"),
    Key("", "layer", kinds.tables("[[layer]]"), "a layer"),
    Key("", "change", kinds.tables("[[change]]"), "a change"),
    Key("screen", "width", kinds.whole(1, MOST_SIDE), "pixels across; needed"),
    Key("screen", "height", kinds.whole(1, MOST_SIDE), "pixels down; needed"),
    Key("screen", "background", kinds.OPAQUE, 'what lies under all layers; "#000000" unless said'),
    Key("screen", "on", kinds.SWITCH, "whether layers are shown at all; true unless said"),
    Key("screen", "letters", kinds.one_of(1, 2), "bits of a letter's pixel: 1 unless said, 2 for soft edges"),
    Key("screen", "frame", _FRAME, "the frame that `still` paints unless told; 0 unless said"),
    Key("layer", "name", kinds.text("a name in quotes"), 'for messages and changes; "layer N" unless said'),
    Key("layer", "number", kinds.whole(0, 7), "its registers; its place among the layers, from 0, unless said"),
    Key("layer", "on", kinds.SWITCH, "whether it is shown; true unless said"),
    Key("layer", "at", _PLACE, "its upper left corner on the screen; [0, 0] unless said"),
    Key("layer", "size", _SIZE, "needed with `draw`; a picture has its own"),
    Key("layer", "depth", _DEPTH, "the greater depth lies on top; the layer's number unless said"),
    Key("layer", "alpha", _BYTE, "one alpha for the whole layer, in place of each pixel's own"),
    Key("layer", "fade", _FADE, '"card" fades the whole rectangle, "ink" what is drawn and keeps its shape'),
    Key("layer", "fading", _FADING, "needed with `fade`: its time, and a card's alpha or 255ths of an ink's"),
    Key("layer", "picture", _PICTURE, "from the scene's folder on; it is not scaled"),
    Key("layer", "font", _FONT, "of its texts; spoonwing unless said"),
    Key("layer", "colours", _COLOURS, "by names; soft letters may have three; `clear` is what is not drawn on"),
    Key("layer", "draw", kinds.tables("[[layer.draw]]"), "at most 48 boxes and texts, of 8 different texts"),
    Key("fading", "from", _BYTE, "at its start: 0 unless said, in a change the value that it then has"),
    Key("fading", "to", _BYTE, "the value at its end; 255 unless said"),
    Key("fading", "start", _START, "its first frame: 0 unless said, in a change that change's frame"),
    Key("fading", "length", _LENGTH, "how many frames it takes; 60 are a second; needed"),
    Key("draw", "box", _BOX, "from the layer's corner on, ends included"),
    Key("draw", "weight", kinds.whole(1, MOST_WEIGHT), "of an outline, in pixels; left out the box is filled"),
    Key("draw", "text", kinds.WORDS, "at most 32 letters of the font"),
    Key("draw", "at", _PLACE, "where a text begins, from the layer's corner on"),
    Key("draw", "scale", kinds.one_of(*SCALES), "of a text: a letter is so many times 8 pixels; 1 unless said"),
    Key("draw", "colour", kinds.text('a name among the layer\'s colours, or "#RRGGBBAA"'), "needed"),
    Key("change", "frame", _START, "from which frame on; needed"),
    Key("change", "layer", kinds.LAYER, "whose; without it the change is the screen's"),
    Key("change", "on", kinds.SWITCH, "shown or not; without a layer, the whole display"),
    Key("change", "background", kinds.OPAQUE, "of the screen"),
    Key("change", "at", _PLACE, "where it is put, or where it slides to"),
    Key("change", "over", _LENGTH, "with `at`: slides there in so many frames; left out it jumps"),
    Key("change", "depth", _DEPTH, "as in a layer"),
    Key("change", "alpha", _BYTE, "as in a layer; ends a fade"),
    Key("change", "fade", _FADE, "as in a layer"),
    Key("change", "fading", _FADING, "as in a layer; `fade` may be left out where the layer has one"),
    Key("change", "picture", _PICTURE, "another picture, of any size"),
    Key("change", "colours", _COLOURS, "other values for some of the layer's names"),
    Key("change", "draw", kinds.tables("[[change.draw]]"), "drawn in place of all that was"),
]


def names(section):
    return [key.name for key in TABLE if key.section == section]


def nearest(name, known):
    """A hint for a misspelt name: the nearest known one, or all of them."""
    close = difflib.get_close_matches(name, known, 1, 0.5)
    return f"write {close[0]}" if close else f"write one of {', '.join(known)}"


def _elsewhere(section, name):
    """The heading whose key it is, where it is not nearly one of this section: in TOML a key belongs to
    the last heading above it."""
    others = [HEADS[key.section] for key in TABLE if key.name == name and key.section in HEADS]
    is_near = difflib.get_close_matches(name, names(section), 1, 0.75)
    return others[0] if others and not is_near else None


def _unknown(section, name):
    """What to say of a key that there is not, and the key that is meant, if it is of this section."""
    other = _elsewhere(section, name)
    if other:
        return f"it is a key of {other}: write it under that heading, above any other", []
    return nearest(name, names(section)), difflib.get_close_matches(name, names(section), 1, 0.5)


def read(notes, section, where, table, needed=()):
    """The values of a table that pass; what does not is noted by its key. A key that is misspelt is from
    then on in the table, without a value, so that nobody says that it is missing."""
    prefix = f"{where}: " if where else ""
    values, meant = {}, []
    for name in table:
        if name not in names(section):
            hint, near = _unknown(section, name)
            notes.fault(f"{prefix}{name}", f"no such key; {hint}")
            meant += near
    for key in TABLE:
        if key.section == section and key.name in table:
            try:
                values[key.name] = key.kind.read(table[key.name])
            except ValueError as wrong:
                notes.fault(f"{prefix}{key.name}", f"{wrong}; write {key.kind.said}")
    for name in meant:
        table.setdefault(name, None)
    for name in needed:
        if name not in table:
            said = next(key.kind.said for key in TABLE if (key.section, key.name) == (section, name))
            said = f"{name} = .. ({said})" if section else said
            notes.fault(f"{prefix}{name}", f"is missing; write {said}")
    return values


EXAMPLE = """\
[screen]
width = 320
height = 180
background = "#1E3E58"

[[layer]]
name = "title"
at = [16, 16]
size = [200, 40]
fade = "ink"
fading = { start = 30, length = 60 }
colours = { glass = "#0A1420C0", ink = "#FFF4DE" }

[[layer.draw]]
box = [0, 0, 199, 39]
colour = "glass"

[[layer.draw]]
text = "Spoonbill"
at = [12, 12]
scale = 2
colour = "ink"

[[change]]
frame = 120
layer = "title"
at = [104, 124]
over = 60
"""


def reference():
    """An example and the whole language, two lines a key."""
    lines = ["A scene is a TOML file, such as this one:", "", textwrap.indent(EXAMPLE, "    ")]
    lines += ["These are its keys.", ""]
    for section, sentence in SECTIONS.items():
        lines += [sentence, ""]
        for key in TABLE:
            if key.section == section:
                lines += [f"  {key.name:<11} {key.kind.said}", f"  {'':<11} {key.sentence}"]
        lines.append("")
    return "\n".join(lines).rstrip()
