"""The 52 register words: one table of their fields, and words taken apart and put together by it."""

import struct
from collections import namedtuple

WORDS = 52
LAYERS = 8
IMAGE_LENGTH = 4 * WORDS
MOST_SIDE = 4095  # places and sizes have twelve bits

# A field has `width` bits, the lowest of which is bit `low`.
Field = namedtuple("Field", "name low width")

# The words of the screen, and those of a layer from word 4 + 6 * layer on. Other bits are reserved.
_SCREEN = {
    0: ("switches", [Field("on", 0, 1), Field("update", 2, 1)]),
    1: ("screen size", [Field("width", 0, 12), Field("height", 16, 12)]),
    2: ("background", [Field("red", 0, 8), Field("green", 8, 8), Field("blue", 16, 8)]),
    3: (
        "active banks",
        [Field("instructions", 0, 8), Field("colours", 8, 8), Field("strings", 16, 8), Field("font", 24, 8)],
    ),
}
_LAYER = [
    ("kind", [Field("enabled", 0, 1), Field("graphics", 1, 1), Field("floats", 2, 1), Field("depth", 8, 3)]),
    ("alpha", [Field("alpha", 0, 8), Field("global", 31, 1)]),
    ("place", [Field("x", 0, 12), Field("y", 16, 12)]),
    ("size", [Field("width", 0, 12), Field("height", 16, 12)]),
    ("fade start", [Field("start", 0, 32)]),
    ("fade", [Field("length", 0, 16), Field("target", 16, 8)]),
]
KIND, ALPHA, PLACE, SIZE, START, FADE = range(len(_LAYER))


def layer_of(register):
    """The layer whose word it is; None for the screen's four."""
    return None if register in _SCREEN else (register - len(_SCREEN)) // len(_LAYER)


def at(layer, part):
    """The register of a layer's part."""
    return len(_SCREEN) + len(_LAYER) * layer + part


def _entry(register):
    layer = layer_of(register)
    return _SCREEN[register] if layer is None else _LAYER[register - at(layer, 0)]


def title(register):
    """A register in words: layer 2, place."""
    layer = layer_of(register)
    return _entry(register)[0] if layer is None else f"layer {layer}, {_entry(register)[0]}"


def mask(register):
    """The bits that have a meaning."""
    return sum(((1 << field.width) - 1) << field.low for field in _entry(register)[1])


def fields(register, value):
    """A word's fields by name."""
    return {f.name: value >> f.low & ((1 << f.width) - 1) for f in _entry(register)[1]}


def word(register, **values):
    """A word of its fields; those not named are 0."""
    return sum(values.get(field.name, 0) << field.low for field in _entry(register)[1])


def reserved_bits(register, value):
    """The numbers of the set bits that have no meaning."""
    return [bit for bit in range(32) if value >> bit & 1 and not mask(register) >> bit & 1]


def in_words(register, value):
    """What a value says, field by field."""
    parts = []
    for field in _entry(register)[1]:
        number = value >> field.low & ((1 << field.width) - 1)
        if _entry(register)[0] == "active banks":
            layers = " ".join(str(layer) for layer in range(LAYERS) if number >> layer & 1)
            parts.append(f"{field.name} bank 1 of layers {layers}" if layers else f"{field.name} bank 0")
        elif field.width == 1:
            parts += [field.name] if number else [f"not {field.name}"]
        else:
            parts.append(f"{field.name} {number}")
    bits = reserved_bits(register, value)
    if bits:
        parts.append(f"reserved bits {', '.join(map(str, bits))} set")
    return ", ".join(parts)


def image_of(words):
    return struct.pack(f"<{WORDS}I", *words)


def words_of(image):
    return list(struct.unpack(f"<{WORDS}I", image))


def pictures_length(words):
    """The bytes that all enabled frame layers need together."""
    total = 0
    for layer in range(LAYERS):
        kind = fields(at(layer, KIND), words[at(layer, KIND)])
        size = fields(at(layer, SIZE), words[at(layer, SIZE)])
        if kind["enabled"] and not kind["graphics"] and not kind["floats"]:
            total += 4 * size["width"] * size["height"]
    return total


def screen_of(words):
    """Width and height of the screen."""
    size = fields(1, words[1])
    return size["width"], size["height"]
