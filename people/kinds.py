"""Kinds of values in a scene: what passes, in words, and a value read by it."""

import re
from collections import namedtuple

# `said` is what to write; `read` gives the value, or raises ValueError with what is wrong.
Kind = namedtuple("Kind", "said read")


def _shown(value):
    return "true" if value is True else "false" if value is False else repr(value)


def either(choices):
    """Choices in words: 1, 2 or 4."""
    return " or ".join(filter(None, [", ".join(choices[:-1]), choices[-1]]))


def whole(low, high):
    def read(value):
        if type(value) is not int:
            raise ValueError(f"{_shown(value)} is no whole number")
        if not low <= value <= high:
            raise ValueError(f"{value} does not pass")
        return value

    return Kind(f"{low} to {high}", read)


def row(count, form, each):
    """A list of so many numbers of one kind."""

    def read(value):
        if not isinstance(value, list) or len(value) != count:
            raise ValueError(f"{_shown(value)} is no list of {count} numbers")
        return tuple(each.read(number) for number in value)

    return Kind(f"{form}, each {each.said}", read)


def one_of(*choices):
    def read(value):
        if isinstance(value, bool) or value not in choices:
            raise ValueError(f"{_shown(value)} does not pass")
        return value

    shown = [f'"{choice}"' if isinstance(choice, str) else str(choice) for choice in choices]
    return Kind(either(shown), read)


def _typed(value, kind, name):
    if not isinstance(value, kind):
        raise ValueError(f"{_shown(value)} is no {name}")
    return value


def _read_switch(value):
    return _typed(value, bool, "switch")


SWITCH = Kind("true or false", _read_switch)


def _read_text(value):
    if not _typed(value, str, "text"):
        raise ValueError("it is empty")
    return value


def text(said):
    return Kind(said, _read_text)


def _read_words(value):
    if "\n" in _typed(value, str, "text"):
        raise ValueError("it has several lines; a text is one line")
    return value


WORDS = Kind("a text in quotes; for more lines, more entries", _read_words)


def _channels(value, digits):
    if not isinstance(value, str) or not re.fullmatch(f"#{digits}", value):
        raise ValueError(f"{_shown(value)} is no colour")
    return tuple(bytes.fromhex(value[1:]))


def _read_opaque(value):
    return _channels(value, "[0-9A-Fa-f]{6}")


def _read_colour(value):
    """Red, green, blue, alpha; opaque where the alpha is left out."""
    return (*_channels(value, "([0-9A-Fa-f]{2}){3,4}"), 255)[:4]


OPAQUE = Kind('"#RRGGBB"', _read_opaque)
COLOUR = Kind('"#RRGGBBAA" or "#RRGGBB"', _read_colour)


def _read_shades(value):
    """One colour, or the three shades of soft letters, the lightest first."""
    if isinstance(value, list) and len(value) == 3:
        return tuple(_read_colour(shade) for shade in value)
    return _read_colour(value)


SHADES = Kind(f"{COLOUR.said}, or a list of three for soft letters", _read_shades)


def _read_layer(value):
    if isinstance(value, bool) or not isinstance(value, (str, int)):
        raise ValueError(f"{_shown(value)} names no layer")
    return value


LAYER = Kind("a layer's name or number", _read_layer)


def _read_table(value):
    return _typed(value, dict, "table")


def _read_tables(value):
    if not isinstance(value, list) or not all(isinstance(item, dict) for item in value):
        raise ValueError(f"{_shown(value)} is no list of tables")
    return value


def table(form):
    return Kind(form, _read_table)


def tables(form):
    return Kind(form, _read_tables)
