"""The table buffer: where its parts lie, selections by name, instructions packed and taken apart."""

import struct
from collections import namedtuple

KINDS = ("instructions", "colours", "strings", "font")
INSTRUCTIONS, COLOURS, STRINGS, FONT = range(len(KINDS))

MOST_INSTRUCTIONS = 48
MOST_COLOURS = 16
MOST_STRINGS = 8
STRING_LENGTH = 32
CELL = 8  # pixels of a character either way, at scale 1
SCALES = (1, 2, 4, 8)
MOST_WEIGHT = 15

END, BOX, TEXT, BOX_AND_TEXT = 0, 10, 12, 14


def length(kind, bits=1):
    """The bytes of a table."""
    return (16 * MOST_INSTRUCTIONS, 4 * MOST_COLOURS, STRING_LENGTH * MOST_STRINGS, 768 * bits)[kind]


def bank_length(bits):
    return sum(length(kind, bits) for kind in range(len(KINDS)))


def tables_length(bits):
    return 2 * 8 * bank_length(bits)


def start(layer, kind, bank, bits):
    """Where a table begins in the buffer."""
    return (2 * layer + bank) * bank_length(bits) + sum(length(lower, bits) for lower in range(kind))


def selection(layer, kind, bank):
    return 8 * layer + 2 * kind + bank


def selected(number):
    """A selection in words; those above 63 name no table."""
    if number > 63:
        return f"selection {number:02X}, which names no table"
    return f"layer {number >> 3}, {KINDS[number >> 1 & 3]}, bank {number & 1}"


# ---- instructions

Instruction = namedtuple("Instruction", "opcode x0 y0 x1 y1 weight scale string box_colour text_colour")


def packed(instruction):
    """Four little-endian words."""
    i = instruction
    return struct.pack(
        "<4I",
        i.opcode << 28 | i.x1 << 12 | i.x0,
        i.string,
        SCALES.index(i.scale) << 30 | i.weight << 24 | i.y1 << 12 | i.y0,
        i.text_colour << 8 | i.box_colour,
    )


def unpacked(data):
    a, b, c, d = struct.unpack("<4I", data)
    corners = a & 0xFFF, c & 0xFFF, a >> 12 & 0xFFF, c >> 12 & 0xFFF
    return Instruction(a >> 28, *corners, c >> 24 & 15, SCALES[c >> 30], b & 255, d & 15, d >> 8 & 15)


def box(x0, y0, x1, y1, weight, colour):
    return Instruction(BOX, x0, y0, x1, y1, weight, 1, 0, colour, 0)


def text(x, y, scale, string, colour):
    return Instruction(TEXT, x, y, 0, 0, 0, scale, string, 0, colour)


def _box_words(i):
    shape = f"outline of weight {i.weight}" if i.weight else "filled"
    return f"box ({i.x0}, {i.y0}) to ({i.x1}, {i.y1}), {shape}, colour {i.box_colour}"


def _text_words(i):
    return f"text of string {i.string} at ({i.x0}, {i.y0}), scale {i.scale}, colour {i.text_colour}"


def in_words(i):
    """An instruction as a person would say it."""
    if i.opcode == END:
        return "END"
    if i.opcode == BOX:
        return _box_words(i)
    if i.opcode == TEXT:
        return _text_words(i)
    if i.opcode == BOX_AND_TEXT:
        return f"{_box_words(i)}, and {_text_words(i)}"
    return f"opcode {i.opcode}, which does nothing"
