"""Fonts as a font bank holds them: a glyph of 8 by 8 pixels for each of the characters 32 to 127,
from text art and from PSF and BDF files. `people/fonts/` has the art of the face that is built in."""

import gzip
import io
import struct
import unicodedata
import zlib
from pathlib import Path

from people.faults import Fault, reason

CODES = range(32, 128)
SIDE = 8
SIGNS = ".-+#"  # a pixel's values 0 to 3; with one bit a pixel there are the first and the last
FULL = 3
BLANK = ((0,) * SIDE,) * SIDE
NAMED = {"space": 32, "drop": 127}  # every other character is its own name
NAME = {code: name for name, code in NAMED.items()}

ART = Path(__file__).with_suffix("")
BUILT_IN = {"spoonwing": {1: ART / "spoonwing.txt", 2: ART / "spoonwing-soft.txt"}}
LONGEST = 1 << 23  # bytes; no font of 8 by 8 has as many
FETCH = "fetch the file anew"
FITS = "write one of 8 by 8, such as Lat15-VGA8.psf.gz of Debian's package console-setup-linux"


class Font:
    """A name, the bank's bytes, and which characters were drawn; the others are blank."""

    def __init__(self, name, bits, drawn):
        self.name = name
        self.bits = bits
        self.glyphs = b"".join(_packed(drawn.get(code, BLANK), bits) for code in CODES)
        self._codes = frozenset(drawn).intersection(CODES)

    def has(self, character):
        return ord(character) in self._codes


def _name(code):
    """A character as art names it."""
    return NAME.get(code, chr(code))


def name_of(character):
    """A character as a person knows it: é (U+00E9, latin small letter e with acute)."""
    name = unicodedata.name(character, "no letter").lower()
    return f"{_printable(character)} (U+{ord(character):04X}, {name})"


def _packed(rows, bits):
    """Eight rows of values as bytes, the leftmost pixel in the top bits."""
    packed = bytearray()
    for row in rows:
        line = 0
        for value in row:
            line = line << bits | (value if bits == 2 else value // FULL)
        packed += line.to_bytes(bits, "big")
    return bytes(packed)


def load(name, bits=1, directory="."):
    """The font of a built-in name, or else of a file, looked for from the directory on. A file of one
    bit a pixel serves two bits as well: its ink is full."""
    path = BUILT_IN[name][bits] if name in BUILT_IN else Path(directory, name)
    data = _bytes_of(path)
    for magic, reader in READERS.items():
        if data.startswith(magic):
            return Font(name, bits, reader(path, data))
    return Font(name, bits, _art(path, data, SIGNS if bits == 2 else ".#"))


def _printable(text):
    return "".join(sign if sign.isprintable() else "?" for sign in text)


def _shown(text):
    """A part of a file that fits in a line of a message."""
    return _printable(text) if len(text) <= 20 else f"{_printable(text[:20])}.."


def _fault(path, what, line=None):
    where = _printable(str(path))
    return Fault(f"{where}: line {line}" if line else where, what)


def _bytes_of(path):
    """A file's bytes, unpacked where it is packed by gzip."""
    try:
        with open(path, "rb") as file:
            data = file.read(LONGEST + 1)
        if data.startswith(b"\x1f\x8b"):
            data = gzip.GzipFile(fileobj=io.BytesIO(data)).read(LONGEST + 1)
    except (FileNotFoundError, ValueError):  # no file has a name with a NUL in it
        built_in = ", ".join(BUILT_IN)
        raise _fault(path, f"no such font; write {built_in}, or the path of a font file") from None
    except IsADirectoryError:
        raise _fault(path, "a folder; write the path of a font file in it") from None
    except (EOFError, zlib.error, gzip.BadGzipFile):
        raise _fault(path, f"damaged: gzip cannot unpack it; {FETCH}") from None
    except OSError as error:
        raise _fault(path, f"cannot be read ({reason(error)}); write the path of one that can") from None
    if len(data) > LONGEST:
        raise _fault(path, "longer than any font; write the path of a PSF, BDF or text art file")
    return data


def _lines(text):
    return text.replace("\r\n", "\n").split("\n")


# ---- text art


def _art(path, data, signs):
    """Lines of names that begin with '=', each followed by eight rows that draw them. What stands
    before the first is prose."""
    try:
        lines = _lines(data.decode("utf-8-sig"))
    except UnicodeDecodeError:
        raise _fault(path, "no font; write the path of a PSF, BDF or text art file") from None
    drawn, first_line = {}, {}
    at = next((i for i, line in enumerate(lines) if line.startswith("=")), None)
    if at is None:
        raise _fault(path, "no PSF, no BDF, and no line of names such as '= A B C'; draw letters")
    while at < len(lines):
        if not lines[at].strip():
            at += 1
            continue
        codes = _named(path, lines[at], at + 1)
        for code in codes:
            if first_line.setdefault(code, at + 1) != at + 1 or codes.count(code) > 1:
                what = f"{_name(code)} is drawn twice, first at line {first_line[code]}; keep one"
                raise _fault(path, what, at + 1)
        rows = [_row(path, lines, at + 1 + i, codes, signs) for i in range(SIDE)]
        drawn.update((code, [row[i] for row in rows]) for i, code in enumerate(codes))
        at += 1 + SIDE
    return drawn


def _named(path, line, number):
    """The characters that a line of names stands for."""
    if not line.startswith("= "):
        what = "neither names nor one of the eight rows below them; begin names with '= '"
        raise _fault(path, what, number)
    codes = [NAMED.get(name) or (ord(name) if len(name) == 1 else 0) for name in line.split()[1:]]
    for name, code in zip(line.split()[1:], codes):
        if code not in CODES:
            what = f"{_shown(name)} is none of the characters 32 to 127; write one, or space, or drop for 127"
            raise _fault(path, what, number)
    if not codes:
        raise _fault(path, "no names; write those of the letters below, such as '= A B C'", number)
    return codes


def _row(path, lines, at, codes, signs):
    """One row of each letter, as values."""
    cells = lines[at].split() if at < len(lines) else []
    if len(cells) != len(codes):
        what = f"{len(cells)} letters in this row where {len(codes)} are named; draw eight rows of each"
        raise _fault(path, what, at + 1)
    for cell, code in zip(cells, codes):
        wrong = next((sign for sign in cell if sign not in signs), None)
        if wrong and wrong in SIGNS:
            what = f"{wrong} in {_name(code)} is a softer pixel; write . or #, or ask for two bits"
            raise _fault(path, what, at + 1)
        if wrong or len(cell) != SIDE:
            what = f"{_shown(cell)} in {_name(code)} is no row; write eight signs of {' '.join(signs)}"
            raise _fault(path, what, at + 1)
    return [tuple(SIGNS.index(sign) for sign in cell) for cell in cells]


# ---- PSF, the console's fonts


def _psf1(path, data):
    if len(data) < 4:
        raise _fault(path, f"damaged: a PSF file of {len(data)} bytes; {FETCH}")
    mode, height = data[2], data[3]
    count = 512 if mode & 1 else 256
    glyphs, table = _cells(path, data[4:], count, SIDE, height)
    if not mode & 6:
        return dict(enumerate(glyphs))
    units = struct.unpack(f"<{len(table) // 2}H", table[: len(table) // 2 * 2])
    return _by_table(path, glyphs, units, 0xFFFE, 0xFFFF)


def _psf2(path, data):
    if len(data) < 32:
        raise _fault(path, f"damaged: a PSF file of {len(data)} bytes; {FETCH}")
    version, begin, flags, count, length, height, width = struct.unpack("<7I", data[4:32])
    if version or begin < 32 or length != height * ((width + 7) // 8):
        raise _fault(path, f"damaged: its header contradicts itself; {FETCH}")
    glyphs, table = _cells(path, data[begin:], count, width, height)
    if not flags & 1:
        return dict(enumerate(glyphs))
    # UTF-8 has no bytes FE and FF, which part the table; as two characters they come through.
    marks = table.replace(b"\xfe", b"\xef\xbf\xbe").replace(b"\xff", b"\xef\xbf\xbf")
    try:
        units = [ord(character) for character in marks.decode()]
    except UnicodeDecodeError:
        raise _fault(path, f"damaged: its table of characters is no UTF-8; {FETCH}") from None
    return _by_table(path, glyphs, units, 0xFFFE, 0xFFFF)


def _cells(path, data, count, width, height):
    """So many glyphs, and what stands behind them."""
    if (width, height) != (SIDE, SIDE):
        raise _fault(path, f"its letters are {width} by {height}; {FITS}")
    if len(data) < count * SIDE:
        what = f"damaged: {len(data) // SIDE} letters where its header says {count}; {FETCH}"
        raise _fault(path, what)
    glyphs = [[_bits_of(byte) for byte in data[SIDE * i : SIDE * i + SIDE]] for i in range(count)]
    return glyphs, data[count * SIDE :]


def _bits_of(byte):
    return tuple(FULL if byte << i & 0x80 else 0 for i in range(SIDE))


def _by_table(path, glyphs, units, sequence, end):
    """The glyphs by their characters. A glyph's characters stand in a row up to the end mark; behind
    a sequence mark stand several that make one letter together, which no text here has."""
    drawn, at, is_single = {}, 0, True
    for unit in units:
        if unit == end:
            at, is_single = at + 1, True
        elif unit == sequence:
            is_single = False
        elif is_single and at < len(glyphs):
            drawn.setdefault(unit, glyphs[at])
    if at < len(glyphs):
        what = f"damaged: its table of characters ends at letter {at} of {len(glyphs)}; {FETCH}"
        raise _fault(path, what)
    return drawn


# ---- BDF, the fonts of X


def _bdf(path, data):
    """Each character stands between STARTCHAR and ENDCHAR; the font's own box says where the cell
    lies about the baseline."""
    lines = _lines(data.decode("latin-1"))  # which every byte is: a notice may have its ©
    drawn, box, start = {}, None, None
    for at, line in enumerate(lines):
        word = line.split()[0] if line.split() else ""
        if word == "FONTBOUNDINGBOX":
            box = _numbers(path, line, at + 1, 4)
            if not (0 < box[0] <= SIDE and 0 < box[1] <= SIDE):
                raise _fault(path, f"its letters are {box[0]} by {box[1]}; {FITS}")
        elif word == "STARTCHAR":
            start = at
        elif word == "ENDCHAR" and start is not None and box:
            drawn.update(_bdf_letter(path, lines, range(start, at), box))
        elif word == "ENDFONT" and box:
            return drawn
    what = "ENDFONT" if box else "FONTBOUNDINGBOX"
    raise _fault(path, f"damaged: no line {what}; {FETCH}")


def _bdf_letter(path, lines, block, box):
    """The character of one block, if it is one of ours."""
    at = {lines[i].split()[0]: i for i in block if lines[i].strip()}
    for word in "ENCODING", "BBX", "BITMAP":
        if word not in at:
            raise _fault(path, f"no line {word} for this letter; {FETCH}", block[0] + 1)
    code = _numbers(path, lines[at["ENCODING"]], at["ENCODING"] + 1, 1)[0]
    if code not in CODES:
        return {}
    width, height, x, y = _numbers(path, lines[at["BBX"]], at["BBX"] + 1, 4)
    left, top = x - box[2], box[3] + box[1] - y - height
    if min(left, top, width, height) < 0 or left + width > SIDE or top + height > SIDE:
        what = f"this letter leaves the font's box of {box[0]} by {box[1]}; {FETCH}"
        raise _fault(path, what, at["BBX"] + 1)
    rows = range(at["BITMAP"] + 1, block[-1] + 1)
    if len(rows) != height:
        what = f"{len(rows)} rows where BBX says {height}; {FETCH}"
        raise _fault(path, what, at["BITMAP"] + 1)
    glyph = list(BLANK)
    for i, row in enumerate(rows):
        glyph[top + i] = _bits_of(_hexadecimal(path, lines[row], row + 1) >> left)
    return {code: glyph}


def _numbers(path, line, number, count):
    try:
        found = [int(word) for word in line.split()[1:]]
    except ValueError:
        found = []
    if len(found) < count:
        word = line.split()[0]
        raise _fault(path, f"{word} without its {count} whole numbers; {FETCH}", number)
    return found


def _hexadecimal(path, line, number):
    """A row's pixels, which stand in the top bits."""
    try:
        return bytes.fromhex(line.strip())[0]
    except (ValueError, IndexError):
        raise _fault(path, f"{_shown(line.strip())} is no row of hexadecimal digits; {FETCH}", number) from None


READERS = {b"\x36\x04": _psf1, b"\x72\xb5\x4a\x86": _psf2, b"STARTFONT": _bdf}
