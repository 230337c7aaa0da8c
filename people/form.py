"""The form of a sheet: a line read, told in words, and written.

A line is hexadecimal digits: the number of loads (2), each selection (2), byte count (4), bytes; the
number of writes (2), each register (2), value (8); the pictures' byte count (4), bytes."""

from collections import namedtuple

from people import banks, registers

MOST_DIGITS = 8192
MOST_OUTPUT = 4096
_DIGITS = frozenset(b"0123456789abcdefABCDEF")

Line = namedtuple("Line", "loads writes pictures")  # loads: (selection, bytes); writes: (register, value)


class BadForm(Exception):
    """Where a line goes wrong, as the number of a digit from 1 on, and why."""

    def __init__(self, digit, what):
        super().__init__(f"digit {digit}: {what}")


# ---- lines of a file


def split(data):
    """The lines of a sheet; a last one without a line feed counts if it has any byte."""
    lines = data.split(b"\n")
    return lines[:-1] if not lines[-1] else lines


def without_cr(notes, lines):
    """The lines as they would be without CRs at their ends, which are noted once for all lines."""
    count = sum(line.endswith(b"\r") for line in lines)
    if count:
        what = f"{count} of {len(lines)} lines end in CR, which is bad form (FE); take them away"
        notes.fault("lines", f"{what}: tr -d '\\r' < {notes.file} > NEW")
    return [line.removesuffix(b"\r") for line in lines]


# ---- reading


class _Reader:
    """Takes numbers and bytes off the front of a line."""

    def __init__(self, text):
        self.text = text
        self.at = 0

    def take(self, count, what):
        left = len(self.text) - self.at
        if left < count:
            what = f"{what} needs {count} digits and the line has {left} more; write them, or a smaller count"
            raise BadForm(self.at + 1, what)
        self.at += count
        return self.text[self.at - count : self.at]

    def number(self, count, what):
        return int(self.take(count, what), 16)

    def data(self, count, what):
        return bytes.fromhex(self.take(2 * count, what).decode())


def parse(text):
    """A line without its line feed."""
    _ask_for_digits(text)
    reader = _Reader(text)
    loads = [_load(reader, place) for place in range(1, 1 + reader.number(2, "the number of loads"))]
    writes = [_write(reader, place) for place in range(1, 1 + reader.number(2, "the number of writes"))]
    count = reader.number(4, "the pictures' byte count")
    pictures = reader.data(count, f"the pictures, which the count says are {count} bytes,")
    left = len(text) - reader.at
    if left:
        what = f"the line should end here, and has {left} more; take them away, or raise a count"
        raise BadForm(reader.at + 1, what)
    return Line(loads, writes, pictures)


def _ask_for_digits(text):
    if not text:
        raise BadForm(1, "the line is empty; write at least 00000000, which starts a frame and paints it")
    strange = next((at for at, byte in enumerate(text) if byte not in _DIGITS), None)
    if strange is not None:
        raise BadForm(strange + 1, _strange(text, strange))
    if len(text) > MOST_DIGITS:
        what = f"the line has {len(text)} digits, and {MOST_DIGITS} pass; load tables in a line before"
        raise BadForm(MOST_DIGITS + 1, what)


def _strange(text, at):
    if text[at] == 13:
        return "a CR is no hexadecimal digit; take it away"
    names = {9: "a tab", 32: "a space"}
    shown = names.get(text[at], f"byte {text[at]:02X} ({chr(text[at])!r})")
    return f"{shown} is no hexadecimal digit; write 0 to 9 and A to F alone"


def _load(reader, place):
    what = f"load {place}"
    selection = reader.number(2, f"{what}: its selection")
    count = reader.number(4, f"{what}: its byte count")
    return selection, reader.data(
        count, f"{what} ({banks.selected(selection)}), whose count says {count} bytes,"
    )


def _write(reader, place):
    register = reader.number(2, f"write {place}: its register")
    return register, reader.number(8, f"write {place} (register {register}): its value")


# ---- writing


def text_of(line):
    """A line's digits, upper case."""
    loads = [f"{selection:02X}{len(data):04X}{data.hex()}" for selection, data in line.loads]
    writes = [f"{register:02X}{value:08X}" for register, value in line.writes]
    pictures = [f"{len(line.pictures):04X}", line.pictures.hex()]
    return "".join([f"{len(loads):02X}", *loads, f"{len(writes):02X}", *writes, *pictures]).upper()


# ---- in words


def in_words(line):
    """What a line asks for, a line a step."""
    told = []
    for place, (selection, data) in enumerate(line.loads, 1):
        told.append(f"load {place}: {banks.selected(selection)}: {len(data)} bytes")
        told += [f"  {said}" for said in contents(selection >> 1 & 3, data)]
    for place, (register, value) in enumerate(line.writes, 1):
        told.append(f"write {place}: {write_words(register, value)}")
    told.append(f"pictures: {len(line.pictures)} bytes, {len(line.pictures) // 4} pixels")
    return told


def write_words(register, value):
    if register >= registers.WORDS:
        return f"register {register}, which there is not: {value:08X}"
    said = registers.in_words(register, value)
    return f"register {register} ({registers.title(register)}) = {value:08X}: {said}"


def contents(kind, data):
    """A table's bytes in words; what is left over at the end is no whole entry."""
    size = (16, 4, banks.STRING_LENGTH, 8)[kind]
    entries = [data[at : at + size] for at in range(0, len(data), size)]
    if kind == banks.FONT:
        return [f"glyphs of characters 32 to {31 + len(entries)}"] if entries else []
    told = [f"{place}: {_entry(kind, entry)}" for place, entry in enumerate(entries) if len(entry) == size]
    if entries and len(entries[-1]) < size:
        told.append(f"{len(entries) - 1}: {_part(kind, entries[-1])}")
    return told


def _entry(kind, entry):
    if kind == banks.INSTRUCTIONS:
        return banks.in_words(banks.unpacked(entry))
    if kind == banks.COLOURS:
        return f"#{entry.hex().upper()}"
    return repr(entry.split(b"\0")[0].decode("latin-1"))


def _part(kind, entry):
    if kind == banks.STRINGS:
        return _entry(kind, entry)
    return f"only {len(entry)} bytes of it"
