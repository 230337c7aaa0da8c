"""The commands of sheets: `sheet` makes one of a scene, `read` tells one in words, and `show` makes
pictures of what the sheet program printed."""

import re
from pathlib import Path

from people import banks, check, files, film, form, pictures, registers
from people.answers import ANSWERS, cure, error_bit, named
from people.faults import Fault, Notes, say
from people.painting import frames_of
from people.timeline import Timeline, tables_at

_END = bytes(16)
_TYPE = "type: tools/sheet < SHEET | tools/spoonwing show - -o FRAME.png"
_DIGITS = re.compile(r"[0-9A-Fa-f]+")


# ---- sheet


def make(words):
    if words.output:
        files.ask_for_folder(words.output)
    timeline = check.whole(words.scene)
    _ask_for_fit(timeline.scene)
    wanted = frames_of(timeline, words.frames)
    lines, before = lines_of(Timeline(timeline.scene, wanted[0]), wanted)
    files.write(words.output or "-", "".join(f"{form.text_of(line)}\n" for line in lines).encode())
    if before:
        say(f"The first {before} of {len(lines)} lines load tables and show the background")


def _ask_for_fit(scene):
    pixels = scene.width * scene.height
    if 4 * pixels > form.MOST_OUTPUT:
        room = form.MOST_OUTPUT // 4
        what = f"{scene.width} by {scene.height} are {pixels} pixels, and a sheet has room for {room}"
        raise Fault(f"{scene.file}: screen", f"{what}; write a smaller screen, or `spoonwing pack` for a host")
    if scene.letters != 1:
        raise Fault(f"{scene.file}: screen: letters", "a sheet has one bit a letter's pixel; write letters = 1")


def lines_of(timeline, frames):
    """A line a frame, each the difference from the one before; and how many go before for loads that
    are too long for the first line."""
    words, loads = [0] * registers.WORDS, _first_loads(timeline, frames[0])
    first = timeline.frame(frames[0])
    before = _lines_before(timeline, first, loads)
    lines = [form.Line(some, writes, b"") for some, writes in before]
    for line in lines:
        _follow(words, line.writes)
    left = [] if before else loads
    for number in frames:
        frame = timeline.frame(number)
        now = _shifted(frame.words, len(before) + 1 - frames[0])
        loads = left if number == frames[0] else _loads(timeline, number)
        writes = [(register, value) for register, value in enumerate(now) if value != words[register]]
        lines.append(_fitting(timeline.scene.file, number, form.Line(loads, writes, frame.pictures)))
        _follow(words, writes)
    return lines, len(before)


def _follow(words, writes):
    for register, value in writes:
        words[register] = value


def _shifted(words, shift):
    """The words with the starts of fades by the sheet's own frame numbers, which begin at 1."""
    words = list(words)
    for layer in range(registers.LAYERS):
        if words[registers.at(layer, registers.FADE)]:
            start = registers.at(layer, registers.START)
            words[start] = (words[start] + shift) % 2**32
    return words


def _trimmed(layer, kind, data):
    """A table's bytes as far as they are read: a list with its END, a font up to its last letter."""
    if kind == banks.INSTRUCTIONS:
        return (data + _END)[: banks.length(kind)]
    if kind == banks.FONT:
        texts = [item.text for _, look in layer.looks for item in look.items if item.text]
        return data[: 8 * (max(map(ord, "".join(texts)), default=31) - 31)]
    return data


def _tables(timeline):
    """Each kind of table of each graphics layer."""
    layers = [layer for layer in timeline.scene.layers if layer.is_graphics]
    return [(layer, kind) for layer in layers for kind in range(len(banks.KINDS))]


def _load(timeline, layer, kind, number):
    data = _trimmed(layer, kind, tables_at(layer, number)[kind])
    return banks.selection(layer.number, kind, timeline.bank(layer, kind, number)), data


def _first_loads(timeline, number):
    loads = [_load(timeline, layer, kind, number) for layer, kind in _tables(timeline)]
    return [load for load in loads if any(load[1])]


def _loads(timeline, number):
    """The tables whose bank is another than that of the frame before."""
    return [
        _load(timeline, layer, kind, number)
        for layer, kind in _tables(timeline)
        if timeline.bank(layer, kind, number) != timeline.bank(layer, kind, number - 1)
    ]


def _digits(line):
    return len(form.text_of(line))


def _lines_before(timeline, first, loads):
    """Loads and writes of the lines that go before the first frame; none where all fits in one line."""
    writes = [(register, value) for register, value in enumerate(first.words) if value]
    if _digits(form.Line(loads, writes, first.pictures)) <= form.MOST_DIGITS:
        return []
    lines = [([], [(register, first.words[register]) for register in range(3)])]
    for load in loads:
        if _digits(form.Line([*lines[-1][0], load], lines[-1][1], b"")) > form.MOST_DIGITS:
            lines.append(([], []))
        lines[-1][0].append(load)
    return lines


def _fitting(file, number, line):
    digits = _digits(line)
    if digits > form.MOST_DIGITS:
        what = f"needs {digits} digits and a line has {form.MOST_DIGITS}; {2 * len(line.pictures)} are pictures"
        raise Fault(f"{file}: frame {number}", f"{what}: write smaller ones, or fewer changes at one frame")
    return line


# ---- read


def read(words):
    """A line given as digits, or the lines of a file."""
    is_line = _is_line(words.line)
    data = words.line.encode() if is_line else files.read(words.line, "a sheet, or a line's digits")
    notes = Notes("line" if is_line else words.line)
    for number, text in enumerate(form.without_cr(notes, form.split(data)), 1):
        _read_line(notes, number, text)
    if not data:
        notes.fault("line 1", "the sheet is empty; write a line of digits for each frame")
    notes.end()


def _is_line(word):
    """Whether a word is meant as digits: most of it are, and no file has that name."""
    digits = sum(map(len, _DIGITS.findall(word)))
    return 2 * digits >= len(word) and not set(word) & set("./") and not Path(word).exists()


def _read_line(notes, number, text):
    try:
        line = form.parse(text)
    except form.BadForm as bad:
        print(f"line {number}: badly formed, the sheet program prints FE")
        notes.fault(f"line {number}", str(bad))
        return
    print(f"line {number}: {len(text)} digits")
    for told in form.in_words(line):
        print(f"  {told}")


# ---- show


def show(words):
    """What the sheet program printed, as pictures."""
    film.ask_for_form(words.output)
    data = files.read(words.printed, "what the sheet program printed")
    notes, frames = Notes(words.printed), []
    for number, text in enumerate(form.split(data), 1):
        try:
            frames += [(number, pictures.of_pixels(*_printed(notes, number, text), words.zoom))]
        except ValueError as wrong:
            notes.fault(f"line {number}", str(wrong))
    if not frames and not notes.faults:
        notes.fault("line 1", f"nothing was printed; {_TYPE}")
    if len(frames) == 1 and Path(words.output).suffix.lower() == ".png":
        files.write(words.output, pictures.png(frames[0][1]))
        print(f"The picture is {words.output}, line {frames[0][0]}")
    elif frames:
        _ask_for_one_size(words, frames)
        print(film.save(words.output, frames, words.rate))
    notes.end()


def _printed(notes, number, text):
    """The pixels and the size of a printed line."""
    text = text.rstrip(b"\r")
    if not re.fullmatch(rb"([0-9A-F]{2})+", text):
        raise ValueError("is nothing that the sheet program prints; give it what `tools/sheet < SHEET` prints")
    answer = int(text[:2], 16)
    if answer:
        raise ValueError(
            f"was refused with {named(answer)}; {cure(answer)}" if answer in ANSWERS else _no_print()
        )
    errors, width, height = (int(text[a:b] or b"0", 16) for a, b in ((2, 10), (10, 14), (14, 18)))
    pixels = bytes.fromhex(text[18:].decode())
    if not pixels or len(pixels) != 4 * width * height:
        raise ValueError(_no_print())
    for bit in range(32):
        if errors >> bit & 1:
            notes.warn(f"line {number}", f"error bit {bit}: {error_bit(bit)}")
    return pixels, width, height


def _no_print():
    return f"is no printed frame; if this is a sheet, {_TYPE}"


def _ask_for_one_size(words, frames):
    sizes = {image.size for _, image in frames}
    if len(sizes) > 1 and Path(words.output).suffix.lower() != ".png":
        raise Fault(words.printed, f"frames have {len(sizes)} sizes; write a name in .png, for a picture each")
