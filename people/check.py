"""The command `check`: all that is wrong in a scene, a register image or a sheet, by name and number."""

from people import files, form, refusals, registers, scene
from people.answers import error_bit, in_brackets, named
from people.display import Display
from people.faults import Fault, Notes
from people.painter import Painter
from people.timeline import Timeline


def check(words):
    """Each file by itself, so that what is wrong in one hides nothing of the next."""
    faults = []
    with Painter() as painter:
        for path in words.files:
            try:
                data = files.read(path, "a scene, a register image or a sheet")
                _CHECKS[words.kind or kind_of(path, data)](painter, path, data)
            except Fault as fault:
                faults.append(fault)
    if faults:
        raise Fault.of_all(faults)


def kind_of(path, data):
    """What a file is, by its name or by its bytes."""
    if path.endswith(".toml"):
        return "scene"
    if path.endswith(".bin") or len(data) == registers.IMAGE_LENGTH:
        return "image"
    if len(data.split()) == 1 and len(data.strip()) == 2 * registers.IMAGE_LENGTH:
        return "sheet" if _is_formed(data.strip()) else "image"
    return "scene" if b"[" in data or b"=" in data else "sheet"


def _is_formed(text):
    try:
        return form.parse(text) is not None
    except form.BadForm:
        return False


# ---- scenes


def whole(path):
    """The timeline of a scene in which nothing is wrong; else all that is wrong is raised."""
    loaded, notes = scene.read(path, files.read(path, "a scene"))
    timeline = note_refusals(loaded, notes)
    notes.end()
    return timeline


def note_refusals(loaded, notes):
    """Adds what a display would refuse, each once, with the frame from which on it does."""
    if loaded is None:
        return None
    timeline, said = Timeline(loaded), set()
    called = {layer.number: layer.where for layer in loaded.layers}
    for frame in timeline.stations():
        for refusal in refusals.of_words(timeline.words(frame), called.get):
            if refusal not in said:
                said.add(refusal)
                where = f"{called.get(refusal.layer, 'screen')}: {_key(loaded, refusal)}"
                notes.fault(where, f"{refusal.what}; frame {frame} is refused {in_brackets(refusal.number)}")
    return timeline


def _key(loaded, refusal):
    """The key that a scene has for it: a picture brings its size."""
    frame_layers = [layer.number for layer in loaded.layers if not layer.is_graphics]
    return "picture" if refusal.part == "size" and refusal.layer in frame_layers else refusal.part


def _check_scene(painter, path, data):
    loaded, notes = scene.read(path, data)
    timeline = note_refusals(loaded, notes)
    stations = timeline.stations() if timeline else []
    answers = ((frame, answer_of(painter, timeline.words(frame))) for frame in stations)
    refused = next((pair for pair in answers if pair[1]), None)
    if refused:
        print(f"{path}: the display answers {named(refused[1])} for frame {refused[0]}")
        if not notes.faults:
            raise Fault(path, f"frame {refused[0]} is refused with {named(refused[1])}")
    notes.end()
    layers = f"{len(loaded.layers)} layer{'s' * (len(loaded.layers) != 1)}"
    print(f"{path}: {layers}, frames 0 to {timeline.last()}: the display takes all of them")


def answer_of(painter, words):
    """What the display itself says of 52 words at a start, whatever their update bit."""
    painter.new(1)
    for register, value in enumerate(words):
        painter.write(register, value | registers.word(0, update=1) if register == 0 else value)
    return painter.start()


# ---- register images


def image_bytes(path, data):
    """An image's 208 bytes, of a file that has them as bytes or as 416 digits."""
    digits = b"".join(data.split())
    if len(data) != registers.IMAGE_LENGTH and len(digits) == 2 * registers.IMAGE_LENGTH:
        try:
            return bytes.fromhex(digits.decode("ascii"))
        except ValueError:
            pass  # told below, by its length
    if len(data) != registers.IMAGE_LENGTH:
        what = f"has {len(data)} bytes; write 52 words of 4 bytes, 208 in all, or 416 digits"
        raise Fault(path, f"{what} {in_brackets(16)}")
    return data


def _check_image(painter, path, data):
    words = registers.words_of(image_bytes(path, data))
    notes = Notes(path)
    for refusal in refusals.of_words(words):
        where = "screen" if refusal.layer is None else f"layer {refusal.layer}"
        notes.fault(f"{where}: {refusal.part}", f"{refusal.what} {in_brackets(refusal.number)}")
    for layer, what in refusals.without_effect(words):
        notes.warn("screen" if layer is None else f"layer {layer}", what)
    print(f"{path}: the display answers {named(answer_of(painter, words))}")
    notes.end()


# ---- sheets


def _check_sheet(painter, path, data):
    notes = Notes(path)
    lines = form.split(data)
    if not lines:
        raise Fault(path, "an empty sheet; write a line of digits for each frame")
    display = Display(painter)
    for number, line in enumerate(form.without_cr(notes, lines), 1):
        _check_line(notes, display, number, line)
    for bit in range(32):
        if display.errors >> bit & 1:
            notes.warn(f"error bit {bit}", error_bit(bit))
    notes.end()
    print(f"{path}: {len(lines)} line{'s' * (len(lines) != 1)}, each paints a frame")


def _check_line(notes, display, number, text):
    try:
        wrong = display.run(form.parse(text))
    except form.BadForm as bad:
        notes.fault(f"line {number}", f"{bad} (FE: nothing of the line is done)")
        return
    if wrong:
        where, answer, said = wrong
        notes.fault(f"line {number}: {where}", f"refused with {named(answer)}, printed as {answer:02X}; {said}")
    for layer, what in refusals.without_effect(display.active):
        if layer is not None:
            notes.warn(f"layer {layer}", what)


_CHECKS = {"scene": _check_scene, "image": _check_image, "sheet": _check_sheet}
KINDS = tuple(_CHECKS)
