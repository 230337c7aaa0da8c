"""The command `mend`: the proved repair of a register image, and of a scene's, told in words."""

from people import check, files, registers, scene
from people.answers import cure, named
from people.faults import Fault
from people.painter import Painter
from people.registers import KIND, PLACE, SIZE
from people.timeline import Timeline


def mend(words):
    data = files.read(words.file, "a register image or a scene")
    if words.output:
        files.ask_for_folder(words.output)
    kind = words.kind or check.kind_of(words.file, data)
    if kind == "scene":
        _mend_scene(words, data)
    else:
        _mend_image(words, data)


def _mended(painter, path, image):
    answer, mended, changes = painter.mend(image)
    if answer:
        raise Fault(path, f"refused with {named(answer)}; {cure(answer)}")
    return mended, changes


# ---- images


def _mend_image(words, data):
    image = check.image_bytes(words.file, data)
    with Painter() as painter:
        mended, changes = _mended(painter, words.file, image)
    for register, old, new in changes:
        name = f"register {register} ({registers.title(register)})"
        print(f"{name}: {old:08X} -> {new:08X}: {_why(register, old, new)}")
    if not changes:
        print(f"{words.file}: nothing is to be mended")
    if words.output:
        is_text = len(data) != registers.IMAGE_LENGTH
        files.write(words.output, mended.hex().upper().encode() + b"\n" if is_text else mended)
        print(f"The mended image is {words.output}")
    elif changes:
        print("Name a file with -o to have the mended image written")


def _why(register, old, new):
    """What was done to a word, field by field."""
    said = [f"reserved bit {bit} cleared" for bit in registers.reserved_bits(register, old)]
    was, now = registers.fields(register, old), registers.fields(register, new)
    for name in was:
        if was[name] != now[name]:
            said.append(f"{name} {was[name]} becomes {now[name]}, {_reason(name)}")
    return "; ".join(said)


def _reason(name):
    reasons = {
        "enabled": "switched off, since it has no size or its picture is larger than the screen",
        "floats": "since a list has no float picture",
        "depth": "the smallest that was free",
        "x": "moved just far enough to the left",
        "y": "moved just far enough up",
        "width": "cut to the screen",
        "height": "cut to the screen",
    }
    return reasons[name]


# ---- scenes


def _mend_scene(words, data):
    """A scene is told what to write; its file is its author's."""
    if words.output:
        raise Fault(words.file, "a scene is not rewritten; write what is said here into it, and leave -o out")
    loaded, notes = scene.read(words.file, data)
    notes.end()
    timeline, said = Timeline(loaded), []
    with Painter() as painter:
        for frame in timeline.stations():
            _, changes = _mended(painter, words.file, registers.image_of(timeline.words(frame)))
            for line in _cures(loaded, changes):
                if line not in said:
                    said.append(line)
                    print(f"{words.file}: from frame {frame} on: {line}")
    if not said:
        print(f"{words.file}: nothing is to be mended")


def _cures(loaded, changes):
    for register, old, new in changes:
        layer = next(layer for layer in loaded.layers if layer.number == registers.layer_of(register))
        part, where = register - registers.at(layer.number, 0), layer.where
        was, now = registers.fields(register, old), registers.fields(register, new)
        if part == KIND and was["enabled"] and not now["enabled"]:
            yield f"{where}: its picture is larger than the screen; write on = false, or a smaller picture"
        elif part == KIND:
            yield f"{where}: its depth {was['depth']} is taken; write depth = {now['depth']}"
        elif part == PLACE:
            places = [f"[{fields['x']}, {fields['y']}]" for fields in (now, was)]
            yield f"{where}: it leaves the screen; write at = {places[0]} for {places[1]}"
        elif part == SIZE:
            yield f"{where}: it is larger than the screen; write size = [{now['width']}, {now['height']}]"
