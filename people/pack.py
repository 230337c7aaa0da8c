"""The command `pack`: a frame of a scene as the files that a host lends, and as a C header."""

import re
import struct
from pathlib import Path

from people import check, files, registers
from people.faults import Fault, reason

_WIDTH = 16  # bytes a line of C


def pack(words):
    folder = Path(words.output)
    if folder.exists() and not folder.is_dir():
        raise Fault(words.output, "a file; name a folder with -o")
    if not folder.parent.is_dir():
        cure = f"make it (mkdir -p {folder.parent}) or name another with -o"
        raise Fault(words.output, f"there is no folder {folder.parent}; {cure}")
    timeline = check.whole(words.scene)
    frame = timeline.frame(timeline.scene.still if words.frame is None else words.frame)
    name = re.sub(r"\W", "_", Path(words.scene).stem, flags=re.ASCII)
    name = f"scene_{name}" if not name[:1].isalpha() else name
    parts = {
        "image.bin": registers.image_of(frame.words),
        "frame.bin": struct.pack("<I", frame.number),
        "tables.bin": frame.tables,
        "pictures.bin": frame.pictures,
        f"{name}.h": _header(name, timeline.scene, frame).encode(),
    }
    try:
        folder.mkdir(exist_ok=True)
    except OSError as error:
        raise Fault(words.output, f"cannot be made ({reason(error)}); name another with -o") from None
    for file, data in parts.items():
        files.write(str(folder / file), data)
        print(f"{folder / file}: {len(data)} bytes")


def _header(name, scene, frame):
    guard = f"{name.upper()}_H"
    pixels = 4 * scene.width * scene.height
    told = [_told(register, value) for register, value in enumerate(frame.words) if value]
    return "\n".join(
        [
            f"/* {Path(scene.file).name} at frame {frame.number}, made by `spoonwing pack`. A host paints it by",
            " *",
            f" *     static uint8_t output[{pixels}];",
            f" *     spoonwing_frame({name}_image, sizeof {name}_image, {name}_frame, {name}_tables,",
            f" *                     sizeof {name}_tables, {name}_pictures, {name}_pictures_length,",
            " *                     output, sizeof output);",
            " *",
            " * The registers that are not 0:",
            " *",
            *told,
            " */",
            f"#ifndef {guard}",
            f"#define {guard}",
            "",
            "#include <stddef.h>",
            "#include <stdint.h>",
            "",
            f"enum {{ {name}_width = {scene.width}, {name}_height = {scene.height} }};",
            f"static const uint32_t {name}_frame = {frame.number}u;",
            _array(f"{name}_image", registers.image_of(frame.words)),
            _array(f"{name}_tables", frame.tables),
            f"static const size_t {name}_pictures_length = {len(frame.pictures)};",
            # C has no empty array, so a scene without pictures has one byte, which is not lent.
            _array(f"{name}_pictures", frame.pictures or b"\0"),
            "",
            "#endif",
            "",
        ]
    )


def _told(register, value):
    return f" *   {register:2}  {value:08X}  {registers.title(register)}: {registers.in_words(register, value)}"


def _array(name, data):
    rows = [",".join(map(str, data[at : at + _WIDTH])) for at in range(0, len(data), _WIDTH)]
    return f"static const uint8_t {name}[{len(data)}] = {{\n" + ",\n".join(rows) + "};"
