"""A scene read from its file, with all that is wrong in it."""

from pathlib import Path

from people import drawing, keys
from people.faults import Fault, Notes
from people.looks import Scene
from people.reader import Reader
from people.registers import LAYERS


def read(path, data):
    """The scene of a file's bytes, with the layers and changes that could be made, and the notes of what
    is wrong; None for a scene without a screen."""
    notes = Notes(path)
    return of_tables(notes, _toml(path, data), Path(path).parent), notes


def of_tables(notes, tables, folder):
    """The scene of a file's tables, whose pictures and fonts stand in a folder."""
    root = keys.read(notes, "", "", tables, needed=["screen"])
    needed = ["width", "height"] if "screen" in root else []
    screen = keys.read(notes, "screen", "screen", root.get("screen", {}), needed)
    given = root.get("layer", [])
    if len(given) > LAYERS:
        what = f"there are {len(given)}, and a display has {LAYERS}"
        notes.fault("layer", f"{what}; write fewer, or join some in one")
    names = [table.get("name", f"layer {at}") for at, table in enumerate(given)]
    reader, letters = Reader(notes, folder, names), screen.get("letters", 1)
    layers = [layer for at, table in enumerate(given[:LAYERS]) if (layer := reader.layer(at, table))]
    first = {"background": screen.get("background", (0, 0, 0)), "on": screen.get("on", True)}
    size = screen.get("width"), screen.get("height")
    scene = Scene(notes.file, size, letters, screen.get("frame", 0), first, layers)
    changes = root.get("change", [])
    for number, table in reader.in_order(changes):
        reader.change(scene, number, table)
    changed = [table.get("layer") for table in changes]
    fixed = [hull for hull in reader.hulls if hull.name not in changed and hull.number not in changed]
    settled = [layer for layer in layers + fixed if drawing.settle(notes, layer, letters, folder)]
    scene.layers = _own(notes, settled)
    return scene if all(size) else None


def _toml(path, data):
    import tomllib  # which takes longer to load than most commands to run

    try:
        return tomllib.loads(data.decode("utf-8-sig"))
    except UnicodeDecodeError:
        raise Fault(path, "no text in UTF-8; write a scene (`spoonwing scene` has its keys)") from None
    except tomllib.TOMLDecodeError as error:
        what, _, place = str(error).rstrip(")").rpartition(" (at ")
        cure = "write [section] or key = value, with texts and colours in quotes"
        raise Fault(f"{path}: {place}", f"{what}; {cure}") from None


def _own(notes, layers):
    """Those layers whose number and name no layer before them has."""
    kept = []
    for layer in layers:
        for other in kept:
            if other.number == layer.number:
                what = f'{layer.number} is taken by "{other.name}"; write another of 0 to 7'
                notes.fault(f"{layer.where}: number", what)
                break
            if other.name == layer.name:
                notes.fault(f"{layer.where}: name", "two layers have it; write another")
                break
        else:
            kept.append(layer)
    return kept
