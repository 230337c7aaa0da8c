"""Seeded scenes, sheets and images beside the second display: what is filmed is what a sheet's loads and
writes make of a display, and what is said of a sheet's line is what is printed for it."""

import random
import subprocess
from collections import Counter
from pathlib import Path

from people_tools import SECOND, Case, Image, second_sheet

from people import check, form, scene, sheet
from people.display import Display
from people.faults import Notes
from people.painter import Painter
from people.timeline import Timeline

SCENES = 150
SHEETS = 12
LAST = 14  # frames in which changes come


class Maker:
    """Makes scenes as tables, all of them good."""

    def __init__(self, seed):
        self.any = random.Random(seed)
        self.width, self.height = self.any.randrange(12, 33), self.any.randrange(10, 32)
        self.changes = []

    def often(self, share):
        return self.any.random() < share

    def colour(self, digits=8):
        return f"#{self.any.randrange(16**digits):0{digits}X}"

    def place(self, width, height):
        return [self.any.randrange(self.width - width + 1), self.any.randrange(self.height - height + 1)]

    def draws(self, width, height):
        return [self.draw(width, height) for _ in range(self.any.randrange(4))]

    def draw(self, width, height):
        x, y = self.any.randrange(width), self.any.randrange(height)
        colour = self.any.choice(("ink", "glass", self.colour()))
        if self.often(0.5):
            box = [x, y, self.any.randrange(x, width), self.any.randrange(y, height)]
            weight = {"weight": self.any.randrange(1, 16)} if self.often(0.5) else {}
            return {"box": box, "colour": colour} | weight
        text = "".join(chr(self.any.randrange(32, 128)) for _ in range(self.any.randrange(1, 4)))
        return {"text": text, "at": [x, y], "scale": self.any.choice((1, 2, 4, 8)), "colour": colour}

    def alpha(self, is_graphics):
        """An alpha, a fade of either kind, or neither."""
        values = {
            "from": self.any.randrange(256),
            "to": self.any.randrange(256),
            "start": self.any.randrange(12),
        }
        fading = values | {"length": self.any.randrange(1, 9)}
        ways = [{}, {"alpha": self.any.randrange(256)}, {"fade": "card", "fading": fading}]
        return self.any.choice(ways + [{"fade": "ink", "fading": fading}] * 2 * is_graphics)

    def layer(self, at, number, depth):
        layer = {"name": f"layer {at}", "number": number, "depth": depth, "on": self.often(0.8)}
        is_graphics = self.often(0.6)
        width, height = self.any.randrange(1, self.width + 1), self.any.randrange(1, self.height + 1)
        if is_graphics:
            colours = {"ink": self.colour(), "glass": self.colour(), "clear": self.colour()}
            layer |= {"size": [width, height], "colours": colours, "draw": self.draws(width, height)}
        else:
            width, height = 6, 4  # what either picture needs
            layer["picture"] = self.any.choice(("p.png", "q.png"))
        layer |= {"at": self.place(width, height)} | self.alpha(is_graphics)
        self.changes += [self.change(layer, width, height) for _ in range(self.any.randrange(4))]
        return layer

    def change(self, layer, width, height):
        change = {"frame": self.any.randrange(LAST), "layer": layer["name"]}
        change |= {"on": self.often(0.6)} if self.often(0.4) else {}
        change |= {"at": self.place(width, height)} if self.often(0.4) else {}
        change |= {"over": self.any.randrange(1, 9)} if "at" in change and self.often(0.6) else {}
        change |= self.alpha("draw" in layer) if self.often(0.5) else {}
        if "draw" in layer:
            change |= {"draw": self.draws(width, height)} if self.often(0.4) else {}
            change |= {"colours": {"ink": self.colour()}} if self.often(0.3) else {}
        elif self.often(0.5):
            change["picture"] = self.any.choice(("p.png", "q.png"))
        return change

    def scene(self):
        count = self.any.randrange(1, 5)
        numbers, depths = self.any.sample(range(8), count), self.any.sample(range(8), count)
        layers = [self.layer(at, *pair) for at, pair in enumerate(zip(numbers, depths))]
        for _ in range(self.any.randrange(3)):
            values = {"background": self.colour(6), "on": self.often(0.8)}
            self.changes.append({"frame": self.any.randrange(LAST)} | values)
        self.any.shuffle(self.changes)
        screen = {"width": self.width, "height": self.height, "background": self.colour(6)}
        return {"screen": screen, "layer": layers, "change": self.changes}


class Seeded(Case):
    def setUp(self):
        super().setUp()
        Image.new("RGBA", (4, 4), (200, 100, 50, 128)).save(self.folder / "p.png")
        Image.new("RGBA", (6, 2), (20, 100, 250, 200)).save(self.folder / "q.png")

    def loaded(self, tables):
        notes = Notes("scene")
        made = scene.of_tables(notes, tables, Path(self.folder))
        timeline = check.note_refusals(made, notes)
        self.assertEqual(notes.faults, [], tables)
        return timeline

    def test_what_is_filmed_is_what_loads_and_writes_make(self):
        loads = 0
        with Painter() as painter:
            for seed in range(SCENES):
                maker = Maker(seed)
                timeline = self.loaded(maker.scene())
                first = maker.any.randrange(10)
                frames = range(first, first + 12)
                lines, before = sheet.lines_of(Timeline(timeline.scene, first), frames)
                loads += sum(len(line.loads) for line in lines[before + 1 :])
                printed = second_sheet("".join(f"{form.text_of(line)}\n" for line in lines).encode()).split()
                for number, line in zip(frames, printed[before:], strict=True):
                    answer, pixels = painter.frame(timeline.frame(number))
                    self.assertEqual((answer, line[:10]), (0, b"0000000000"), (seed, number))
                    self.assertTrue(bytes.fromhex(line[18:].decode()) == pixels, (seed, number))
        self.assertGreater(loads, 3 * SCENES)  # so that banks are turned over often

    def test_what_is_said_of_a_line_is_what_is_printed(self):
        numbers = Counter()
        with Painter() as painter:
            for seed in range(SHEETS):
                text = subprocess.run([SECOND / "gen", str(seed), "40"], capture_output=True, check=True).stdout
                display = Display(painter)
                for place, (line, printed) in enumerate(
                    zip(form.split(text), second_sheet(text).split(), strict=True)
                ):
                    number = self.said(display, line)
                    numbers[number] += 1
                    self.assertEqual(f"{number:02X}", printed[:2].decode(), (seed, place))
        self.assertEqual(set(numbers), {0, 1, 2, 4, 5, 7, 8, 9, 10, 11, 12, 13, 14, 0xFE})

    def said(self, display, line):
        try:
            wrong = display.run(form.parse(line))
        except form.BadForm:
            return 0xFE
        return wrong[1] if wrong else 0
