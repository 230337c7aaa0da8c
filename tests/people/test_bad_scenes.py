"""Every kind of bad scene, as a user has it checked: one line that says where and what to write."""

from people_tools import Case, Image

SCREEN = "[screen]\nwidth = 64\nheight = 32\n"
LAYER = '[[layer]]\nname = "a"\nsize = [64, 32]\ncolours = { ink = "#FFFFFF" }\n'
FADE = LAYER + 'fade = "ink"\n'
PICTURE = '[[layer]]\nname = "p"\npicture = "p.png"\n'
DRAW = SCREEN + LAYER + "[[layer.draw]]\n"
TEXT = 'text = "Hi"\nat = [0, 0]\ncolour = "ink"\n'
BOX = 'box = [0, 0, 9, 9]\ncolour = "ink"\n'
SLIDE = 'frame = 3\nlayer = "p"\nat = [600, 0]\nover = 10\n[[change]]\n'
CHANGE = SCREEN + LAYER + PICTURE + "depth = 3\n[[change]]\n"


def texts(count):
    return SCREEN + LAYER + "".join(f'[[layer.draw]]\n{TEXT.replace("Hi", f"Hi {at}")}' for at in range(count))


def boxes(count):
    return SCREEN + LAYER + f"[[layer.draw]]\n{BOX}" * count


def colours(count):
    return (
        SCREEN
        + '[[layer]]\nname = "a"\nsize = [9, 9]\n[layer.colours]\n'
        + "".join(f'c{at} = "#000000"\n' for at in range(count))
    )


# What is written, the key that the line has to name, and what it has to say.
BAD = [
    ("", "screen: ", "is missing; write [screen]"),
    ("[screen\n", "line 1, column 8: ", "Expected ']'"),
    ("[screen]\nwidth = 64\nbackground = #102030\n", "line 3, column 14: ", "texts and colours in quotes"),
    (b"[screen]\nwidth = \xff\n", "", "no text in UTF-8"),
    ("screen = 3\n", "screen: ", "3 is no table; write [screen]"),
    ("layer = 3\n" + SCREEN, "layer: ", "3 is no list of tables; write [[layer]]"),
    (SCREEN + "[title]\n", "title: ", "no such key; write one of screen, layer, change"),
    (SCREEN + "heigth = 3\n", "screen: heigth: ", "no such key; write height"),
    ("[screen]\nwidth = 64\n", "screen: height: ", "is missing; write height"),
    ("[screen]\nwidth = 0\nheight = 3\n", "screen: width: ", "0 does not pass; write 1 to 4095"),
    ("[screen]\nwidth = 4096\nheight = 3\n", "screen: width: ", "4096 does not pass; write 1 to 4095"),
    ('[screen]\nwidth = "64"\nheight = 3\n', "screen: width: ", "'64' is no whole number"),
    ("[screen]\nwidth = 64\nheight = 3.5\n", "screen: height: ", "3.5 is no whole number"),
    (SCREEN + 'background = "#12345"\n', "screen: background: ", 'no colour; write "#RRGGBB"'),
    (SCREEN + 'background = "#12345678"\n', "screen: background: ", 'no colour; write "#RRGGBB"'),
    (SCREEN + "letters = 3\n", "screen: letters: ", "3 does not pass; write 1 or 2"),
    (SCREEN + "letters = true\n", "screen: letters: ", "true does not pass; write 1 or 2"),
    (SCREEN + "on = 1\n", "screen: on: ", "1 is no switch; write true or false"),
    (SCREEN + "frame = 4294967296\n", "screen: frame: ", "write 0 to 4294967295"),
    (SCREEN + ("[[layer]]\nsize = [1, 1]\ncolours = {}\n" * 9), "layer: ", "there are 9, and a display has 8"),
    (SCREEN + "[[layer]]\nsize = [1, 1]\n", "layer 0: ", 'has nothing to show; write picture = "FILE.png"'),
    (SCREEN + "[[layer]]\ncolours = {}\n", "layer 0: size: ", "is missing; write size = [width, height]"),
    (SCREEN + LAYER + "dept = 3\n", 'layer "a": dept: ', "no such key; write depth"),
    (SCREEN + LAYER.replace("size", "sise"), 'layer "a": sise: ', "no such key; write size"),
    (SCREEN + LAYER.replace("colours", "colors"), 'layer "a": colors: ', "no such key; write colours"),
    (SCREEN + PICTURE.replace("picture", "pictur"), 'layer "p": pictur: ', "no such key; write picture"),
    (DRAW + BOX.replace("colour", "color"), 'layer "a": draw 1: color: ', "no such key; write colour"),
    (DRAW + TEXT.replace("text", "tekst"), 'layer "a": draw 1: tekst: ', "no such key; write text"),
    (SCREEN.replace("screen", "scren"), "scren: ", "no such key; write screen"),
    (SCREEN + "at = [0, 0]\n", "screen: at: ", "it is a key of [[layer]]: write it under that heading"),
    (DRAW + BOX + "depth = 3\n", 'layer "a": draw 1: depth: ', "it is a key of [[layer]]"),
    (
        colours(1) + "at = [0, 0]\n",
        'layer "a": colours: at: ',
        "if the layer's at is meant, write it above [layer.colours]",
    ),
    (SCREEN + LAYER + "at = [0, -1]\n", 'layer "a": at: ', "-1 does not pass; write [x, y], each 0 to 4095"),
    (SCREEN + LAYER + "at = 3\n", 'layer "a": at: ', "3 is no list of 2 numbers"),
    (SCREEN + LAYER + "depth = 8\n", 'layer "a": depth: ', "8 does not pass; write 0 to 7"),
    (SCREEN + LAYER + "alpha = 256\n", 'layer "a": alpha: ', "256 does not pass; write 0 to 255"),
    (SCREEN + LAYER + "number = 8\n", 'layer "a": number: ', "8 does not pass; write 0 to 7"),
    (
        SCREEN + LAYER + LAYER.replace('"a"', '"b"') + "number = 0\ndepth = 1\n",
        'layer "b": number: ',
        '0 is taken by "a"',
    ),
    (SCREEN + LAYER + LAYER, 'layer "a": name: ', "two layers have it"),
    # places
    (
        SCREEN + LAYER + "at = [1, 0]\n",
        'layer "a": at: ',
        "x 1 and width 64 end at 65, and the screen at 64; write x 0; frame 0 is refused (10, OFF_SCREEN)",
    ),
    (
        SCREEN + LAYER.replace("64", "65"),
        'layer "a": size: ',
        "write a width of 1 to 64; frame 0 is refused (10, OFF_SCREEN)",
    ),
    (
        SCREEN + PICTURE.replace("p.png", "high.png"),
        'layer "p": picture: ',
        "write a height of 1 to 32; frame 0 is refused (10, OFF_SCREEN)",
    ),
    (
        SCREEN + LAYER + LAYER.replace('"a"', '"b"') + "depth = 0\n",
        'layer "b": depth: ',
        '0 is the depth of layer "a" too; write a free one, 1, 2, 3, 4, 5, 6 or 7; frame 0 is refused (11, SAME_DEPTH)',
    ),
    # pictures
    (SCREEN + PICTURE.replace("p.png", "q.png"), 'layer "p": picture: q.png: ', "no such file in this folder"),
    (SCREEN + PICTURE.replace("p.png", "."), 'layer "p": picture: .: ', "a folder; write the path of a PNG"),
    (
        SCREEN + PICTURE.replace("p.png", "few.txt"),
        'layer "p": picture: few.txt: ',
        "is no picture that can be read",
    ),
    (
        SCREEN + PICTURE.replace("p.png", "cut.png"),
        'layer "p": picture: cut.png: ',
        "is no picture that can be read",
    ),
    (
        SCREEN + PICTURE.replace("p.png", "deep.png"),
        'layer "p": picture: deep.png: ',
        "more than 8 bits a channel",
    ),
    (
        SCREEN + PICTURE.replace("p.png", "wide.png"),
        'layer "p": picture: wide.png: ',
        "is 4096 by 1; write one of at most 4095",
    ),
    (
        SCREEN + PICTURE + "size = [3, 3]\n",
        'layer "p": size: ',
        "is [3, 3], and the picture [5, 4]; pictures are not scaled",
    ),
    (SCREEN + PICTURE + "colours = {}\n", 'layer "p": picture: ', "stands beside colours; write two layers"),
    (SCREEN + PICTURE + "picture = 3\n", "line 7", "Cannot overwrite a value"),
    # fades
    (SCREEN + LAYER + "fading = { length = 3 }\n", 'layer "a": fading: ', 'has no fade; write fade = "card"'),
    (SCREEN + FADE, 'layer "a": fade: ', "has no time; write fading = "),
    (
        SCREEN + FADE + "fading = { length = 65536 }\n",
        'layer "a": fading: length: ',
        "65536 does not pass; write 1 to 65535",
    ),
    (
        SCREEN + FADE + "fading = { length = 0 }\n",
        'layer "a": fading: length: ',
        "0 does not pass; write 1 to 65535",
    ),
    (SCREEN + FADE + "fading = { start = 3 }\n", 'layer "a": fading: length: ', "is missing"),
    (SCREEN + FADE + "fading = { lenght = 3, length = 3 }\n", 'layer "a": fading: lenght: ', "write length"),
    (SCREEN + FADE + "alpha = 3\nfading = { length = 3 }\n", 'layer "a": alpha: ', "stands beside a fade"),
    (SCREEN + LAYER + 'fade = "in"\nfading = { length = 3 }\n', 'layer "a": fade: ', 'write "card" or "ink"'),
    (
        SCREEN + PICTURE + 'fade = "ink"\nfading = { length = 3 }\n',
        'layer "p": fade: ',
        'write fade = "card" for a picture',
    ),
    # drawing
    (
        DRAW + TEXT.replace("Hi", "x" * 33),
        'layer "a": draw 1: text: ',
        "has 33 letters, and 32 pass; write two entries",
    ),
    (
        DRAW + TEXT.replace("Hi", "café"),
        'layer "a": draw 1: text: ',
        "no font has é (U+00E9, latin small letter e with acute)",
    ),
    (DRAW + TEXT.replace("Hi", "a\\nb"), 'layer "a": draw 1: text: ', "it has several lines"),
    (DRAW + TEXT.replace("at = [0, 0]\n", ""), 'layer "a": draw 1: at: ', "is missing; write at = [x, y]"),
    (DRAW + TEXT + "scale = 3\n", 'layer "a": draw 1: scale: ', "3 does not pass; write 1, 2, 4 or 8"),
    (DRAW + TEXT + "weight = 3\n", 'layer "a": draw 1: weight: ', "a text has none"),
    (DRAW + TEXT.replace('"ink"', '"inc"'), 'layer "a": draw 1: colour: ', 'no colour "inc"; write ink'),
    (DRAW + TEXT.replace('"ink"', '"#12345"'), 'layer "a": draw 1: colour: ', 'write "#RRGGBBAA" or "#RRGGBB"'),
    (DRAW + BOX + "weight = 16\n", 'layer "a": draw 1: weight: ', "16 does not pass; write 1 to 15"),
    (DRAW + BOX + "scale = 2\n", 'layer "a": draw 1: scale: ', "a box has none"),
    (DRAW + BOX.replace("9, 9", "9"), 'layer "a": draw 1: box: ', "write [left, top, right, bottom]"),
    (DRAW + BOX.replace("[0,", "[10,"), 'layer "a": draw 1: box: ', "ends before it begins"),
    (DRAW + BOX + 'text = "Hi"\nat = [0, 0]\n', 'layer "a": draw 1: ', "has a box and a text"),
    (DRAW + 'colour = "ink"\n', 'layer "a": draw 1: ', "draws nothing; write box = or text ="),
    (DRAW + "box = [0, 0, 9, 9]\n", 'layer "a": draw 1: colour: ', "is missing"),
    (texts(9), 'layer "a": draw: ', 'has 9 different texts, and 8 pass; write "Hi 8" in a second layer'),
    (boxes(49), 'layer "a": draw: ', "has 49 entries, and 48 pass"),
    (colours(16), 'layer "a": colours: ', "need 17 places with clear, and there are 16"),
    (
        colours(1) + 'c = ["#000000", "#111111", "#222222"]\n',
        'layer "a": colours: c: ',
        "three shades are for texts of soft letters",
    ),
    (colours(1) + "c = 3\n", 'layer "a": colours: c: ', "3 is no colour"),
    (
        SCREEN + "letters = 2\n" + LAYER + "[[layer.draw]]\n" + TEXT.replace('"ink"', '"clear"'),
        'layer "a": draw 1: colour: ',
        "clear is one",
    ),
    (
        SCREEN + LAYER + 'font = "no.psf"\n[[layer.draw]]\n' + TEXT,
        'layer "a": font: no.psf: ',
        "no such font; write spoonwing",
    ),
    # changes
    (CHANGE + "on = true\n", "change 1: frame: ", "is missing"),
    (CHANGE + "frame = 3\ncolor = 3\n", "change 1: color: ", "write colours"),
    (CHANGE + 'frame = 3\nlayer = "b"\n', "change 1: layer: ", 'there is no "b"; write one of a, p'),
    (CHANGE + "frame = 3\nat = [0, 0]\n", "change 1: at: ", 'is a layer\'s; write layer = "NAME" too'),
    (
        CHANGE + 'frame = 3\nlayer = "a"\nbackground = "#000000"\n',
        "change 1: background: ",
        "is the screen's; leave layer out",
    ),
    (CHANGE + 'frame = 3\nlayer = "a"\nover = 3\n', 'change 1 (layer "a"): over: ', "has nowhere to go"),
    (
        CHANGE + 'frame = 3\nlayer = "a"\nfading = { length = 3 }\n',
        'change 1 (layer "a"): fading: ',
        "the layer has no fade yet",
    ),
    (CHANGE + 'frame = 3\nlayer = "a"\nfade = "ink"\n', 'change 1 (layer "a"): fade: ', "has no time"),
    (
        CHANGE + 'frame = 3\nlayer = "a"\npicture = "p.png"\n',
        'change 1 (layer "a"): picture: ',
        "the layer has a list",
    ),
    (CHANGE + 'frame = 3\nlayer = "p"\ndraw = []\n', 'change 1 (layer "p"): draw: ', "the layer has a picture"),
    (
        CHANGE + 'frame = 3\nlayer = "a"\ncolours = { inc = "#000000" }\n',
        'change 1 (layer "a"): colours: inc: ',
        "write ink",
    ),
    (
        CHANGE + 'frame = 3\nlayer = "p"\nat = [60, 0]\nover = 9\n',
        'layer "p": at: ',
        "end at 65, and the screen at 64; write x 0 to 59; frame 12 is refused (10, OFF_SCREEN)",
    ),
    (
        CHANGE + SLIDE + 'frame = 8\nlayer = "p"\nat = [0, 0]\n',
        'layer "p": at: ',
        "x 240 and width 5 end at 245, and the screen at 64; write x 0 to 59; frame 7 is",
    ),
    (CHANGE + 'frame = 7\nlayer = "p"\ndepth = 0\n', 'layer "p": depth: ', '0 is the depth of layer "a" too'),
]

# What is taken, and what the line has to say that warns of it.
WARNED = [
    (SCREEN + LAYER + "alpha = 9\n", 'layer "a": ', 'in black; write clear = "#RRGGBB"'),
    (SCREEN + LAYER + 'fade = "card"\nfading = { length = 9 }\n', 'layer "a": ', 'or fade = "ink"'),
    (
        DRAW + BOX.replace("9, 9", "64, 9"),
        'layer "a": draw 1: box: ',
        "goes past the layer of 64 by 32 and is cut there",
    ),
    (
        DRAW + TEXT.replace("Hi", "nine char"),
        'layer "a": draw 1: text: ',
        "needs 72 by 8 pixels and the layer has 64 by 32",
    ),
    (
        DRAW + TEXT.replace("[0, 0]", "[0, 25]"),
        'layer "a": draw 1: text: ',
        "needs 16 by 33 pixels and the layer has 64 by 32",
    ),
    (boxes(48), 'layer "a": draw: ', "leave no room for END: a display sets error bit 0; draw 47"),
    (
        SCREEN + LAYER + 'font = "few.txt"\n[[layer.draw]]\n' + TEXT,
        'layer "a": draw 1: text: ',
        "the font few.txt has no i",
    ),
]


class BadScenes(Case):
    def setUp(self):
        super().setUp()
        Image.new("RGBA", (5, 4)).save(self.folder / "p.png")
        Image.new("I;16", (5, 4)).save(self.folder / "deep.png")
        Image.new("RGB", (5, 33)).save(self.folder / "high.png")
        Image.new("RGB", (4096, 1)).save(self.folder / "wide.png")
        Image.effect_noise((64, 32), 99).save(self.folder / "noise.png")
        self.write("cut.png", (self.folder / "noise.png").read_bytes()[:600])
        self.write("few.txt", "= H\n" + "#.....#.\n" * 8)

    def checked(self, rows, status):
        """What `check` says of each scene, all of them in one command."""
        names = [f"s{at}.toml" for at in range(len(rows))]
        for name, (text, _, _) in zip(names, rows):
            self.write(name, text)
        _, err = self.run_tool("check", *names, status=status)
        return [(name, [line for line in err.splitlines() if f"{name}: " in line]) for name in names]

    def test_each_gives_one_line(self):
        for (name, lines), (text, where, said) in zip(self.checked(BAD, 1), BAD):
            with self.subTest(text=text):
                self.assertEqual(len(lines), 1, lines)
                self.assertTrue(lines[0].startswith(f"{name}: {where}"), lines[0])
                self.assertIn(said, lines[0])

    def test_what_is_cut_or_shown_otherwise_is_a_warning(self):
        for (name, lines), (text, where, said) in zip(self.checked(WARNED, 0), WARNED):
            with self.subTest(text=text):
                self.assertEqual(len(lines), 1, lines)
                self.assertTrue(lines[0].startswith(f"warning: {name}: {where}"), lines[0])
                self.assertIn(said, lines[0])

    def test_all_faults_of_a_scene_are_said(self):
        layer = LAYER.replace("[64", "[70").replace('"a"', '"b"')
        self.write(
            "s.toml", SCREEN + "heigth = 3\n" + layer + LAYER + "at = [0]\n" + PICTURE.replace("p.p", "q.p")
        )
        out, err = self.run_tool("check", "s.toml", status=1)
        self.assertEqual(
            [line.split(": ", 3)[1:3] for line in err.splitlines()],
            [["screen", "heigth"], ['layer "a"', "at"], ['layer "p"', "picture"], ['layer "b"', "size"]],
        )
        self.assertEqual(out, "s.toml: the display answers 10 (OFF_SCREEN) for frame 0\n")

    def test_a_layers_own_faults_hide_none_that_it_has_with_others(self):
        """Unless a key is misspelt or a change names the layer: where it lies is not known then."""
        fade = FADE + "fading = { length = 65536 }\nat = [1, 0]\n"
        two = ['layer "a": fading: length', 'layer "a": at']
        for more, told in (
            ("", two),
            (PICTURE + "depth = 0\n", [*two, 'layer "p": depth']),
            ("dept = 3\n", ['layer "a": dept', two[0]]),
            ('[[change]]\nframe = 0\nlayer = "a"\nat = [0, 0]\n', two[:1]),
        ):
            with self.subTest(more):
                self.write("s.toml", SCREEN + fade + more)
                lines = self.run_tool("check", "s.toml", status=1)[1].splitlines()
                self.assertEqual(len(lines), len(told), lines)
                for line, where in zip(lines, told):
                    self.assertTrue(line.startswith(f"s.toml: {where}: "), line)

    def test_bad_scenes_are_not_painted(self):
        self.write("s.toml", SCREEN + LAYER + "at = [1, 0]\n")
        for words in (
            ("still", "s.toml"),
            ("film", "s.toml", "-o", "f.webp"),
            ("sheet", "s.toml"),
            ("pack", "s.toml", "-o", "d"),
        ):
            with self.subTest(words):
                self.assert_line(self.run_tool(*words, status=1)[1], 's.toml: layer "a": at: x 1 and width 64')
        self.assertEqual(
            sorted(path.name for path in self.folder.iterdir() if path.suffix in (".webp", "")), []
        )

    def test_crlf_and_a_byte_order_mark_are_taken(self):
        self.write("s.toml", b"\xef\xbb\xbf" + (DRAW + TEXT).replace("\n", "\r\n").encode())
        self.assertEqual(
            self.run_tool("check", "s.toml"),
            ("s.toml: 1 layer, frames 0 to 0: the display takes all of them\n", ""),
        )
