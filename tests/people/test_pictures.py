"""Stills, films, sheets and packs: each picture is compared with the second display's bytes, and what a
scene becomes with words and tables that are worked out by hand."""

import struct
import subprocess
import unittest

from people_tools import SECOND, TOP, Case, Image, pixels, second_frame, second_sheet

SCREEN = """[screen]
width = 40
height = 20
background = "#102030"
"""

# A box and a text at scale 2, an outline, and a picture over them.
DRAWN = """
[[layer]]
name = "list"
number = 2
depth = 5
at = [3, 2]
size = [36, 18]
colours = { clear = "#00000040", glass = "#0A1420C0", ink = "#FFF4DE" }
draw = [
    { box = [1, 2, 34, 13], colour = "glass" },
    { box = [0, 0, 35, 17], colour = "#FF000080", weight = 2 },
    { text = "A~", at = [2, 1], scale = 2, colour = "ink" },
    { text = "A~", at = [2, 9], colour = "glass" },
]
"""
PICTURE = """
[[layer]]
name = "bird"
number = 0
depth = 6
at = [30, 1]
picture = "bird.png"
"""
FADES = """
[[layer]]
name = "card"
at = [0, 0]
size = [16, 16]
fade = "card"
fading = { from = 10, to = 240, start = 3, length = 7 }
colours = { clear = "#405060", ink = "#FFFFFF" }
draw = [{ text = "Hi", at = [0, 4], colour = "ink" }]

[[layer]]
name = "ink"
at = [16, 0]
size = [16, 16]
fade = "ink"
fading = { start = 2, length = 9 }
colours = { ink = "#FFEE80C0", glass = "#000000" }
draw = [{ box = [1, 1, 14, 14], colour = "glass" }, { text = "Hi", at = [0, 4], colour = "ink" }]

[[change]]
frame = 5
layer = "card"
at = [8, 4]
over = 6

[[change]]
frame = 8
layer = "ink"
fading = { to = 0, length = 4 }

[[change]]
frame = 9
layer = "ink"
draw = [{ text = "Ho", at = [0, 8], colour = "ink" }]

[[change]]
frame = 10
background = "#FF8000"
"""
SMALL = '[screen]\nwidth = 32\nheight = 20\nbackground = "#102030"\n'
LAST = 12  # the last frame of FADES at which anything changes: the second fade of `ink` ends


class Pictures(Case):
    def setUp(self):
        super().setUp()
        bird = Image.new("RGBA", (7, 5))
        bird.putdata([(x * 30, y * 50, 200 - x, 60 * (x % 5)) for y in range(5) for x in range(7)])
        bird.save(self.folder / "bird.png")

    def packed(self, scene, *words):
        """What `pack` leaves of a scene."""
        self.run_tool("pack", scene, "-o", "packed", *words)
        return self.folder / "packed"

    def assert_alike(self, picture, folder):
        self.assertTrue(pixels(self.folder / picture) == second_frame(folder), f"{picture} is another frame")

    # ---- stills

    def test_a_still_is_the_second_displays_frame(self):
        self.write("a.toml", SCREEN + DRAWN + PICTURE)
        out, err = self.run_tool("still", "a.toml")
        self.assertEqual((out, err), ("The picture is a.png, frame 0\n", ""))
        self.assert_alike("a.png", self.packed("a.toml"))

    def test_soft_letters_are_the_second_displays(self):
        self.write("a.toml", SCREEN + "letters = 2\n" + DRAWN)
        self.run_tool("still", "a.toml")
        folder = self.packed("a.toml")
        self.assertEqual(len((folder / "tables.bin").read_bytes()), 41984)
        self.assert_alike("a.png", folder)

    def test_shades_of_soft_letters_by_hand(self):
        """A text's colour has three places, at one and two thirds of its alpha and at all of it."""
        colours = (
            'colours = { box = "#0A1420C0", ink = "#FFF4DEC8", own = ["#01020304", "#05060708", "#090A0B0C"] }'
        )
        draw = [f'{{ text = "A", at = [0, 0], colour = "{name}" }}' for name in ("ink", "own")]
        draw += [f'{{ box = [0, 0, 1, 1], colour = "{name}" }}' for name in ("box", "ink")]
        layer = f"[[layer]]\nsize = [9, 9]\n{colours}\ndraw = [{', '.join(draw)}]\n"
        self.write("a.toml", SCREEN + "letters = 2\n" + layer)
        bank = (self.packed("a.toml") / "tables.bin").read_bytes()[2624:]
        self.assertEqual(
            bank[768:800].hex(), "00000000" "0a1420c0" "fff4de43fff4de85fff4dec8" "0102030405060708090a0b0c"
        )
        self.assertEqual(
            [bank[16 * at + 12 : 16 * at + 14].hex() for at in range(4)], ["0002", "0005", "0100", "0400"]
        )

    def test_frame_numbers_up_to_the_last(self):
        self.write("a.toml", SMALL + FADES)
        for number in "0", "6", "4294967295":
            self.run_tool("still", "a.toml", "--frame", number, "-o", "a.png")
            self.assert_alike("a.png", self.packed("a.toml", "--frame", number))

    def test_largest_and_smallest_screen(self):
        for width, height in (4095, 3), (3, 4095), (1, 1):
            self.write("a.toml", f"[screen]\nwidth = {width}\nheight = {height}\nbackground = '#010203'")
            self.run_tool("still", "a.toml")
            self.assertEqual(pixels(self.folder / "a.png"), bytes([1, 2, 3, 255]) * width * height)

    def test_zoom_repeats_pixels(self):
        self.write("a.toml", SCREEN + DRAWN)
        self.run_tool("still", "a.toml")
        self.run_tool("still", "a.toml", "-o", "b.png", "--zoom", "3")
        with Image.open(self.folder / "a.png") as one, Image.open(self.folder / "b.png") as three:
            self.assertEqual(three.size, (120, 60))
            self.assertTrue(
                all(
                    three.getpixel((x, y)) == one.getpixel((x // 3, y // 3))
                    for x in range(120)
                    for y in range(60)
                )
            )

    def test_the_still_on_standard_output(self):
        self.write("a.toml", SCREEN)
        words = [TOP / "tools/spoonwing", "still", "a.toml", "-o", "-"]
        ended = subprocess.run(words, cwd=self.folder, capture_output=True, check=True)
        self.assertTrue(ended.stdout.startswith(b"\x89PNG"))

    # ---- what a scene becomes, by hand

    def test_words_by_hand(self):
        self.write("a.toml", SCREEN + DRAWN + PICTURE)
        words = struct.unpack("<52I", (self.packed("a.toml") / "image.bin").read_bytes())
        expected = {0: 5, 1: 0x0014_0028, 2: 0x302010, 3: 0x04040404}
        expected |= {4: 0x0601, 6: 0x0001_001E, 7: 0x0005_0007}
        expected |= {16: 0x0503, 18: 0x0002_0003, 19: 0x0012_0024}
        self.assertEqual({at: word for at, word in enumerate(words) if word}, expected)
        pixels = [(x * 30, y * 50, 200 - x, 60 * (x % 5)) for y in range(5) for x in range(7)]
        self.assertEqual((self.folder / "packed/pictures.bin").read_bytes(), b"".join(map(bytes, pixels)))

    def test_each_layer_has_its_own_picture(self):
        """Whatever the order of the layers in the file, their numbers, their depths and their names."""
        colours = {"c": (255, 0, 0), "a": (0, 255, 0), "b": (0, 0, 255)}
        layers = ""
        for at, (name, colour) in enumerate(colours.items()):
            Image.new("RGB", (1, 1), colour).save(self.folder / f"{name}.png")
            layers += f"[[layer]]\nname = '{name}'\nnumber = {(5, 7, 3)[at]}\ndepth = {(2, 0, 1)[at]}\n"
            layers += f"at = [{at}, 0]\npicture = '{name}.png'\n"
        self.write("s.toml", SCREEN + layers)
        self.run_tool("still", "s.toml")
        with Image.open(self.folder / "s.png") as frame:
            self.assertEqual([frame.getpixel((at, 0)) for at in range(3)], list(colours.values()))

    def test_tables_by_hand(self):
        self.write("a.toml", SCREEN + DRAWN)
        tables = (self.packed("a.toml") / "tables.bin").read_bytes()
        bank = tables[3712 * 2 + 1856 :][:1856]
        lists = [
            (0xA0022001, 0, 0x0000D002, 1),
            (0xA0023000, 0, 0x02011000, 3),
            (0xC0000002, 0, 0x40000001, 2 << 8),
            (0xC0000002, 0, 0x00000009, 1 << 8),
            (0, 0, 0, 0),
        ]
        self.assertEqual([struct.unpack_from("<4I", bank, 16 * at) for at in range(5)], lists)
        self.assertEqual(bank[768:784].hex(), "000000400a1420c0fff4deffff000080")
        self.assertEqual(bank[832:1088], b"A~" + bytes(254))
        self.assertFalse(any(tables[: 3712 * 2 + 1856]))

    def test_a_card_and_an_ink_fade_by_hand(self):
        """At frame 6 the card's fade is at (10 * 4 + 240 * 3 + 3) / 7 = 109; the ink's at
        (255 * 4 + 4) / 9 = 113, so that its alphas are (192 * 113 + 127) / 255 = 85 and 113."""
        self.write("a.toml", SMALL + FADES)
        folder = self.packed("a.toml", "--frame", "6")
        words = struct.unpack("<52I", (folder / "image.bin").read_bytes())
        self.assertEqual((words[5], words[8], words[9]), (0x8000000A, 3, 0xF0 << 16 | 7))
        self.assertEqual(words[6], 0x0001_0001)  # a sixth of the way from (0, 0) to (8, 4), rounded
        tables = (folder / "tables.bin").read_bytes()
        self.assertEqual(words[3] >> 8 & 2, 2)  # loads at frames 3 to 6 are four, and the first bank was 1
        self.assertEqual(tables[3712 + 1856 + 768 :][:12].hex(), "00000000" + "ffee8055" + "00000071")
        self.run_tool("still", "a.toml", "--frame", "6")
        with Image.open(self.folder / "a.png") as frame:  # (109 * 64 + 146 * 16 + 127) / 255 is 37
            self.assertEqual(
                [frame.getpixel(place) for place in ((0, 0), (1, 1))], [(16, 32, 48), (37, 53, 69)]
            )

    def test_a_fade_in_a_change_goes_on_from_where_the_layer_is(self):
        layer = "[[layer]]\nsize = [8, 8]\ncolours = {{ clear = '#0000FF9F' }}\n{}\n[[change]]\nframe = 10\nlayer = 0\n"
        layer += "fade = '{}'\nfading = {{ to = 0, length = 4 }}\n"
        for first, kind, start in (
            ("alpha = 200", "card", 200),
            ("", "card", 255),
            ("fade = 'card'\nfading = { length = 20 }", "card", 128),  # (255 * 10 + 10) / 20
            ("fade = 'ink'\nfading = { length = 20 }", "card", 255),
            ("", "ink", 255),
            ("fade = 'ink'\nfading = { length = 20 }", "ink", 128),
            ("fade = 'card'\nfading = { length = 20 }", "ink", 255),
        ):
            with self.subTest(first=first, kind=kind):
                self.write("a.toml", SMALL + layer.format(first, kind))
                folder = self.packed("a.toml", "--frame", "12")
                words = struct.unpack("<52I", (folder / "image.bin").read_bytes())
                bank = (folder / "tables.bin").read_bytes()[1856 * (words[3] >> 8 & 1) :]
                if kind == "card":
                    self.assertEqual((words[5], words[8], words[9]), (1 << 31 | start, 10, 4))
                else:  # half way, at 128 or 64 of 255, of an alpha of 159: 79.8 and 39.9
                    self.assertEqual(bank[771], {255: 80, 128: 40}[start])
                    self.assertEqual((words[5], words[9]), (0, 0))

    # ---- films

    def test_a_film_in_numbered_pictures(self):
        self.write("a.toml", SMALL + FADES)
        out, _ = self.run_tool("film", "a.toml", "-o", "f.png")
        self.assertIn(f"f-00000.png to f-{LAST:05d}.png, {LAST + 1} frames", out)
        for number in 4, 9, LAST:
            self.assert_alike(f"f-{number:05d}.png", self.packed("a.toml", "--frame", str(number)))

    def test_a_webp_has_every_frame_exactly_and_in_time(self):
        self.write("a.toml", SMALL + FADES)
        self.run_tool("film", "a.toml", "--frames", "2..7")
        with Image.open(self.folder / "a.webp") as film:
            self.assertEqual(film.n_frames, 6)
            times = []
            for place in range(6):
                film.seek(place)
                film.load()
                times.append(film.info["duration"])
            self.assertTrue(
                film.convert("RGBA").tobytes() == second_frame(self.packed("a.toml", "--frame", "7"))
            )
        self.assertEqual(sum(times), 100)  # six sixtieths of a second

    def test_a_gif_keeps_time_and_says_what_it_leaves_out(self):
        self.write("a.toml", SMALL + FADES)
        _, err = self.run_tool("film", "a.toml", "--frames", "0..11", "-o", "f.gif")
        self.assert_line(err, "warning: a GIF", "50 frames a second", ".webp")
        with Image.open(self.folder / "f.gif") as film:
            times = [film.seek(place) or film.info["duration"] for place in range(film.n_frames)]
            self.assertEqual(sum(times), 200)  # twelve sixtieths of a second; equal frames are joined
            film.seek(0)
            self.assertTrue(film.convert("RGBA").tobytes() == second_frame(self.packed("a.toml")))
        _, err = self.run_tool("film", "a.toml", "--frames", "4..9", "-o", "g.gif", "--rate", "30")
        self.assertEqual(err, "")
        with Image.open(self.folder / "g.gif") as film:  # 33.3, 66.7, 100, .. in whole ticks
            times = [film.seek(place) or film.info["duration"] for place in range(film.n_frames)]
            self.assertEqual(times, [30, 40, 30, 30, 40, 30])
        out, err = self.run_tool("film", "a.toml", "--frames", "4..4", "-o", "h.gif")
        self.assertEqual((out, err), ("The film is h.gif, 1 frame\n", ""))

    # ---- sheets

    def printed(self, text):
        """The frames that the second display's sheet program prints, as bytes."""
        lines = second_sheet(text.encode()).decode().split()
        self.assertEqual({line[:10] for line in lines}, {"0000000000"})
        return [bytes.fromhex(line[18:]) for line in lines]

    def test_a_sheet_paints_the_film(self):
        self.write("a.toml", SMALL + FADES)
        self.run_tool("film", "a.toml", "-o", "f.png")
        for first in 0, 5, 9:
            text, err = self.run_tool("sheet", "a.toml", "--frames", f"{first}..{LAST}")
            self.assertEqual(err, "")
            frames = self.printed(text)
            self.assertEqual(len(frames), LAST + 1 - first)
            for number, frame in enumerate(frames, first):
                self.assertTrue(frame == pixels(self.folder / f"f-{number:05d}.png"), (first, number))

    def test_a_table_is_loaded_only_where_it_changes(self):
        """From 0 to 2 in 8 frames: the value is 1 from the second frame on and 2 from the sixth."""
        fade = "fade = 'ink'\nfading = { to = 2, length = 8 }\n"
        self.write("a.toml", SMALL + f"[[layer]]\nsize = [8, 8]\n{fade}colours = {{ clear = '#FFFFFF' }}\n")
        text, _ = self.run_tool("sheet", "a.toml")
        self.assertEqual(
            [line[:2] for line in text.split()], ["01", "00", "01", "00", "00", "00", "01", "00", "00"]
        )

    def test_a_sheet_loads_in_lines_before_where_one_is_too_short(self):
        layers = "".join(
            f"[[layer]]\nat = [{at % 4 * 8}, {at // 4 * 8}]\nsize = [8, 8]\nfade = 'card'\nfading = {{ length = 4 }}\n"
            f"colours = {{ clear = '#808080', ink = '#FFFFFF' }}\n"
            f"draw = [{{ text = \"\\u007F\", at = [0, 0], colour = 'ink' }}]\n"
            for at in range(8)
        )
        self.write("a.toml", SMALL + layers)
        text, err = self.run_tool("sheet", "a.toml", "-o", "-")
        self.assert_line(err, "The first 2 of 7 lines load tables")
        frames = self.printed(text)
        self.assertEqual(frames[0], bytes((0x10, 0x20, 0x30, 255)) * 640)
        self.run_tool("film", "a.toml", "-o", "f.png")
        for number in range(5):
            self.assertTrue(frames[2 + number] == pixels(self.folder / f"f-{number:05d}.png"), number)

    @unittest.skipUnless((TOP / "crates/sheet/out/sheet").exists(), "`rt run` in crates/sheet builds it")
    def test_the_sheet_program_prints_what_the_second_one_does(self):
        self.write("a.toml", SMALL + FADES)
        text = self.run_tool("sheet", "a.toml")[0].encode()
        printed = subprocess.run([TOP / "tools/sheet"], input=text, capture_output=True, check=True).stdout
        self.assertTrue(printed == second_sheet(text))

    def test_a_sheet_is_well_for_check_and_read(self):
        self.write("a.toml", SMALL + FADES)
        self.run_tool("sheet", "a.toml", "-o", "a.sheet")
        self.assertEqual(
            self.run_tool("check", "a.sheet")[0], f"a.sheet: {LAST + 1} lines, each paints a frame\n"
        )
        told, _ = self.run_tool("read", "a.sheet")
        for part in (
            "load 1: layer 0, instructions, bank 1: 32 bytes",
            "text of string 0 at (0, 4), scale 1, colour 1",
            "'Hi'",
        ):
            self.assertIn(part, told)

    def test_what_does_not_fit_a_sheet(self):
        self.write("a.toml", SCREEN.replace("height = 20", "height = 200"))
        self.assert_line(
            self.run_tool("sheet", "a.toml", status=1)[1], "a.toml: screen: 40 by 200 are 8000 pixels", "1024"
        )
        self.write("a.toml", SMALL + "letters = 2")
        self.assert_line(
            self.run_tool("sheet", "a.toml", status=1)[1], "a.toml: screen: letters", "write letters = 1"
        )
        Image.new("RGBA", (32, 32)).save(self.folder / "large.png")
        self.write("a.toml", "[screen]\nwidth = 32\nheight = 32\n[[layer]]\npicture = 'large.png'")
        self.assert_line(
            self.run_tool("sheet", "a.toml", status=1)[1],
            "a.toml: frame 0: needs",
            "a line has 8192; 8192 are pictures: write smaller ones",
        )

    # ---- show

    def test_show_makes_the_printed_frames(self):
        self.write("a.toml", SMALL + FADES)
        text, _ = self.run_tool("sheet", "a.toml", "--frames", "3..5")
        printed = second_sheet(text.encode())
        self.write("printed", printed)
        self.run_tool("show", "printed", "-o", "s.png")
        for number in range(3):
            self.assert_alike(f"s-{1 + number:05d}.png", self.packed("a.toml", "--frame", str(3 + number)))
        out, _ = self.run_tool("show", "-", "-o", "one.png", data=printed.split(b"\n")[0])
        self.assertEqual(out, "The picture is one.png, line 1\n")
        self.assertEqual(pixels(self.folder / "one.png"), pixels(self.folder / "s-00001.png"))
        self.run_tool("show", "printed", "-o", "s.webp")

    def test_show_says_what_is_no_frame(self):
        for text, parts in (
            ("0A\n", ("line 1: was refused with 10 (OFF_SCREEN); move it",)),
            ("FE\n", ("line 1: was refused with 254 (BAD_FORM)", "spoonwing read")),
            ("00030000000005010001000202003020100000\n", ("line 1: is no printed frame", "tools/sheet")),
            ("hello\n", ("line 1: is nothing that the sheet program prints",)),
            ("", ("nothing was printed",)),
        ):
            with self.subTest(text):
                self.write("printed", text)
                self.assert_line(
                    self.run_tool("show", "printed", "-o", "s.png", status=1)[1], "printed: ", *parts
                )

    def test_show_tells_error_bits(self):
        self.write("printed", "0000000021" + "0001" + "0001" + "010203FF\n")
        _, err = self.run_tool("show", "printed", "-o", "s.png")
        self.assertEqual(err.count("\n"), 2)
        self.assertIn("warning: printed: line 1: error bit 0: layer 0 has a list without END", err)
        self.assertIn("error bit 5: layer 1 was put more bytes than a table has", err)

    # ---- pack

    def test_the_header_is_what_a_c_host_paints(self):
        self.write("a scene.toml", SCREEN + DRAWN + PICTURE)
        folder = self.packed("a scene.toml")
        main = """#include <stdio.h>
#include "spoonwing.h"
#include "a_scene.h"
static uint8_t output[4 * a_scene_width * a_scene_height];
int main(void)
{
    uint32_t answer = spoonwing_frame(a_scene_image, sizeof a_scene_image, a_scene_frame, a_scene_tables,
                                      sizeof a_scene_tables, a_scene_pictures, a_scene_pictures_length,
                                      output, sizeof output);
    fwrite(output, 1, sizeof output, stdout);
    return (int)answer;
}
"""
        (folder / "main.c").write_text(main)
        link = (
            f'. "{TOP}/tools/lib.sh"; c_flags="$c_flags -I {folder}"; link_host {folder}/main {folder}/main.c'
        )
        subprocess.run(["bash", "-c", link], check=True)
        painted = subprocess.run([folder / "main"], capture_output=True, check=True).stdout
        self.assertTrue(painted == second_frame(folder))

    def test_a_pack_of_a_scene_without_pictures(self):
        self.write("1.toml", SCREEN)
        out, _ = self.run_tool("pack", "1.toml", "-o", "packed")
        for part in (
            "packed/image.bin: 208 bytes",
            "packed/frame.bin: 4 bytes",
            "packed/tables.bin: 29696 bytes",
        ):
            self.assertIn(part, out)
        self.assertIn("scene_1_pictures_length = 0;", (self.folder / "packed/scene_1.h").read_text())

    # ---- fonts

    def test_a_font_as_a_picture(self):
        out, _ = self.run_tool("font", "spoonwing", "-o", "f.png")
        self.assertEqual(out, "The picture is f.png: 96 of the 96 letters, 16 a row, from space on\n")
        with Image.open(self.folder / "f.png") as page:
            self.assertEqual(page.size, (528, 248))
            cell = page.crop((8 + 32, 8 + 2 * 40, 8 + 64, 8 + 2 * 40 + 32))  # A is letter 33: row 2, column 1
            shown = [
                [cell.getpixel((4 * x + 1, 4 * y + 1)) == (255, 244, 222) for x in range(8)] for y in range(8)
            ]
        art = (TOP / "people/fonts/spoonwing.txt").read_text().split("\n")
        head = next(at for at, line in enumerate(art) if line.startswith("= ") and "A" in line.split())
        column = art[head].split().index("A") - 1
        drawn = [[sign == "#" for sign in art[head + 1 + row].split()[column]] for row in range(8)]
        self.assertEqual(shown, drawn)
        self.run_tool("font", "spoonwing", "--letters", "2")
        self.assertTrue((self.folder / "spoonwing.png").is_file())

    def test_the_second_display_was_built_from_this_tree(self):
        source = TOP / "tests/second/src/host.rs"
        self.assertGreater((SECOND / "frame").stat().st_mtime, source.stat().st_mtime)
