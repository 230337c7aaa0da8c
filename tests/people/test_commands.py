"""The other commands as a user types them: check and mend of images, check and read of sheets, explain,
help; and the manners of all."""

import io
import os
import random
import re
import struct
import subprocess
import tomllib
from pathlib import Path
from unittest import mock

from people_tools import SPOONWING, TOP, Case, Image, second_sheet

from people import answers, film, keys, refusals, registers
from people.check import answer_of
from people.painter import Painter

COMMANDS = ["still", "film", "check", "mend", "explain", "scene", "font", "sheet", "read", "show", "pack"]
PAGE = "00030000000005010001000202003020100000"  # document 01's line: a screen of 2 by 1
SCENE = "[screen]\nwidth = 8\nheight = 4\n"


def image(**words):
    """An image of 16 by 8 with some of its words, each by `w` and its register."""
    values = [0] * 52
    values[0], values[1] = 5, 0x0008_0010
    for name, value in words.items():
        values[int(name[1:])] = value
    return struct.pack("<52I", *values)


LAYER = {"w4": 0x003, "w7": 0x0004_0004}  # a list of 4 by 4 at (0, 0), depth 0

# An image, and for each line the layer, the key and what it has to say, with the number at its end.
IMAGES = [
    (image(w0=7), [("screen: reserved", "register 0 (switches) is 00000007; clear bit 1", 7)]),
    (image(w4=0x80), [("layer 0: reserved", "clear bit 7", 7)]),
    (image(w10=6), [("layer 1: kind", "clear bit 2 (float picture): bit 1 is set too", 7)]),
    (image(w10=4), [("layer 1: kind", "clear bit 2 (float picture): only kept displays take it", 7)]),
    (image(w1=0x0008_0000), [("screen: size", "the screen is 0 by 8; write 1 to 4095", 8)]),
    (
        image(w4=3, w7=0x0004_0000),
        [("layer 0: size", "it is 0 by 4; write 1 to 4095 for each, or switch it off", 9)],
    ),
    (
        image(**LAYER, w6=0x0000_000D),
        [("layer 0: at", "x 13 and width 4 end at 17, and the screen at 16; write x 0 to 12", 10)],
    ),
    (image(**LAYER, w10=3, w13=0x0001_0001), [("layer 1: depth", "0 is the depth of layer 0 too", 11)]),
    (
        image(w0=3, w4=3, w10=3, w13=0x0009_0001, w16=0x103, w19=0x0001_0001, w22=0x103, w25=0x0001_0001),
        [
            ("screen: reserved", "clear bit 1", 7),
            ("layer 0: size", "it is 0 by 0", 9),
            ("layer 1: size", "a height of 1 to 8", 10),
            ("layer 1: depth", "0 is the depth of layer 0 too", 11),
            ("layer 3: depth", "1 is the depth of layer 2 too", 11),
        ],
    ),
]

# A sheet's lines, and what the last one has to be told.
SHEETS = [
    ([PAGE[:-4]], "line 1: digit 35: the pictures' byte count needs 4 digits and the line has 0 more"),
    ([PAGE + "0"], "line 1: digit 39: the line should end here, and has 1 more"),
    ([PAGE[:-1] + "G"], "line 1: digit 38: byte 47 ('G') is no hexadecimal digit"),
    ([PAGE[:-1] + " "], "line 1: digit 38: a space is no hexadecimal digit"),
    (
        ["01030010000000"],
        "line 1: digit 9: load 1 (layer 0, colours, bank 1), whose count says 16 bytes, needs 32 digits",
    ),
    (["000200"], "line 1: digit 7: write 1 (register 0): its value needs 8 digits"),
    (["0" * 8194], "line 1: digit 8193: the line has 8194 digits, and 8192 pass"),
    ([""], "line 1: digit 1: the line is empty"),
    (["0001340000000000000"[:-1] + "0"], "line 1: digit 19: the line should end here"),
    (["000134000000000000"], "line 1: write 1 (register 52): refused with 1 (NO_REGISTER), printed as 01"),
    (
        ["0140000000" + "0000"],
        "line 1: load 1 (selection 40, which names no table), byte 1 of 0: refused with 2 (NO_SELECTION)",
    ),
    (
        ["0102000100" + "000000"],
        "line 1: load 1 (layer 0, colours, bank 0), byte 1 of 1: refused with 4 (BANK_ACTIVE), printed as 04",
    ),
    (
        ["01030041" + "00" * 65 + "000000"],
        "line 1: load 1 (layer 0, colours, bank 1), byte 65 of 65: refused with 5 (BANK_FULL)",
    ),
    (
        ["000100000000070000"],
        "line 1: the start: screen: reserved: refused with 7 (RESERVED_BIT), printed as 07",
    ),
    (["000100000000050000"], "line 1: the start: screen: size: refused with 8 (EMPTY_SCREEN), printed as 08"),
    (["00000000"], "line 1: the frame: refused with 12 (NO_SIZE), printed as 0C"),
    (
        ["00020000000005010021002000" + "00"],
        "line 1: the frame: the screen is 32 by 33, 1056 pixels, and 1024 pass: refused with 13",
    ),
    (
        [PAGE, PAGE[:-4] + "000400000000"],
        "line 2: the pictures: 4 bytes came and 0 pass: refused with 14 (BAD_PICTURES_LENGTH), printed as 0E",
    ),
]


class Images(Case):
    def test_all_refusals_are_named_in_the_displays_order(self):
        for data, lines in IMAGES:
            with self.subTest(lines[0]):
                self.write("i.bin", data)
                out, err = self.run_tool("check", "i.bin", status=1)
                told = [line for line in err.splitlines() if not line.startswith("warning: ")]
                self.assertEqual(len(told), len(lines), err)
                for line, (where, said, number) in zip(told, lines):
                    self.assertTrue(line.startswith(f"i.bin: {where}: "), line)
                    self.assertIn(said, line)
                    self.assertTrue(line.endswith(f"({number}, {answers.ANSWERS[number].name})"), line)
                number = lines[0][2]
                self.assertEqual(out, f"i.bin: the display answers {number} ({answers.ANSWERS[number].name})\n")

    def test_what_has_no_effect_is_a_warning(self):
        self.write(
            "i.bin", image(w0=0, w4=3, w5=200, w7=0x0004_0004, w9=30, w10=0x103, w13=0x0001_0001, w15=0xFF0000)
        )
        out, err = self.run_tool("check", "i.bin")
        self.assertEqual(out, "i.bin: the display answers 0 (DONE)\n")
        said = [
            "the update bit",
            "the display is off",
            "layer 0: alpha 200 has no effect",
            "layer 0: the fade has no effect",
            "layer 1: fade target 255",
        ]
        self.assertEqual(len(err.splitlines()), len(said), err)
        for line, part in zip(err.splitlines(), said):
            self.assertTrue(line.startswith("warning: i.bin: "), line)
            self.assertIn(part, line)

    def test_an_image_of_another_length(self):
        self.write("i.bin", image()[:-1])
        self.assert_line(
            self.run_tool("check", "i.bin", status=1)[1], "i.bin: has 207 bytes", "208", "(16, BAD_IMAGE_LENGTH)"
        )

    def test_the_words_say_what_the_display_answers(self):
        """Seeded images, each a few random words over one that passes: the first refusal that is named is
        the one that the display answers."""
        seeded, numbers = random.Random(21), set()
        with Painter() as painter:
            for _ in range(300):
                words = list(
                    struct.unpack(
                        "<52I", image(**LAYER, w10=0x101, w13=0x0002_0003, w16=0x203, w19=0x0008_0010)
                    )
                )
                for _ in range(seeded.randrange(4)):
                    register = seeded.choice((0, 1, 4, 6, 7, 10, 12, 13, 16, 18, 19, 51))
                    words[register] ^= 1 << seeded.choice((0, 1, 2, 3, 4, 8, 9, 16, 19, 20, 31))
                named = [refusal.number for refusal in refusals.of_words(words)]
                answer = answer_of(painter, words)
                numbers.add(answer)
                self.assertEqual(named[0] if named else 0, answer, words)
        self.assertEqual(numbers, {0, 7, 8, 9, 10, 11})

    # ---- mend

    def test_mend_says_each_change_and_writes_the_image(self):
        """The image of the README: a reserved bit, and a layer of 100 by 20 at x 600 of 640."""
        digits = "0300000080026801000000000000000003000000000000005802000064001400" + "0" * 352
        self.write("i.txt", digits + "\n")
        out, _ = self.run_tool("mend", "i.txt", "-o", "m.txt", "--as", "image")
        self.assertIn("register 0 (switches): 00000003 -> 00000001: reserved bit 1 cleared", out)
        self.assertIn(
            "register 6 (layer 0, place): 00000258 -> 0000021C: x 600 becomes 540, moved just far enough to the left",
            out,
        )
        mended = bytes.fromhex((self.folder / "m.txt").read_text())
        self.assertEqual(struct.unpack("<52I", mended)[:8], (1, 0x0168_0280, 0, 0, 3, 0, 0x21C, 0x0014_0064))
        self.assertIn("nothing is to be mended", self.run_tool("mend", "m.txt", "--as", "image")[0])

    def test_every_kind_of_repair_has_words(self):
        words = {
            "w4": 0x007,
            "w6": 0x0000_0008,
            "w7": 0x0009_0011,
            "w10": 3,
            "w12": 0x0006_0000,
            "w13": 0x0004_0001,
        }
        words |= {"w16": 1, "w19": 0x0001_0011, "w22": 3}
        self.write("i.bin", image(**words))
        out, _ = self.run_tool("mend", "i.bin")
        for part in (
            "floats 1 becomes 0",
            "x 8 becomes 0",
            "width 17 becomes 16, cut",
            "height 9 becomes 8, cut",
            "depth 0 becomes 1, the smallest",
            "y 6 becomes 4, moved just far enough up",
            "enabled 1 becomes 0, switched off",
        ):
            self.assertIn(part, out)

    def test_a_screen_without_size_has_no_repair(self):
        self.write("i.bin", image(w1=0))
        self.assert_line(
            self.run_tool("mend", "i.bin", status=1)[1], "i.bin: refused with 8 (EMPTY_SCREEN); give register 1"
        )

    def test_a_scene_is_told_what_to_write(self):
        layer = '[[layer]]\nname = "{}"\nsize = [{}, 4]\nat = [{}, 0]\ndepth = {}\ncolours = {{}}\n'
        self.write("s.toml", SCENE + layer.format("a", 4, 5, 0) + layer.format("b", 9, 0, 0))
        out, _ = self.run_tool("mend", "s.toml")
        self.assertEqual(len(out.splitlines()), 3, out)
        for part in (
            'layer "a": it leaves the screen; write at = [4, 0] for [5, 0]',
            'layer "b": it is larger than the screen; write size = [8, 4]',
            'layer "b": its depth 0 is taken; write depth = 1',
        ):
            self.assertIn(part, out)


class Sheets(Case):
    def test_each_wrong_line_is_told_where_and_why(self):
        for at, (lines, _) in enumerate(SHEETS):
            self.write(f"s{at}", "\n".join(lines) + "\n")
        _, err = self.run_tool("check", *(f"s{at}" for at in range(len(SHEETS))), "--as", "sheet", status=1)
        self.assertEqual(len(err.splitlines()), len(SHEETS), err)
        for at, (line, (_, said)) in enumerate(zip(err.splitlines(), SHEETS)):
            self.assertTrue(line.startswith(f"s{at}: {said}"), line)

    def test_the_number_is_the_one_that_is_printed(self):
        for lines, said in SHEETS:
            printed = second_sheet(("\n".join(lines) + "\n").encode()).decode().split()[-1]
            found = re.search(r"refused with (\d+)", said)
            self.assertEqual(printed[:2], f"{int(found[1]):02X}" if found else "FE", said)

    def test_what_passes_otherwise_than_meant_is_a_warning(self):
        """A list of 48 boxes has no END, and an alpha has no switch."""
        boxes = struct.pack("<4I", 0xA0000000, 0, 0, 0) * 48
        writes = ["0000000005", "0100010001", "0300000001", "0400000003", "0500000080", "0700010001"]
        self.write("s", f"01010300{boxes.hex()}{len(writes):02X}{''.join(writes)}0000\n")
        out, err = self.run_tool("check", "s")
        self.assertEqual(out, "s: 1 line, each paints a frame\n")
        told = err.splitlines()
        self.assertEqual(len(told), 2, err)
        self.assertIn(
            "warning: s: layer 0: alpha 128 has no effect without global alpha; set bit 31 of register 5",
            told[0],
        )
        self.assertEqual(told[1], "warning: s: error bit 0: layer 0 has a list without END")

    def test_cr_is_told_once(self):
        self.write("s", f"{PAGE}\r\n{PAGE}\r\n")
        for command in "check", "read":
            err = self.run_tool(command, "s", status=1)[1]
            self.assert_line(
                err, "s: lines: 2 of 2 lines end in CR, which is bad form (FE)", "tr -d '\\r' < s > NEW"
            )

    def test_read_tells_a_line_in_words(self):
        out, _ = self.run_tool("read", PAGE)
        self.assertEqual(
            out.splitlines(),
            [
                "line 1: 38 digits",
                "  write 1: register 0 (switches) = 00000005: on, update",
                "  write 2: register 1 (screen size) = 00010002: width 2, height 1",
                "  write 3: register 2 (background) = 00302010: red 16, green 32, blue 48",
                "  pictures: 0 bytes, 0 pixels",
            ],
        )

    def test_read_tells_tables_and_registers(self):
        lists = struct.pack(
            "<12I", 0xA0005003, 0, 0x0200_6004, 7, 0xC000_0009, 3, 0x8000_0008, 0x0500, 0, 0, 0, 0
        )
        loads = [
            "01" + "0030" + lists.hex(),
            "2B" + "0006" + "102030FF0102",
            "0D" + "0003" + "486900",
            "07" + "0010" + "00" * 16,
        ]
        writes = ["03" + "00000201", "12" + "80000064", "04" + "00000505", "14" + "00050006", "2D" + "00FF003C"]
        self.write(
            "s", f"{len(loads):02X}{''.join(loads)}{len(writes):02X}{''.join(writes)}0004FFFFFFFF".lower()
        )
        out, _ = self.run_tool("read", "s")
        for part in (
            "load 1: layer 0, instructions, bank 1: 48 bytes",
            "0: box (3, 4) to (5, 6), outline of weight 2, colour 7",
            "1: text of string 3 at (9, 8), scale 4, colour 5",
            "2: END",
            "load 2: layer 5, colours, bank 1: 6 bytes",
            "0: #102030FF",
            "1: only 2 bytes of it",
            "load 3: layer 1, strings, bank 1: 3 bytes",
            "0: 'Hi'",
            "glyphs of characters 32 to 33",
            "register 3 (active banks) = 00000201: instructions bank 1 of layers 0, colours bank 1 of layers 1, strings bank 0",
            "register 18 (layer 2, place)",
            "register 4 (layer 0, kind) = 00000505: enabled, not graphics, floats, depth 5",
            "register 20 (layer 2, fade start) = 00050006: start 327686",
            "register 45 (layer 6, fade) = 00FF003C: length 60, target 255",
            "reserved bits 31 set",
            "pictures: 4 bytes, 1 pixels",
        ):
            self.assertIn(part, out)

    def test_read_of_what_is_no_sheet(self):
        self.assert_line(self.run_tool("read", "0G", status=1)[1], "line: line 1: digit 2: byte 47 ('G')")
        self.assert_line(self.run_tool("read", "no.sheet", status=1)[1], "no.sheet: no such file")
        self.assert_line(self.run_tool("read", "-", status=1)[1], "-: line 1: the sheet is empty")
        self.assertIn("line 1: 38 digits", self.run_tool("read", "-", data=PAGE.encode())[0])


class Explained(Case):
    def test_every_writing_of_a_number(self):
        """Digits alone are decimal, so of two hexadecimal ones only those with a letter stand for themselves."""
        usual = [number for number in answers.ANSWERS if number != 0xFE]
        for writing, numbers in (
            ("{0}", usual),
            ("{0:02X}", [*range(10), 10, 11, 12, 13, 14, 15, 0xFE]),
            ("0x{0:02x}", usual),
            ("{1}", [*usual, 0xFE]),
            ("SPOONWING_{1}", usual),
        ):
            out, _ = self.run_tool("explain", *(writing.format(n, answers.ANSWERS[n].name) for n in numbers))
            heads = [line.split("  ")[1] for line in out.splitlines() if re.match(r"(\d+ \(..\)|FE)  ", line)]
            self.assertEqual(heads, [answers.ANSWERS[n].name for n in numbers])
            self.assertEqual((out.count("\nCause: "), out.count("\nCure: ")), (len(numbers), len(numbers)))

    def test_numbers_and_names_are_the_headers(self):
        header = (TOP / "include/spoonwing.h").read_text()
        listed = {name: int(number) for name, number in re.findall(r"SPOONWING_(\w+) = (\d+)", header)}
        self.assertEqual(listed.pop("NO_LINE"), 15)
        self.assertEqual(
            {answer.name: number for number, answer in answers.ANSWERS.items() if number != 0xFE}, listed
        )

    def test_what_is_no_answer(self):
        for number in "99", "0xFF":
            self.assert_line(
                self.run_tool("explain", number, status=1)[1], f"explain: {number}: no call answers this number"
            )
        self.assert_line(
            self.run_tool("explain", "OFF_SCREN", status=1)[1], "explain: OFF_SCREN", "write OFF_SCREEN"
        )
        self.assertEqual(len(self.run_tool("explain")[0].splitlines()), len(answers.ANSWERS))


class Manners(Case):
    def test_help_everywhere(self):
        out, err = self.run_tool("--help")
        self.assertEqual(err, "")
        for command in COMMANDS:
            self.assertRegex(out, rf"\n  {command} +\w")
            told, err = self.run_tool(command, "--help")
            self.assertEqual((told.split("\n")[0].split()[:3], err), (["usage:", "spoonwing", command], ""))
        self.assertEqual(self.run_tool("help"), (out, ""))
        self.assertEqual(list(self.folder.iterdir()), [])

    def test_a_wrong_command_line_ends_with_2(self):
        for words, parts in (
            ([], ["spoonwing: no command; `spoonwing --help`"]),
            (["stil"], ["spoonwing: no command 'stil'; write still"]),
            (["still"], ["spoonwing still: ", "SCENE", "`spoonwing still --help`"]),
            (["still", "a", "--zom", "3"], ["spoonwing", "--zom"]),
            (["still", "a", "--zoom", "0"], ["--zoom", "'0' does not pass, 1 to 16 do"]),
            (["still", "a", "--frame", "4294967296"], ["--frame", "0 to 4294967295 do"]),
            (["film"], ["spoonwing film: ", "SCENE"]),
            (
                ["film", "a", "-o", "b.gif", "--frames", "9..3"],
                ["'9..3' is no span of frames; write FIRST..LAST"],
            ),
            (["check", "a", "--as", "film"], ["--as", "film"]),
        ):
            with self.subTest(words):
                self.assert_line(self.run_tool(*words, status=2)[1], *parts)

    def test_places_for_files_are_asked_for_at_once(self):
        """Before the scene is looked at: there is none."""
        (self.folder / "d").mkdir()
        for words, parts in (
            (["still", "no.toml", "-o", "x/y.png"], ["x/y.png: there is no folder x; make it (mkdir -p x)"]),
            (["still", "no.toml", "-o", "d"], ["d: a folder; name a file in it"]),
            (["film", "no.toml", "-o", "x/y.gif"], ["x/y.gif: there is no folder x"]),
            (["film", "no.toml", "-o", "y.mp4"], ["y.mp4: a film is a file that ends in .gif, .webp or .png"]),
            (["sheet", "no.toml", "-o", "x/y"], ["x/y: there is no folder x"]),
            (["show", "no", "-o", "x/y.png"], ["x/y.png: there is no folder x"]),
            (["pack", "no.toml", "-o", "x/y"], ["x/y: there is no folder x"]),
            (["font", "spoonwing", "-o", "x/y.png"], ["x/y.png: there is no folder x"]),
        ):
            with self.subTest(words):
                self.assert_line(self.run_tool(*words, status=1)[1], *parts)

    def test_a_folder_or_nothing_as_input(self):
        (self.folder / "d.toml").mkdir()
        for words in (
            ["still", "d.toml"],
            ["check", "d.toml"],
            ["mend", "d.toml"],
            ["show", "d.toml", "-o", "a.png"],
        ):
            self.assert_line(self.run_tool(*words, status=1)[1], "d.toml: a folder; name a file in it")
        for words in ["still", "no.toml"], ["check", "no.toml"], ["pack", "no.toml", "-o", "d"]:
            self.assert_line(self.run_tool(*words, status=1)[1], "no.toml: no such file; name a scene")
        self.assert_line(self.run_tool("font", "no.psf", status=1)[1], "no.psf: no such font; write spoonwing")

    def test_a_full_disk_is_an_error(self):
        self.write("a.toml", SCENE)
        (self.folder / "full.png").symlink_to("/dev/full")
        err = self.run_tool("still", "a.toml", "-o", "full.png", status=1)[1]
        self.assert_line(
            err, "full.png: cannot be written (no space left on device); name another place with -o"
        )
        with open("/dev/full", "w") as full:
            ended = subprocess.run([SPOONWING, "scene"], stdout=full, stderr=subprocess.PIPE, text=True)
        self.assertEqual(ended.returncode, 1)
        self.assert_line(ended.stderr, "spoonwing: ", "No space left on device")

    def test_a_file_that_cannot_be_written_stays(self):
        """A program that runs is such a file, for root too."""
        self.write("a.toml", SCENE)
        program = self.write("busy.png", Path("/bin/sleep").read_bytes())
        program.chmod(0o755)
        with subprocess.Popen([program, "60"]) as running:
            err = self.run_tool("still", "a.toml", "-o", "busy.png", status=1)[1]
            running.kill()
        self.assert_line(err, "busy.png: cannot be written (text file busy); name another place with -o")
        self.assertEqual(program.read_bytes(), Path("/bin/sleep").read_bytes())

    def test_what_a_full_disk_cuts_off_is_not_left(self):
        """A disk of 4,096 bytes is a limit on a file's length."""
        noise = Image.effect_noise((99, 99), 99)
        noise.save(self.folder / "noise.png")
        self.write("a.toml", "[screen]\nwidth = 99\nheight = 99\n[[layer]]\npicture = 'noise.png'\n")
        command = f"trap '' XFSZ; ulimit -f 4; {SPOONWING} still a.toml -o b.png"
        ended = subprocess.run(["bash", "-c", command], cwd=self.folder, capture_output=True, text=True)
        self.assertEqual(ended.returncode, 1)
        self.assert_line(ended.stderr, "b.png: cannot be written (file too large)")
        self.assertFalse((self.folder / "b.png").exists())

    def test_closed_streams(self):
        for words, said in (">&-", "the output is closed"), (
            "<&-",
            "-: standard input is closed; name a sheet",
        ):
            ended = subprocess.run(f"{SPOONWING} read - {words}", shell=True, stderr=subprocess.PIPE, text=True)
            self.assertEqual(ended.returncode, 1)
            self.assert_line(ended.stderr, said)

    def test_a_closed_output_is_an_error_in_one_line(self):
        for words in ["scene"], ["read", PAGE], ["--help"], ["sheet", "a.toml"], ["still", "a.toml", "-o", "-"]:
            self.write("a.toml", SCENE)
            reader, writer = os.pipe()
            os.close(reader)
            ended = subprocess.run(
                [SPOONWING, *words], cwd=self.folder, stdout=writer, stderr=subprocess.PIPE, text=True
            )
            os.close(writer)
            with self.subTest(words):
                self.assertEqual(ended.returncode, 1)
                self.assert_line(ended.stderr, "spoonwing: the output was closed")

    def test_a_missing_library_is_told_with_what_to_type(self):
        """Pillow is hidden by a package of its name that cannot be loaded, and the user is not root."""
        (self.folder / "PIL").mkdir()
        self.write("PIL/__init__.py", "raise ImportError")
        self.write("id", "#!/bin/sh\necho 1000\n").chmod(0o755)
        self.write("a.toml", SCENE)
        env = {**os.environ, "PYTHONPATH": str(self.folder), "PATH": f"{self.folder}:{os.environ['PATH']}"}
        ended = subprocess.run(
            [SPOONWING, "still", "a.toml"], cwd=self.folder, env=env, capture_output=True, text=True
        )
        self.assertEqual((ended.returncode, ended.stderr.count("\n")), (1, 2))
        self.assertIn("type as root: apt-get install -y --no-install-recommends python3-pil", ended.stderr)

    def test_a_scene_on_standard_input(self):
        text = "[screen]\nwidth = 9\nheight = 3\n".encode()
        self.assertEqual(self.run_tool("still", "-", data=text)[0], "The picture is scene.png, frame 0\n")
        for words in (["check", "-"], ["mend", "-"], ["mend", "-", "--as", "scene"]):
            self.assertIn("-: ", self.run_tool(*words, data=text)[0])

    def test_it_runs_by_a_link_from_anywhere(self):
        (self.folder / "link").symlink_to(SPOONWING)
        ended = subprocess.run([self.folder / "link", "explain", "10"], cwd="/", capture_output=True, text=True)
        self.assertEqual((ended.returncode, ended.stdout.split("\n")[0]), (0, "10 (0A)  OFF_SCREEN"))

    def test_progress_on_a_terminal(self):
        """A bar after a second of work, and only where somebody sees it."""
        clock, seen = iter([0, 0.5, 1.5, 2]), io.StringIO()
        seen.isatty = lambda: True
        with mock.patch("time.monotonic", lambda: next(clock)), mock.patch("sys.stderr", seen):
            self.assertEqual(list(film.with_bar("abc", 3)), list("abc"))
        told = [line.strip() for line in seen.getvalue().split("\r")]
        self.assertEqual(told, ["", f"[{'#' * 26}{'.' * 14}] 2 of 3", f"[{'#' * 40}] 3 of 3"])

    def test_a_film_too_large_for_one_file(self):
        self.write("a.toml", "[screen]\nwidth = 4095\nheight = 4095\n")
        err = self.run_tool("film", "a.toml", "--frames", "0..99", "-o", "f.webp", status=1)[1]
        self.assert_line(err, "f.webp: 100 frames of 4095 by 4095 are too many for one file", ".png")


class Language(Case):
    def test_every_key_is_printed_with_what_passes(self):
        out, _ = self.run_tool("scene")
        for key in keys.TABLE:
            self.assertIn(f"  {key.name:<11} {key.kind.said}\n  {'':<11} {key.sentence}\n", out)
        example = "".join(line[4:] or "\n" for line in out.split("These are")[0].splitlines(True)[2:])
        self.write("example.toml", example)
        told = self.run_tool("check", "example.toml")
        self.assertEqual(told, ("example.toml: 1 layer, frames 0 to 180: the display takes all of them\n", ""))

    def test_every_key_is_known_to_the_reader(self):
        """A scene with every key passes, but for those that do not go together."""
        self.write("x.toml", WHOLE)
        tables = tomllib.loads(WHOLE)
        used = {("", key) for key in tables} | {("screen", key) for key in tables["screen"]}
        for layer in tables["layer"]:
            used |= {("layer", key) for key in layer} | {("fading", key) for key in layer.get("fading", {})}
            used |= {("draw", key) for entry in layer.get("draw", []) for key in entry}
        used |= {("change", key) for change in tables["change"] for key in change}
        self.assertEqual({(key.section, key.name) for key in keys.TABLE}, used)
        Image.new("RGBA", (4, 4)).save(self.folder / "p.png")
        self.assertEqual(
            self.run_tool("check", "x.toml"),
            ("x.toml: 3 layers, frames 0 to 40: the display takes all of them\n", ""),
        )


WHOLE = """
[screen]
width = 100
height = 50
background = "#102030"
on = true
letters = 2
frame = 7

[[layer]]
name = "a"
number = 4
on = false
at = [1, 2]
size = [90, 40]
depth = 6
fade = "ink"
fading = { from = 1, to = 200, start = 3, length = 4 }
font = "spoonwing"
colours = { ink = ["#FFFFFF40", "#FFFFFF80", "#FFFFFF"], glass = "#00000080" }
[[layer.draw]]
box = [0, 0, 9, 9]
weight = 15
colour = "glass"
[[layer.draw]]
text = "Hi"
at = [9, 8]
scale = 4
colour = "ink"

[[layer]]
picture = "p.png"
alpha = 9
depth = 5

[[layer]]
colours = { clear = "#000000" }
size = [3, 3]

[[change]]
frame = 10
on = false
background = "#000000"

[[change]]
frame = 20
layer = 4
on = true
at = [9, 9]
over = 20
depth = 7
fade = "ink"
fading = { to = 0, length = 9 }
colours = { glass = "#FFFFFF" }
draw = [{ box = [0, 0, 9, 9], colour = "glass" }]

[[change]]
frame = 30
layer = "layer 1"
alpha = 10
picture = "p.png"
"""


class Registers(Case):
    def test_the_fields_are_the_headers(self):
        """Each field's bits are where include/spoonwing.h has them."""
        header = (TOP / "include/spoonwing.h").read_text()
        for text, register, value in (
            ("bit 0 display on, bit 2 update enable", 0, registers.word(0, on=1, update=1) == 5),
            ("output width 11:0, height 27:16", 1, registers.word(1, width=0xFFF, height=0xFFF) == 0x0FFF_0FFF),
            ("channel 0 7:0, channel 1 15:8, channel 2 23:16", 2, registers.mask(2) == 0xFF_FFFF),
            ("bit 0 enabled, bit 1 graphics, bit 2 float picture, depth 10:8", 4, registers.mask(4) == 0x707),
            ("bit 31 global alpha, its value 7:0", 5, registers.mask(5) == 0x8000_00FF),
            ("x 11:0, y 27:16", 6, registers.mask(6) == 0x0FFF_0FFF),
            ("fade length 15:0, fade target 23:16", 9, registers.mask(9) == 0xFF_FFFF),
        ):
            self.assertIn(text, header)
            self.assertTrue(value, (register, text))
