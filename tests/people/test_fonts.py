"""Fonts: the face that is built in beside what C hosts have of it, letters packed by hand from art,
PSF and BDF, and damaged files, each of which gives one line."""

import gzip
import struct
import subprocess

from people_tools import TOP, Case

from people import fonts
from people.faults import Fault

# The letter A by rows; in a font file a row is a byte with the leftmost pixel on top, and a bank has
# the same byte with one bit a pixel, and with two each bit twice.
A_ART = "..##.... .####... ##..##.. ##..##.. ######.. ##..##.. ##..##.. ........".split()
A = bytes([0x30, 0x78, 0xCC, 0xCC, 0xFC, 0xCC, 0xCC, 0x00])
A_TWO = bytes.fromhex("0F00 3FC0 F0F0 F0F0 FFF0 F0F0 F0F0 0000")
BLANK = bytes(8)


def art(name, rows):
    return "\n".join([f"= {name}", *rows, ""])


def psf1(glyphs, table=b"", mode=0, height=8):
    return bytes([0x36, 0x04, mode, height]) + b"".join(glyphs) + table


def psf2(glyphs, table=None, version=0, count=None, width=8, height=8, length=None):
    count = len(glyphs) if count is None else count
    length = height * ((width + 7) // 8) if length is None else length
    sizes = (version, 32, 0 if table is None else 1, count, length, height, width)
    return struct.pack("<8I", 0x864AB572, *sizes) + b"".join(glyphs) + (table or b"")


def bdf(letters, box="8 8 0 -1", end="ENDFONT\n"):
    return f"STARTFONT 2.1\nFONTBOUNDINGBOX {box}\nCHARS 1\n{letters}{end}"


def letter(code=65, bbx="7 7 0 0", rows="30 78 CC CC FC CC CC"):
    """The rows of A without the blank one, which lies below the baseline."""
    rows = rows.replace(" ", "\n")
    return f"STARTCHAR x\nENCODING {code}\nDWIDTH 8 0\nBBX {bbx}\nBITMAP\n{rows}\nENDCHAR\n"


class Files(Case):
    def written(self, data, name="face"):
        return self.write(name, data).name

    def load(self, data, bits=1):
        return fonts.load(self.written(data), bits, self.folder)

    def glyph(self, font, character):
        at = (ord(character) - 32) * 8 * font.bits
        return font.glyphs[at : at + 8 * font.bits]


class BuiltIn(Files):
    def test_has_every_character_of_a_bank_and_no_other(self):
        for bits, length in (1, 768), (2, 1536):
            font = fonts.load("spoonwing", bits)
            self.assertEqual((font.name, len(font.glyphs)), ("spoonwing", length))
            self.assertTrue(all(font.has(chr(code)) for code in range(32, 128)))
            self.assertFalse(any(map(font.has, "\x1f\x80é€")))

    def test_letters_as_drawn(self):
        self.assertEqual(self.glyph(fonts.load("spoonwing", 1), "A"), A)
        drop = bytes.fromhex("0300 0740 0FC0 2FE0 3DF0 2FE0 0B80 0000")
        self.assertEqual(self.glyph(fonts.load("spoonwing", 2), "\x7f"), drop)

    def test_only_the_space_is_blank(self):
        font = fonts.load("spoonwing", 1)
        blank = [c for c in map(chr, range(32, 128)) if self.glyph(font, c) == BLANK]
        self.assertEqual(blank, [" "])

    def test_the_softer_cut_keeps_the_ink_of_the_face(self):
        hard, soft = fonts.load("spoonwing", 1).glyphs, fonts.load("spoonwing", 2).glyphs
        for row, byte in enumerate(hard):
            line = soft[2 * row] << 8 | soft[2 * row + 1]
            values = [line >> (14 - 2 * i) & 3 for i in range(8)]
            lost = [i for i in range(8) if byte << i & 0x80 and not values[i]]
            self.assertEqual(lost, [], f"row {row % 8} of {chr(32 + row // 8)}")

    def test_c_hosts_have_the_same_bytes(self):
        source = '#include <stdio.h>\n#include "tables.h"\nint main(void) { for (int bits = 1; bits < 3; bits++) {'
        source += " static uint8_t bank[2][BANK_LENGTH(2)]; first_bank(bank[bits - 1], 0, bits);"
        source += " fwrite(bank[bits - 1] + FONT_AT, 1, FONT_LENGTH(bits), stdout); } return 0; }\n"
        main, program = self.folder / self.written(source, "main.c"), self.folder / "main"
        where = [f"-I{TOP}/examples", f"-I{TOP}/include"]
        subprocess.run(["gcc", *where, "-o", program, main, TOP / "examples/tables.c"], check=True)
        both = fonts.load("spoonwing", 1).glyphs + fonts.load("spoonwing", 2).glyphs
        self.assertEqual(subprocess.run([program], capture_output=True, check=True).stdout, both)

    def test_headers_are_made_of_the_art(self):
        subprocess.run([TOP / "people/fonts/headers", self.folder], check=True)
        for name in "font.h", "soft_font.h":
            made, kept = (self.folder / name).read_text(), (TOP / "examples" / name).read_text()
            self.assertEqual(made, kept, f"run people/fonts/headers: examples/{name} is older")


class Art(Files):
    def test_one_letter(self):
        font = self.load("Prose.\n\n" + art("A", A_ART))
        self.assertEqual(self.glyph(font, "A"), A)
        self.assertEqual(font.glyphs.count(0), 768 - 7)
        self.assertTrue(font.has("A"))
        self.assertFalse(font.has("B"))

    def test_letters_side_by_side_and_their_names(self):
        rows = ["#....... .#...... ..#....."] + ["........ ........ ........"] * 7
        font = self.load(art("space drop =", rows))
        self.assertEqual([self.glyph(font, c)[0] for c in " \x7f="], [0x80, 0x40, 0x20])

    def test_four_values(self):
        """The line of include/spoonwing.h: 0 1 3 3 2 0 0 0 is 1F 80."""
        font = self.load(art("~", [".-##+..."] + ["........"] * 7), bits=2)
        self.assertEqual(self.glyph(font, "~"), bytes.fromhex("1F80") + bytes(14))

    def test_ink_is_full_where_there_are_two_bits(self):
        self.assertEqual(self.glyph(self.load(art("A", A_ART), bits=2), "A"), A_TWO)

    def test_as_other_systems_write_text(self):
        """With CR LF at the ends of lines, and with a mark of UTF-8 before the first."""
        self.assertEqual(self.glyph(self.load(art("A", A_ART).replace("\n", "\r\n")), "A"), A)
        self.assertEqual(self.glyph(self.load("\ufeff" + art("A", A_ART)), "A"), A)

    def test_names_of_characters(self):
        self.assertEqual(fonts.name_of("é"), "é (U+00E9, latin small letter e with acute)")
        self.assertEqual(fonts.name_of("\n"), "? (U+000A, no letter)")


class Console(Files):
    """PSF: without a table a glyph's place is its character, with one the table says."""

    def by_place(self, count):
        return [A if i == 65 else BLANK for i in range(count)]

    def check_a(self, data):
        for packed in data, gzip.compress(data):
            self.assertEqual(self.glyph(self.load(packed), "A"), A)
            self.assertEqual(self.glyph(self.load(packed, bits=2), "A"), A_TWO)

    def test_without_a_table(self):
        self.check_a(psf1(self.by_place(256)))
        self.check_a(psf1(self.by_place(512), mode=1))
        self.check_a(psf2(self.by_place(96)))
        font = self.load(psf2(self.by_place(96)))
        self.assertTrue(font.has("_"))
        self.assertFalse(font.has("`"), "character 96 has no glyph among 0 to 95")
        self.assertFalse(self.load(psf1(self.by_place(256))).has("\x80"), "a bank ends at 127")

    def test_with_a_table(self):
        """Glyph 1 is both A and a, and with a ring above it another letter too, which is none of ours."""
        units = [0xFFFF, 0x41, 0x61, 0xFFFE, 0x42, 0x30A, 0xFFFF] + [0xFFFF] * 254
        old = [psf1([BLANK, A] + [BLANK] * 254, struct.pack("<261H", *units), mode) for mode in (2, 4)]
        new = psf2([BLANK, A], b"\xffAa\xfe" + "B\u030a".encode() + b"\xff")
        for data in *old, new:
            self.check_a(data)
            font = self.load(data)
            self.assertEqual([font.has(c) for c in "AaB\x01"], [True, True, False, False])


class Boxes(Files):
    """BDF: a letter has a box of its own, laid by the baseline into the font's."""

    def test_a_letter_on_the_baseline(self):
        self.assertEqual(self.glyph(self.load(bdf(letter())), "A"), A)
        self.assertEqual(self.glyph(self.load(bdf(letter()), bits=2), "A"), A_TWO)

    def test_a_small_box_lies_where_it_says(self):
        """Two by two pixels, three to the right and one below the baseline: rows 6 and 7."""
        font = self.load(bdf(letter(bbx="2 2 3 -1", rows="C0 40")))
        rows = bytes([0, 0, 0, 0, 0, 0, 0x18, 0x08])
        self.assertEqual(self.glyph(font, "A"), rows)
        font = self.load(bdf(letter(bbx="2 2 2 -1", rows="C0 40"), box="8 8 -1 -1"))
        self.assertEqual(self.glyph(font, "A"), rows, "the font's box begins one to the left")

    def test_a_notice_in_latin_1(self):
        data = bdf("COMMENT \u00a9\n" + letter()).encode("latin-1")
        self.assertEqual(self.glyph(self.load(data), "A"), A)

    def test_other_characters_are_passed_over(self):
        font = self.load(bdf(letter(code=233, bbx="0 0 0 0") + letter(code=-1) + letter()))
        self.assertEqual([font.has(c) for c in "Aé"], [True, False])


FULL_TABLE = b"\xff" * 512
DAMAGED_ART = (
    ("no names at all", "Prose alone.\n", "no line of names"),
    ("an empty file", "", "no line of names"),
    ("names without a name", art("", A_ART), "line 1: no names"),
    ("a name of two letters", art("AB", A_ART), "line 1: AB is none of the characters"),
    ("a name past 127", art("é", A_ART), "line 1: é is none of the characters"),
    ("seven rows", art("A", A_ART[:7]), "line 9: 0 letters in this row where 1 are named"),
    ("nine rows", art("A", A_ART + ["........"]), "line 10: neither names nor"),
    ("a row short of a letter", art("A B", A_ART), "line 2: 1 letters in this row where 2"),
    ("seven signs", art("A", ["..##..."] + A_ART[1:]), "line 2: ..##... in A is no row"),
    ("nine signs", art("A", ["..##....."] + A_ART[1:]), "line 2: ..##..... in A is no row"),
    ("another sign", art("A", A_ART[:3] + ["##..xx.."] + A_ART[4:]), "line 5: ##..xx.. in A"),
    ("a sign for terminals", art("A", A_ART[:7] + ["\x1b[31m..."]), "line 9: ?[31m... in A is no row"),
    ("a long row", art("A", ["." * 5000] + A_ART[1:]), f"line 2: {'.' * 22} in A is no row"),
    ("a softer pixel", art("A", ["..+#...."] + A_ART[1:]), "line 2: + in A is a softer pixel"),
    ("one letter twice", art("A", A_ART) + art("A", A_ART), "line 10: A is drawn twice, first at line 1"),
    ("twice in one line", art("A A", [f"{r} {r}" for r in A_ART]), "line 1: A is drawn twice"),
)
DAMAGED_PSF = (
    ("three bytes", b"\x36\x04\x00", "a PSF file of 3 bytes"),
    ("a cut header", psf2([A])[:31], "a PSF file of 31 bytes"),
    ("one letter of 256", psf1([A]), "1 letters where its header says 256"),
    ("one letter of two", psf2([A], count=2), "1 letters where its header says 2"),
    ("4,294,967,295 letters", psf2([A], count=2**32 - 1), "its header says 4294967295"),
    ("8 by 16", psf1([BLANK] * 512, height=16), "its letters are 8 by 16; write one of 8 by 8"),
    ("16 by 8", psf2([bytes(16)], width=16), "its letters are 16 by 8; write one of 8 by 8"),
    ("no height", psf1([], height=0), "its letters are 8 by 0"),
    ("another version", psf2([A], version=1), "its header contradicts itself"),
    ("sixteen bytes for 8 by 8", psf2([A], length=16), "its header contradicts itself"),
    ("a cut table", psf1([BLANK] * 256, FULL_TABLE[:-2], mode=2), "ends at letter 255 of 256"),
    ("a table of odd bytes", psf1([BLANK] * 256, FULL_TABLE[:-1], mode=2), "ends at letter 255 of 256"),
    ("no table", psf2([A], b""), "ends at letter 0 of 1"),
    ("a table of no characters", psf2([A], b"\xc3\xff"), "is no UTF-8"),
)
DAMAGED_BDF = (
    ("no box", "STARTFONT 2.1\nENDFONT\n", "no line FONTBOUNDINGBOX"),
    ("a box of three numbers", bdf("", box="8 8 0"), "line 2: FONTBOUNDINGBOX without its 4"),
    ("a box of words", bdf("", box="8 8 a b"), "line 2: FONTBOUNDINGBOX without its 4"),
    ("9 by 18", bdf("", box="9 18 0 -4"), "its letters are 9 by 18; write one of 8 by 8"),
    ("no end", bdf(letter(), end=""), "no line ENDFONT"),
    ("no code", bdf(letter().replace("ENCODING", "COMMENT")), "line 4: no line ENCODING"),
    ("no bitmap", bdf(letter().replace("BITMAP\n", "")), "line 4: no line BITMAP"),
    ("a row short", bdf(letter(rows="30 78")), "line 8: 2 rows where BBX says 7"),
    ("a row of words", bdf(letter(rows="30 78 CC xx FC CC CC")), "line 12: xx is no row"),
    ("a blank row", bdf(letter(rows="30 78 CC  FC CC CC")), "line 12:  is no row"),
    ("half a byte", bdf(letter(rows="30 78 C CC FC CC CC")), "line 11: C is no row"),
    ("out of the box", bdf(letter(bbx="7 7 2 0")), "line 7: this letter leaves the font's box"),
    ("left of the box", bdf(letter(bbx="7 7 -1 0")), "line 7: this letter leaves the font's box"),
    ("under the box", bdf(letter(bbx="7 7 0 -2")), "line 7: this letter leaves the font's box"),
    ("its first line alone", b"STARTFONT\xff\n", "no line FONTBOUNDINGBOX"),
)
DAMAGED_FILES = (
    ("a cut gzip file", gzip.compress(psf2([A] * 96))[:-9], "gzip cannot unpack it"),
    ("a gzip file with a wrong sum", gzip.compress(psf2([A]))[:-8] + bytes(8), "gzip cannot unpack it"),
    ("a gzip head alone", b"\x1f\x8b", "gzip cannot unpack it"),
    ("a picture", b"\x89PNG\r\n\x1a\n", "no font; write the path of"),
    ("sixteen mebibytes of zeros", gzip.compress(bytes(1 << 24)), "longer than any font"),
)


class Damaged(Files):
    def fault(self, name):
        with self.assertRaises(Fault) as caught:
            fonts.load(name, 1, self.folder)
        line = str(caught.exception)
        self.assertTrue(line.startswith(str(self.folder / name).replace("\0", "?") + ": "), line)
        self.assertTrue(line.isprintable(), line)
        self.assertIn("; ", line, "no word of what to do")
        return line

    def check_all(self, rows):
        for about, data, words in rows:
            with self.subTest(about):
                self.assertIn(words, self.fault(self.written(data)))

    def test_art(self):
        self.check_all(DAMAGED_ART)

    def test_psf(self):
        self.check_all(DAMAGED_PSF)

    def test_bdf(self):
        self.check_all(DAMAGED_BDF)

    def test_files(self):
        self.check_all(DAMAGED_FILES)

    def test_a_missing_file_says_what_is_built_in(self):
        self.assertIn("no such font; write spoonwing", self.fault("spoonwin"))

    def test_a_folder(self):
        (self.folder / "folder").mkdir()
        self.assertIn("a folder; write", self.fault("folder"))

    def test_names_that_no_file_has(self):
        self.assertIn("cannot be read (file name too long)", self.fault("a" * 300))
        self.assertIn("no such font", self.fault("a\0b"))
