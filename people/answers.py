"""The numbers that the display answers: name, cause and cure, in one table."""

import re
from collections import namedtuple

Answer = namedtuple("Answer", "number name cause cure")

BAD_FORM = 0xFE

# The number and the name that include/spoonwing.h has, the cause after '!', the cure after '>'. FE is
# the sheet program's own.
_TABLE = """
0 DONE
  ! Nothing is wrong: the call did what it says.
  > Nothing is to be done.
1 NO_REGISTER
  ! A write named a register above 51.
  > Write to one of the registers 0 to 51.
2 NO_SELECTION
  ! A load named a table above 63 (3F).
  > Select 8 * layer + 2 * kind + bank: kind 0 instructions, 1 colours, 2 strings, 3 font.
3 NOT_SELECTED
  ! A byte was put while no table was selected.
  > Select a table before the first put.
4 BANK_ACTIVE
  ! The selected bank is being shown. In a fresh display that is bank 0 of every table.
  > Load bank 1 first, name it in register 3 and start; after that load whichever bank is not shown.
5 BANK_FULL
  ! More bytes were put than the table has: 768 of instructions, 64 of colours, 256 of strings, 768
    of a font (1,536 with two bits a glyph pixel).
  > Put no more, or select the table anew to begin at its first byte.
6 BAD_TABLES_LENGTH
  ! The lent table buffer has the wrong length.
  > Lend 29,696 bytes, or 41,984 for two bits a glyph pixel.
7 RESERVED_BIT
  ! A register has a bit set that has no meaning, in a disabled layer too; or a layer has bits 1 and
    2 together; or bit 2 (a float picture) stands where no float buffer is lent.
  > Clear those bits: `spoonwing check` names them and `spoonwing mend` clears them.
8 EMPTY_SCREEN
  ! The screen has no width or no height.
  > Give register 1 a width and a height of 1 to 4,095; in a scene, screen.width and screen.height.
    Mending cannot guess them.
9 EMPTY_LAYER
  ! An enabled layer has no width or no height.
  > Give it a size, switch it off, or have `spoonwing mend` switch it off.
10 OFF_SCREEN
  ! An enabled layer does not lie wholly on the screen: x + width is above the screen's width, or y
    + height above its height.
  > Move it or make it smaller, switch it off, or have `spoonwing mend` move it just far enough.
11 SAME_DEPTH
  ! Two enabled layers have one depth.
  > Give each its own of the depths 0 to 7, or have `spoonwing mend` do it.
12 NO_SIZE
  ! Nothing can be painted yet: no start has given the display a screen.
  > Write registers 0 (with its update bit, 2) and 1, and start.
13 BAD_OUTPUT_LENGTH
  ! The output buffer does not have 4 * width * height bytes (of a line 4 * width). The sheet
    program lends at most 4,096, which is a screen of 1,024 pixels.
  > Lend as many as the active screen needs; in a sheet, use a smaller screen.
14 BAD_PICTURES_LENGTH
  ! The pictures are not as long as all enabled frame layers need together.
  > Lend 4 * width * height bytes for each enabled frame layer, in rising layer number, without
    gaps; none for lists and none for disabled layers.
15 NO_BAND
  ! A band whose low end is above its high one, or that above 8; or a line at or past the screen's
    height (NO_LINE).
  > Paint with low <= high <= 8, or a line from 0 to height - 1.
16 BAD_IMAGE_LENGTH
  ! The register image is not 208 bytes.
  > Lend 52 words of four bytes, the lowest byte first.
17 BAD_GLYPH_BITS
  ! A display was made with a number of bits a glyph pixel that is neither 1 nor 2.
  > Make it with 1 or 2.
18 BAD_FLOATS_LENGTH
  ! The floats are not as many as all enabled float layers need together.
  > Lend 4 * width * height numbers for each enabled float layer, and count numbers and not bytes.
23 BAD_STATE_LENGTH
  ! The lent state is not 440 bytes.
  > Lend the 440 bytes that spoonwing_display_new made.
FE BAD_FORM
  ! No answer of the display: the sheet program prints FE for a line that is badly formed, empty or
    longer than 8,192 digits, and does nothing with it. So does the program that mends.
  > `spoonwing read` says at which digit the line goes wrong. A CR at the end of a line is bad form
    too.
"""


def _answer(number, name, *texts):
    texts = (" ".join(text.split()) for text in texts)
    return Answer(BAD_FORM if number == "FE" else int(number), name, *texts)


_ROW = re.compile(r"^(\w+) (\w+)\n  ! (.+?)\n  > (.+?)\n(?=\w|\Z)", re.MULTILINE | re.DOTALL)
ANSWERS = {answer.number: answer for answer in (_answer(*found) for found in _ROW.findall(_TABLE))}


def named(number):
    """A number with its name: 10 (OFF_SCREEN)."""
    answer = ANSWERS.get(number)
    return f"{number} ({answer.name})" if answer else f"{number} (no answer of the display)"


def in_brackets(number):
    """The same at the end of a line: (10, OFF_SCREEN)."""
    return f"({number}, {ANSWERS[number].name})"


def cure(number):
    """What to do, as the end of a line."""
    text = ANSWERS[number].cure.removesuffix(".")
    return text[0].lower() + text[1:]


def error_bit(bit):
    """What a set bit of the error word says."""
    what = {0: "has a list without END", 1: "was put more bytes than a table has"}
    return f"layer {bit // 4} {what[bit % 4]}" if bit % 4 in what else "set by a toggle alone"
