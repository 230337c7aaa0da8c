"""What docs/GUIDE.md says is so: its scene, C programs, sheet lines and tables, asked of the archive and of the sheet
and mend programs (SPOONWING_SHEET and SPOONWING_MEND, unless set those of tools/)."""
import os
import re
import shutil
import subprocess
import tempfile
import unittest
from pathlib import Path

from people_tools import TOP, Case, Image

GUIDE = (TOP / "docs/GUIDE.md").read_text()
PREFIX = TOP / "target/guide"
SHEET = os.environ.get("SPOONWING_SHEET", str(TOP / "tools/sheet")).split()
MEND = os.environ.get("SPOONWING_MEND", str(TOP / "tools/mend")).split()


def section(heading):
    """The text under a heading, up to the next one of its rank or above."""
    rank = heading.split(" ")[0]
    rest = GUIDE.split(f"\n{heading}\n", 1)[1]
    return re.split(rf"\n#{{2,{len(rank)}}} ", rest)[0]


def rows(text):
    """The cells of each table row, without heads and rules."""
    cells = [[cell.strip() for cell in line.strip("|").split("|")] for line in text.splitlines() if line.startswith("|")]
    return [row for row in cells if not set("".join(row)) <= set("-")]


def digits(line):
    """The hexadecimal tokens that a line begins with, joined."""
    found = []
    for word in line.split():
        if not re.fullmatch(r"(?:[0-9A-F]{2})+", word):
            break
        found.append(word)
    return "".join(found)


def printed(program, line):
    return subprocess.run(program, input=line + "\n", capture_output=True, text=True, check=True).stdout.strip()


def shell(command, folder):
    env = dict(os.environ, PATH=f"{TOP}:{os.environ['PATH']}")
    done = subprocess.run(["bash", "-ec", command], cwd=folder, capture_output=True, text=True, env=env)
    if done.returncode:
        raise AssertionError(f"{command}\n{done.stderr}")
    return done.stdout


class Built(unittest.TestCase):
    """With the archive installed, and the guide's C sources in a folder."""

    @classmethod
    def setUpClass(cls):
        subprocess.run([TOP / "tools/install", PREFIX], check=True, capture_output=True)
        cls.folder = tempfile.TemporaryDirectory()
        cls.first, cls.step = re.findall(r"```c\n(.*?)```", GUIDE, re.S)
        Path(cls.folder.name, "first.c").write_text(cls.first)

    @classmethod
    def tearDownClass(cls):
        cls.folder.cleanup()

    def link_lines(self):
        code = "\n".join(line for line in section("## From C").split("###")[0].splitlines() if line.startswith("    "))
        return code.replace("PREFIX", str(PREFIX)).splitlines()

    def frame(self):
        return digits(section("### A first program").split("It prints")[1].replace("\n", " "))


class FromC(Built):
    def test_each_way_of_linking_builds_the_first_program(self):
        export, *ways = self.link_lines()
        self.assertEqual(len(ways), 3)
        for way in ways:
            with self.subTest(way):
                command = f"{export}\n{way}" if "pkg-config" in way else way
                told = shell(f"rm -f first\n{command}\n./first", self.folder.name)
                self.assertEqual(told.replace(" ", "").replace("\n", ""), self.frame())

    def test_the_steps_of_an_ink_fade_and_of_a_card(self):
        table = rows(section("## Two ways to fade a caption").split("by either way")[1])
        alphas, drawn, card, ink = [[cell.strip("`") for cell in row[1:]] for row in table]
        main = """
int main(void)
{
    static const uint8_t list[32] = {0, 0x30, 0, 0xA0, 0, 0, 0, 0, 0, 0x20, 0, 1, 1};
    static const uint8_t colours[64] = {0, 0, 0, 0, 0xFF, 0xF0, 0xC0, 0xFF};
    static const uint32_t alphas[] = {%s};
    uint32_t banks = 0x101;
    must(spoonwing_display_new(state, sizeof state, 1));
    load(1, list, sizeof list);
    load(3, colours, sizeof colours);
    set(0, 5), set(1, HEIGHT << 16 | WIDTH), set(2, 0x302010), set(3, banks), set(4, 3), set(7, HEIGHT << 16 | WIDTH);
    must(spoonwing_display_start(state, sizeof state));
    for (int i = 0; i < 10; i++) {
        if (i < 5) {
            step_ink(colours, alphas[i], &banks);
        } else {
            set(5, 1u << 31 | alphas[i - 5]);
            must(spoonwing_display_start(state, sizeof state));
        }
        must(spoonwing_display_frame(state, sizeof state, tables, sizeof tables, NULL, 0, NULL, 0, output, sizeof output));
        printf("%%02X%%02X%%02X %%02X%%02X%%02X\\n", output[0], output[1], output[2], output[20], output[21], output[22]);
    }
    return 0;
}
""" % ", ".join(alphas)
        Path(self.folder.name, "ink.c").write_text(self.first.split("int main")[0] + self.step + main)
        shell(f"cc -o ink ink.c -I{PREFIX}/include {PREFIX}/lib/libspoonwing.a", self.folder.name)
        told = shell("./ink", self.folder.name).split("\n")
        self.assertEqual(told[:10], [f"{d} {g}" for d, g in zip(drawn + drawn, ink + card)])

    def ask(self, *words):
        program = Path(self.folder.name, "guide")
        if not program.exists():
            shell(f"cc -o guide {TOP}/tests/people/guide.c -I{PREFIX}/include {PREFIX}/lib/libspoonwing.a", self.folder.name)
        return subprocess.run([program, *map(str, words)], capture_output=True, text=True, check=True).stdout.split()

    def test_reserved_bits_are_those_without_a_field(self):
        fields, words = [0] * 52, []
        table = [row for row in rows(section("## Registers")) if len(row) == 3 and row[0] != "Word"]
        for word, bits, _ in table:
            if word:
                base = int(word.split()[0])
                words = range(base, 52, 6) if "n" in word else [base]
            high, low = (int(bit) for bit in (bits.split(":") * 2)[:2])
            for n in words:
                fields[n] |= (1 << high + 1) - (1 << low)
        self.assertEqual(self.ask("reserved"), [f"{~mask & 0xFFFFFFFF:08X}" for mask in fields])

    def test_blends_and_fades(self):
        for row in [row for row in rows(section("## Blending")) if row[0].isdigit()]:
            self.assertEqual(self.ask("blend", *row[:3]), [row[3]], row)
        frames, alphas = [row[1:] for row in rows(section("## Fades"))]
        self.assertEqual(len(frames), 7)
        for frame, alpha in zip(frames, alphas):
            self.assertEqual(self.ask("fade", 0, 255, 100, 4, frame), [alpha], frame)
        self.assertEqual(self.ask("fade", 0, 255, 100, 4, 100 + 2**31), ["0"])
        self.assertIn("2,147,483,648 frames", section("## Fades"))

    def test_lent_pictures_and_floats(self):
        self.assertIn("27 bytes or 29 answer 14", section("## Pictures"))
        self.assertIn("a wrong one answers 18", section("## Float pictures"))
        answers = [self.ask("lent", *lengths)[0] for lengths in [(28, 4), (27, 4), (29, 4), (28, 3), (28, 8)]]
        self.assertEqual(answers, ["0", "14", "14", "18", "18"])
        self.assertIn("0.5 is 128", section("## Float pictures"))
        values = {"nan": 0, "-1": 0, "0": 0, "0.5": 128, "1": 255, "7": 255, "0.1": 26}  # 255 times 0.1 is 25.5 and a little
        self.assertEqual({value: int(self.ask("float", value)[0]) for value in values}, values)

    def test_the_layer_at_the_edge(self):
        self.assertIn("On a screen 1,920 wide a layer of width 20 at x 1,900 passes; of width 21 it answers 10.", GUIDE)
        self.assertEqual(self.ask("place", 1920, 1900, 20) + self.ask("place", 1920, 1900, 21), ["0", "10"])


class Scenes(Case):
    """The scene of ten minutes, and the command."""

    def setUp(self):
        super().setUp()
        self.text = section("## A scene in ten minutes")
        self.scene = re.search(r"```toml\n(.*?)```", self.text, re.S).group(1)
        (self.folder / "lake.toml").write_text(self.scene)
        shutil.copy(TOP / "examples/scenes/art/night.png", self.folder)

    def run_line(self, line):
        return shell(line.replace("tools/spoonwing", f"{TOP}/tools/spoonwing"), self.folder)

    def test_its_three_commands(self):
        check, still, film = re.findall(r"^    (tools/spoonwing .*)$", self.text, re.M)
        said = re.search(r"The first says `(.*?)`", self.text).group(1)
        self.assertEqual(self.run_line(check).strip(), said)
        self.run_line(still)
        self.run_line(film)
        with Image.open(self.folder / "lake.png") as image, Image.open(self.folder / "lake.webp") as frames:
            # frames 60 to 90 are the same picture: 0 to 60, and 91 to 120
            self.assertEqual((image.size, frames.n_frames), ((640, 320), 61 + 30))
            frames.seek(30)
            self.assertEqual(image.convert("RGB").tobytes(), frames.convert("RGB").tobytes())
            # the glass's alpha of 128 at a fade value of 128 is 64
            with Image.open(self.folder / "night.png") as under:
                mixed = [(64 * over + 191 * below + 127) // 255 for over, below in zip((10, 18, 48), under.convert("RGB").getpixel((42, 242)))]
            self.assertEqual(list(image.convert("RGB").getpixel((42, 242))), mixed)

    def test_its_faults(self):
        wrong = [("night.png", "nihgt.png"), ("length = 60", "length = 65536"), ("colour =", "color ="), ("lake at", "lake – at")]
        for right, other in wrong:
            self.scene = self.scene.replace(right, other, 1)
        (self.folder / "lake.toml").write_text(self.scene)
        done = subprocess.run([TOP / "tools/spoonwing", "check", "lake.toml"], cwd=self.folder, capture_output=True, text=True)
        self.assertEqual(done.returncode, 1)
        said = re.findall(r"^    (lake.toml: .*)$", self.text, re.M)
        self.assertEqual(len(said), 4)
        self.assertEqual([line for line in said if line not in done.stderr.splitlines()], [])

    def test_every_command_is_in_the_table(self):
        known = re.findall(r"^  (\w+)  +\w", self.run_line("tools/spoonwing --help").split("options:")[0], re.M)
        table = [re.match(r"`(\w+)", row[0]).group(1) for row in rows(section("## The command"))[1:]]
        self.assertEqual(sorted(table), sorted(known))

    def test_a_scene_through_the_sheet_program(self):
        line = re.search(r"^    (tools/spoonwing sheet .*)$", section("## The command"), re.M).group(1)
        self.run_line(line.replace("tools/sheet", " ".join(SHEET)).replace("examples/", f"{TOP}/examples/"))
        with Image.open(self.folder / "gauge.png") as shown, Image.open(TOP / "examples/scenes/gauge.png") as still:
            self.assertEqual(shown.convert("RGB").tobytes(), still.convert("RGB").tobytes())


class Lines(unittest.TestCase):
    def test_sheet_lines_print_what_is_said(self):
        text = section("## A sheet's line")
        smallest, told, with_list = re.findall(r"^    ([0-9A-F]{20,})$", text, re.M)
        self.assertEqual(printed(SHEET, smallest), told)
        frame = digits(section("### A first program").split("It prints")[1].replace("\n", " "))
        self.assertEqual(printed(SHEET, with_list), "000000000000040003" + frame)

    def test_what_is_taken_apart_is_the_line(self):
        for block in re.findall(r"^    ([0-9A-F]{20,})\n\n((?:    .*\n)+)", GUIDE, re.M):
            self.assertEqual("".join(map(digits, block[1].splitlines())), block[0])

    def test_traps_print_what_is_said(self):
        traps = re.findall(r"`([0-9A-F]{16,})`[^`]*`(\w\w)`", section("## First traps").replace("\n", " "))
        self.assertEqual(len(traps), 2)
        for line, answer in traps:
            self.assertEqual(printed(SHEET, line), answer)
        self.assertEqual(printed(SHEET, "00030000000005010001000202003020100000\r"), "FE")

    def test_the_image_is_mended_as_is_said(self):
        text = section("## The mend program's line")
        command, told = re.search(r"    (printf .*\n.*)\n\n(?:.*\n)*?\n    ([0-9A-F]+)\n", text).groups()
        self.assertEqual(shell(command.replace("tools/mend", " ".join(MEND)), TOP).strip(), told)
        self.assertEqual(printed(MEND, "0" * 416), "08")
        self.assertEqual(printed(MEND, "0" * 415), "FE")

    def test_packed_instructions(self):
        text = section("## Instructions")
        words, stored = re.search(r"is the words `(A.*?)`, and as bytes\s`(.*?)`", text).groups()
        little = [bytes.fromhex(word)[::-1].hex().upper() for word in words.split()]
        self.assertEqual(little, stored.split())
        loads = ["02", "01", "0010", *little, "03", "0010", *["00000000"] * 3, "FFFFFFFF"]
        writes = ["06", "0000000005", "0100050008", "0200000000", "0300000101", "0400000003", "0700050008"]
        line = "".join([*loads, *writes, "0000"])
        pixels = printed(SHEET, line)[18:]
        drawn = ["".join("#" if pixels[8 * (8 * v + u):][:8] == "FFFFFFFF" else "." for u in range(8)) for v in range(5)]
        said = re.findall(r"^ +(?:v )?\d  ((?:[.#] ){7}[.#])$", text, re.M)
        self.assertEqual([row.replace(" ", "") for row in said], drawn)


class Answers(unittest.TestCase):
    def test_every_answer_of_the_header_is_in_the_table(self):
        header = (TOP / "include/spoonwing.h").read_text()
        named = {}
        for name, number in re.findall(r"    SPOONWING_([A-Z_]+) = (\d+)", header):
            named.setdefault(number, []).append(name)
        table = {row[0]: row for row in rows(section("## Every answer")) if row[0].isdigit()}
        self.assertEqual(sorted(table, key=int), sorted(named, key=int))
        for number, row in table.items():
            self.assertEqual(row[2].split(", "), named[number])
            if number != "23":
                self.assertEqual(row[1], f"`{int(number):02X}`")


class Pages(unittest.TestCase):
    PAGES = ["README.md", "docs/GUIDE.md", "docs/DEVELOPING.md", "examples/scenes/README.md"]

    def anchors(self, path):
        heads = re.findall(r"^#+ (.*)$", path.read_text(), re.M)
        return {re.sub(r"[^\w -]", "", head).strip().lower().replace(" ", "-") for head in heads}

    def test_every_link_leads_somewhere(self):
        for name in self.PAGES:
            page = TOP / name
            links = re.findall(r"\]\(([^)]+)\)", re.sub(r"```.*?```", "", page.read_text(), flags=re.S))
            self.assertTrue(links, name)
            for link in links:
                path, _, anchor = link.partition("#")
                target = (page.parent / path).resolve() if path else page
                self.assertTrue(target.exists(), f"{name}: {link}")
                if anchor:
                    self.assertIn(anchor, self.anchors(target), f"{name}: {link}")

    def test_the_paths_in_code_are_there(self):
        for name in self.PAGES:
            for path in re.findall(r"`((?:tools|examples|docs|include|crates|bench|people|tests)/[\w./-]+)", (TOP / name).read_text()):
                self.assertTrue((TOP / path.rstrip(".")).exists(), f"{name}: {path}")

    def test_the_lines_of_the_readme(self):
        text = (TOP / "README.md").read_text()
        line, told = re.search(r"echo (\w+) \| tools/sheet +# (\w+)", text).groups()
        self.assertEqual(printed(SHEET, line), told)
        for command in re.findall(r"^    (tools/spoonwing (?:read|explain|check) .*?) +#", text, re.M):
            self.assertTrue(shell(command, TOP), command)


if __name__ == "__main__":
    unittest.main()
