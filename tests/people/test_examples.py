"""The scenes of examples/scenes: each is painted anew and is its picture, pixel by pixel, and so it is
by the second display; what they show is drawn anew as well; fades are worked out by hand."""

import subprocess
import tomllib
import unittest

from people_tools import TOP, Case, Image, pixels, second_frame, second_sheet

FOLDER = TOP / "examples" / "scenes"
SCENES = sorted(FOLDER.glob("*.toml"))


def size(path):
    with Image.open(path) as picture:
        return picture.size


class Drawn(Case):
    def assert_same(self, one, other, remedy=None):
        """Two pictures, pixel by pixel."""
        self.assertEqual(size(one), size(other))
        self.assertTrue(pixels(one) == pixels(other), remedy)

    def test_each_scene_is_painted_as_its_picture(self):
        self.assertGreaterEqual(len(SCENES), 5)
        for scene in SCENES:
            with self.subTest(scene.stem):
                painted = self.folder / f"{scene.stem}.png"
                self.assertEqual(self.run_tool("still", scene, "-o", painted)[1], "")
                remedy = "if the scene was meant to change, paint its picture anew: spoonwing still"
                self.assert_same(painted, scene.with_suffix(".png"), remedy)

    def test_the_second_display_paints_each_as_its_picture(self):
        for scene in SCENES:
            with self.subTest(scene.stem):
                self.run_tool("pack", scene, "-o", scene.stem)
                self.assertTrue(second_frame(self.folder / scene.stem) == pixels(scene.with_suffix(".png")))

    def test_the_gauge_has_room_in_a_sheet(self):
        """What a sheet prints: answer 00, no error bits, 64 by 16, and the pixels."""
        sheet = self.run_tool("sheet", FOLDER / "gauge.toml")[0]
        expected = "00" + "00000000" + "0040" + "0010" + pixels(FOLDER / "gauge.png").hex().upper()
        self.assertEqual(second_sheet(sheet.encode()).decode(), expected + "\n")

    def test_every_picture_has_its_scene(self):
        self.assertEqual([path.stem for path in sorted(FOLDER.glob("*.png"))], [scene.stem for scene in SCENES])

    def test_what_they_show_is_drawn_by_the_script(self):
        subprocess.run([FOLDER / "draw", self.folder], check=True)
        kept = sorted((FOLDER / "art").iterdir())
        self.assertEqual(sorted(path.name for path in self.folder.iterdir()), [path.name for path in kept])
        for path in kept:
            with self.subTest(path.name):
                self.assert_same(self.folder / path.name, path)

    def test_every_drawn_picture_is_shown(self):
        layers = [layer for scene in SCENES for layer in tomllib.loads(scene.read_text())["layer"]]
        shown = {layer["picture"] for layer in layers if "picture" in layer}
        self.assertEqual(shown, {f"art/{path.name}" for path in (FOLDER / "art").iterdir()})

    def test_one_has_all_eight_layers(self):
        counts = [len(tomllib.loads(scene.read_text())["layer"]) for scene in SCENES]
        self.assertEqual(max(counts), 8)


class Fades(unittest.TestCase):
    """Frame 60 of a fade from 0 to 255 in 90 frames: (255 * 60 + 45) / 90, rounded down, is 170."""

    ALPHA, CLEAR, INK = 170, (0x0A, 0x12, 0x30), (0xFF, 0xF4, 0xDE)
    CARD, FADING_INK, SIZE = (40, 196), (356, 196), (256, 74)
    STEM = (12 + 6, 27 + 4)  # in both layers: inside the stem of the T at scale 2, rows 2 and 3 of it

    def setUp(self):
        self.lake = Image.open(FOLDER / "art/night.png").convert("RGB")
        self.frame = Image.open(FOLDER / "credits.png").convert("RGB")
        self.addCleanup(self.lake.close)
        self.addCleanup(self.frame.close)

    def over(self, colour, place):
        under = self.lake.getpixel(place)
        return tuple((self.ALPHA * c + (255 - self.ALPHA) * u + 127) // 255 for c, u in zip(colour, under))

    def margin(self, corner):
        """Places of a layer above its texts, where nothing is drawn."""
        return [(corner[0] + u, corner[1] + v) for u in range(self.SIZE[0]) for v in range(12)]

    def test_a_card_fades_as_a_whole(self):
        for place in self.margin(self.CARD):
            self.assertEqual(self.frame.getpixel(place), self.over(self.CLEAR, place))

    def test_ink_fades_and_keeps_its_shape(self):
        for place in self.margin(self.FADING_INK):
            self.assertEqual(self.frame.getpixel(place), self.lake.getpixel(place))

    def test_letters_fade_alike(self):
        for corner in self.CARD, self.FADING_INK:
            place = corner[0] + self.STEM[0], corner[1] + self.STEM[1]
            self.assertEqual(self.frame.getpixel(place), self.over(self.INK, place))
