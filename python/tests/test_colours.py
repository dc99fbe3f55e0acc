"""Tries whether the colours of lines differ for everybody, by the model of Machado, Oliveira and
Fernandes (2009) for the three kinds of colour blindness and the contrast of WCAG 2.1."""
import math
import re
import sys
import unittest
from itertools import combinations
from pathlib import Path

HERE = Path(__file__).resolve().parent
sys.path.insert(0, str(HERE.parent))
from handref import colours  # noqa: E402

# What of red, green and blue light is seen as which.
SEEN = {
    "all": ((1, 0, 0), (0, 1, 0), (0, 0, 1)),
    "no red": ((0.152286, 1.052583, -0.204868), (0.114503, 0.786281, 0.099216),
               (-0.003882, -0.048116, 1.051998)),
    "no green": ((0.367322, 0.860646, -0.227968), (0.280085, 0.672501, 0.047413),
                 (-0.011820, 0.042940, 0.968881)),
    "no blue": ((1.255528, -0.076749, -0.178779), (-0.078411, 0.930809, 0.147602),
                (0.004733, 0.691367, 0.303900))}


def light(colour):
    """The red, green and blue light of a colour, from 0 to 1."""
    parts = [int(colour[place:place + 2], 16) / 255 for place in (1, 3, 5)]
    return [part / 12.92 if part <= 0.04045 else ((part + 0.055) / 1.055) ** 2.4 for part in parts]


def lab(red, green, blue):
    """A light in the colour space CIELAB, with the white of D65."""
    def bent(part):
        return part ** (1 / 3) if part > 0.008856 else 7.787 * part + 16 / 116

    x = bent((0.4124564 * red + 0.3575761 * green + 0.1804375 * blue) / 0.95047)
    y = bent(0.2126729 * red + 0.7151522 * green + 0.0721750 * blue)
    z = bent((0.0193339 * red + 0.1191920 * green + 0.9503041 * blue) / 1.08883)
    return 116 * y - 16, 500 * (x - y), 200 * (y - z)


def seen(colour, kind):
    parts = light(colour)
    return lab(*(min(1, max(0, sum(one * two for one, two in zip(row, parts))))
                 for row in SEEN[kind]))


def contrast(one, two):
    bright = sorted(0.2126 * red + 0.7152 * green + 0.0722 * blue
                    for red, green, blue in (light(one), light(two)))
    return (bright[1] + 0.05) / (bright[0] + 0.05)


class Colours(unittest.TestCase):
    def test_differ(self):
        css = (HERE.parent / "handref" / "page.css").read_text()
        papers = re.findall(r"--paper: (#\w{6})", css)
        for row, paper in zip((colours.LIGHT, colours.DARK), papers):
            self.assertGreater(len(row), 10)
            for kind in SEEN:
                nearest = min((math.dist(seen(one, kind), seen(two, kind)), one, two)
                              for one, two in combinations(row, 2))
                self.assertGreater(nearest[0], 25, (kind, nearest))
            for colour in row:
                self.assertGreater(contrast(colour, paper), 3, colour)

    def test_model(self):
        """The model itself: red and green differ, and for those who do not see green much less."""
        self.assertAlmostEqual(lab(1, 1, 1)[0], 100, places=1)
        self.assertAlmostEqual(contrast("#000000", "#ffffff"), 21, places=1)
        pair = "#a06000", "#608000"
        self.assertGreater(math.dist(*(seen(each, "all") for each in pair)),
                           2 * math.dist(*(seen(each, "no green") for each in pair)))


if __name__ == "__main__":
    unittest.main()
