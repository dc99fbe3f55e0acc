"""Tries the readers of `handref import` on files with changed bytes: each hand is read or left out with
its cause, and nothing else happens."""
import os
import random
import sys
import tempfile
import unittest
from pathlib import Path

HERE = Path(__file__).resolve().parent
sys.path.insert(0, str(HERE.parent))
from handref.importing import phh, run, wild, work  # noqa: E402
from handref.importing.record import LeftOut  # noqa: E402

IS_QUICK = False
COUNT = int(os.environ.get("HANDREF_TESTS_MUTANTS", "13500"))
SIGNS = [b"", b"0", b"9", b".", b"-", b"\"", b"'", b"[", b"]", b"{", b"}", b",", b":", b"|", b"\n", b" ",
         "٦".encode(), "６".encode(), b"\xff", b"null", b"1e999", b"true", b"#", b"/", b"r1", b"\0"]


class Mutants(unittest.TestCase):
    def test_readers(self):
        """No changed byte is a fault of the reader, or makes an amount of other digits than 0 to 9."""
        files = [path for path in sorted((HERE / "wild").iterdir()) if path.suffix != ".game"]
        rnd, read, left_out = random.Random(9), 0, 0
        with tempfile.TemporaryDirectory() as folder:
            place = Path(folder) / "a"
            for number in range(COUNT):
                path = files[number % len(files)]
                data = path.read_bytes()
                for _ in range(rnd.randint(1, 3)):
                    at = rnd.randrange(len(data))
                    data = data[:at] + rnd.choice(SIGNS) + data[at + rnd.randint(0, 2):]
                place.write_bytes(data)
                hands = self.read(path, place)
                read += sum(not hand.cause for hand in hands)
                left_out += sum(bool(hand.cause) for hand in hands)
                for hand in hands:
                    self.assertFalse(hand.cause.startswith("a bug"), (path.name, hand.cause, data))
                    if not hand.cause and isinstance(hand.value, phh.Table):
                        amounts = [value for _, value in phh.numbers(hand.value.table)]
                        self.assertTrue(all(str(value).isascii() for value in amounts))
        self.assertGreater(read, COUNT / 10)
        self.assertGreater(left_out, COUNT / 10)

    def read(self, path, place):
        """The hands of a changed file."""
        own = wild._one(str(path), path.name, "", None)
        one = run.with_game(wild.Wild(str(place), own.kind, str(path), path.name, 1,
                                      folder=str(path.parent)), None)
        try:
            return [hand for piece in work.pieces(one, work.Call())
                    for hand in work.read(piece, work.Call()).hands]
        except LeftOut:
            return []


if __name__ == "__main__":
    unittest.main()
