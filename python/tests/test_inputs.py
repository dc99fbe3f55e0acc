"""Tries check, rows and frame over files of any length, packed, several, folders and streams."""
import gzip
import importlib.util
import os
import subprocess
import sys
import tempfile
import tracemalloc
import unittest
from pathlib import Path
from unittest import mock

from pages import EXAMPLES, HERE, MATCH

import handref
from handref import sources

LINE = "STATE:%d:r300f:9s8h|KdTc:-100|100:A|B\n"


class Inputs(unittest.TestCase):
    def setUp(self):
        folder = tempfile.TemporaryDirectory()
        self.addCleanup(folder.cleanup)
        self.folder = Path(folder.name)
        self.log = self.folder / "match.log"
        self.log.write_text("# a match\n" + "".join(LINE % n for n in range(40)).replace(
            "STATE:30:r300", "STATE:30:r150"))
        (self.folder / "match.game").write_bytes(MATCH.read_bytes())
        self.evening = self.folder / "evening.phhs.gz"
        self.evening.write_bytes(gzip.compress((EXAMPLES / "evening.phhs").read_bytes()))

    def test_pieces(self):
        """Rows of a file that is cut are those of one input, with its hands and lines."""
        legal = self.folder / "legal.log"
        legal.write_text(self.log.read_text().replace("r150", "r300"))
        wanted = {}
        for command in handref.tables.COLUMNS:
            path = self.log if command == "judge" else legal
            wanted[command] = list(handref.rows(command, path.read_bytes(), "acpc", MATCH))
        self.assertEqual((wanted["judge"][30]["hand"], wanted["judge"][30]["line"]), (31, 32))
        for path in (self.log, legal):
            Path(f"{path}.gz").write_bytes(gzip.compress(path.read_bytes()))
        with mock.patch.object(sources, "PIECE", 300):
            for command, rows in wanted.items():
                path = self.log if command == "judge" else legal
                for form in (str(path), f"{path}.gz"):
                    with self.subTest(command=command, form=form):
                        self.assertEqual(list(handref.rows(command, form)), rows)
            with self.assertRaises(handref.Refused) as caught:
                handref.check(self.log)
            self.assertEqual((caught.exception.hand, caught.exception.line_number,
                              caught.exception.file), (31, 32, str(self.log)))
            said = list(handref.rows("replay", self.log, each=True))
            self.assertIn("refused: hand 31: event 3, action 1: RaiseTooSmall",
                          [row["text"] for row in said])
            found = handref.check(legal)
        self.assertEqual([(row.hand, row.stacks) for row in found],
                         [(n, (19900, 20100)) for n in range(1, 41)])

    def test_phh(self):
        wanted = handref.check((EXAMPLES / "evening.phhs").read_bytes(), "phh")
        with mock.patch.object(sources, "PIECE", 300):
            self.assertEqual(handref.check(self.evening), wanted)
            self.assertEqual(list(handref.rows("changes", self.evening)), list(handref.rows(
                "changes", (EXAMPLES / "evening.phhs").read_bytes(), "phh")))

    def test_several(self):
        """Of several files and of folders each row has its file."""
        (self.folder / "folds.phh").write_bytes((EXAMPLES / "folds.phh").read_bytes())
        (self.folder / "notes.txt").write_text("none")
        rows = list(handref.rows("check", self.folder / "folds.phh"))
        self.assertEqual(rows[0], {"hand": 1, "seat": 1, "chips": 99})
        for hands in ([self.folder / "folds.phh", self.evening], self.folder):
            rows = [row for row in handref.rows("judge", hands) if row["verdict"] == "legal"]
            self.assertEqual(list(rows[0])[0], "file")
            found = [(os.path.basename(row["file"]), row["hand"]) for row in rows]
            self.assertEqual([row for row in found if row[0] != "match.log"], sorted(
                [("evening.phhs.gz", n) for n in (1, 2, 3)] + [("folds.phh", 1)],
                key=lambda row: row[0] == ("evening.phhs.gz" if hands != self.folder else "")))
        self.assertEqual(len(handref.check([self.evening, self.evening])), 6)
        self.assertEqual(handref.check([self.evening])[0].file, str(self.evening))

    def test_standard_input(self):
        code = "import handref; print([row.stacks for row in handref.check('-', 'phh')])"
        done = subprocess.run([sys.executable, "-c", code], capture_output=True, text=True,
                              input=(EXAMPLES / "folds.phh").read_text(),
                              env={**os.environ, "PYTHONPATH": str(HERE.parent)})
        self.assertEqual((done.stdout, done.stderr), ("[(99, 98, 103)]\n", ""))

    def test_what_cannot_be_read(self):
        with self.assertRaises(FileNotFoundError):
            handref.check(self.folder / "none.phh")
        with self.assertRaisesRegex(ValueError, "a log needs a game file"):
            (self.folder / "match.game").unlink()
            handref.check(self.log)
        with self.assertRaisesRegex(ValueError, "has to be said"):
            handref.check(b"")

    def test_no_program(self):
        """Where the program is not there, the line says how it gets there."""
        with mock.patch.dict(os.environ, HANDREF_PROGRAM="no/such/program"):
            with self.assertRaises(handref.NoProgram) as caught:
                handref.check(self.evening)
        for word in ("no/such/program", "HANDREF_PROGRAM", "./handref --install"):
            self.assertIn(word, str(caught.exception))
        self.assertNotIn("\n", str(caught.exception))

    def test_streams(self):
        """Rows of 24 MB come one by one: no more than a few pieces are in memory."""
        hand = handref.convert(EXAMPLES / "folds.phh", "phh", "phh").decode()
        path = self.folder / "long.phhs"
        with open(path, "w") as file:
            for number in range(1, 70_000):
                file.write(f"[{number}]\n{hand}venue = \"a long name of a place {number:060}\"\n\n")
        self.assertGreater(path.stat().st_size, 24_000_000)
        rows = handref.rows("judge", path)
        tracemalloc.start()
        first = next(rows)
        size = tracemalloc.get_traced_memory()[1]
        tracemalloc.stop()
        rows.close()
        self.assertEqual((first["hand"], first["verdict"]), (1, "legal"))
        self.assertLess(size, 24_000_000)

    @unittest.skipUnless(importlib.util.find_spec("pandas"), "pandas is not installed")
    def test_frame(self):
        found = handref.frame("judge", [self.log, self.evening])
        self.assertEqual((list(found.columns)[0], len(found)), ("file", 43))


if __name__ == "__main__":
    unittest.main()
