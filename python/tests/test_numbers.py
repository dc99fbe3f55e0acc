"""Tries the numbers of hands that are joined, split and left out, by `compare`."""
import gzip
import json
import os
import tempfile
import unittest
from pathlib import Path
from unittest import mock

from pages import EXAMPLES

import handref
from handref import many, sources

MATCH = str(EXAMPLES / "match.game")
LINE = "STATE:%d:r300f:9s8h|KdTc:-100|100:A|B\n"


class Case(unittest.TestCase):
    def setUp(self):
        folder = tempfile.TemporaryDirectory()
        self.addCleanup(folder.cleanup)
        self.folder = Path(folder.name)
        self.told = []

    def convert(self, paths, to, out, **more):
        self.told = []
        return many.convert([str(path) for path in paths], to, str(out), game=MATCH, jobs=2,
                            tell=self.told.append, **more)

    def log(self, *numbers, name="match.acpc"):
        path = self.folder / name
        path.write_text("".join(LINE % number for number in numbers))
        return path

    def hands(self, path, *numbers):
        """A folder of a hand of PHH for each number, or without one."""
        hand = handref.convert(self.log(0), "acpc", "phh", MATCH).decode()
        path = self.folder / path
        path.mkdir()
        for place, number in enumerate(numbers):
            head = "" if number is None else f"hand = {number}\n"
            (path / f"hand-{place + 1}.phh").write_text(head + hand)
        return path


class Numbers(Case):
    def test_split(self):
        """Each hand of a log keeps its number, also where it is its place; so do some of PHH."""
        for pieces in (1 << 20, 100):
            with mock.patch.object(sources, "PIECE", pieces):
                log, out = self.log(0, 1, 7, 3), self.folder / f"split-{pieces}"
                self.convert([log], "phh", out, layout="split")
                again = self.folder / f"again-{pieces}"
                self.convert([out], "acpc", again)
                for place, number in enumerate((0, 1, 7, 3), 1):
                    line = self.log(number, name="one.acpc")
                    single = out / f"match-{place}.phh"
                    self.assertEqual(handref.compare(line, "acpc", single, "phh", MATCH).hands, 1)
                    self.assertEqual((again / f"match-{place}.acpc").read_text(), LINE % number)

    def test_split_without_numbers(self):
        """A hand of PHH or OHH without a number has none afterwards either."""
        folder = self.hands("hands", None, 1, None)
        joined, out = self.folder / "all.phhs", self.folder / "single"
        for pieces in (1 << 20, 300):
            with mock.patch.object(sources, "PIECE", pieces):
                self.convert([folder], "phh", joined, layout="join")
                self.convert([joined], "phh", out, layout="split")
                for place in (1, 2, 3):
                    own = (folder / f"hand-{place}.phh").read_text()
                    new = (out / f"all-{place}.phh").read_text()
                    self.assertEqual("hand = " in new, "hand = " in own)
                    self.assertEqual(handref.compare(folder / f"hand-{place}.phh", "phh",
                                                     out / f"all-{place}.phh", "phh").hands, 1)

    def test_join(self):
        """Hands without a number get that of their place; the others keep theirs."""
        folder = self.hands("hands", None, 9, None, 0)
        log = self.log(5, 6, name="hands.acpc")
        for to, read in (("acpc", lambda text: [line.split(":")[1] for line in text.split("\n")
                                                if line]),
                         ("ohh", lambda text: [json.loads(line)["ohh"]["game_number"]
                                               for line in text.split("\n") if line])):
            out = self.folder / f"all.{to}"
            self.convert([folder, log], to, out, layout="join")
            self.assertEqual(read(out.read_text()), ["0", "9", "2", "0", "5", "6"])
        self.convert([folder, log], "phh", self.folder / "all.phhs", layout="join")
        for other, notation in (("all.ohh", "ohh"), ("all.phhs", "phh")):
            self.assertEqual(handref.compare(self.folder / "all.acpc", "acpc", self.folder / other,
                                             notation, MATCH).hands, 6)

    def test_long_documents(self):
        """In one file of pieces the hands have the numbers that one call gives them."""
        text = handref.convert(self.log(*range(9)), "acpc", "ohh", MATCH).decode()
        bare = [line for line in text.replace('"game_number":"4"', '"game_number":"x"').replace(
            '"game_number":"5"', '"game_number":""').split("\n") if line]
        del bare[7]
        bare = [line.replace('"game_number":"6",', "") for line in bare]
        # a text that looks like a number of the hand
        bare[2] = bare[2].replace('"currency":""', r'"currency":"\"game_number\":\"8\""')
        path = self.folder / "hands.ohh"
        path.write_text("\n\n".join(bare) + "\n")
        with mock.patch.object(sources, "PIECE", 300):
            for form, packed in ((path, False), (Path(f"{path}.gz"), True)):
                if packed:
                    form.write_bytes(gzip.compress(path.read_bytes()))
                for to in ("ohh", "phh"):
                    out = self.folder / f"out-{packed}.{to}"
                    self.convert([form], to, out)
                    self.assertEqual(handref.compare(path, "ohh", out, to).hands, 8)
                self.assertEqual((self.folder / f"out-{packed}.ohh").read_bytes(),
                                 handref.convert(path, "ohh", "ohh"))

    def test_empty_number(self):
        """An empty text counts as not given."""
        folder = self.hands("hands", '""', "''", '""""""')
        self.convert([folder], "acpc", self.folder / "all.acpc", layout="join")
        self.assertEqual([line.split(":")[1] for line in
                          (self.folder / "all.acpc").read_text().splitlines()], ["0", "1", "2"])

    def test_number_in_a_long_text(self):
        """A line of a text that looks like one with a number is not one."""
        folder = self.hands("hands", None, None)
        for path in folder.iterdir():
            path.write_text(path.read_text() + 'venue = """\nhand = 7\nx"""\n')
        out = self.folder / "all.phhs"
        self.convert([folder], "phh", out, layout="join")
        single = self.folder / "single"
        self.convert([out], "phh", single, layout="split")
        self.assertEqual(handref.compare(folder / "hand-2.phh", "phh", single / "all-2.phh",
                                         "phh").hands, 1)


class LeftOut(Case):
    def test_each(self):
        """Hands that cannot be written are left out and listed; the others keep their numbers."""
        dated = 'year = 2024\nmonth = 2\nday = 3\n'
        folder = self.hands("hands", None, 5, None, 6)
        for place in (1, 3):
            path = folder / f"hand-{place}.phh"
            path.write_text(path.read_text() + dated)
        path = folder / "hand-4.phh"
        path.write_text(path.read_text().replace("cbr 300", "cbr 150"))
        joined = self.folder / "all.phhs"
        joined.write_text("".join(f"[{n}]\n" + (folder / f"hand-{n}.phh").read_text()
                                  for n in (1, 2, 3, 4)))
        out = self.folder / "out.ohh"
        result = self.convert([joined], "ohh", out)
        self.assertEqual((result.status, out.exists()), (1, False))
        for pieces in (1 << 20, 300):
            with mock.patch.object(sources, "PIECE", pieces):
                result = self.convert([joined], "ohh", out, each=True)
            self.assertEqual((result.files, result.legal_files, result.hands, result.legal),
                             (1, 0, 4, 1))
            said = [f"{joined}: unspelled: hand 1: Note year",
                    f"{joined}: unspelled: hand 3: Note year",
                    f"{joined}: refused: hand 4: event 3, action 3: RaiseTooSmall"]
            self.assertEqual((self.told, result.status), (said, 4))
            self.assertEqual(Path(f"{out}.left-out").read_text().splitlines(), said)
            self.assertEqual(handref.compare(folder / "hand-2.phh", "phh", out, "ohh").hands, 1)
            self.assertEqual(result.left_out, [(str(joined), 3)])
        # a list that holds no longer goes away
        self.convert([folder / "hand-2.phh"], "ohh", out, each=True)
        self.assertFalse(Path(f"{out}.left-out").exists())

    def test_each_to_files(self):
        log = self.folder / "match.acpc"
        log.write_text("# a match\n" + "".join(LINE % number for number in range(9)).replace(
            "STATE:4:r300", "STATE:4:r150").replace("STATE:7:r", "STATE:7:x"))
        for pieces in (1 << 20, 100):
            with mock.patch.object(sources, "PIECE", pieces):
                self.convert([log], "phh", self.folder / "single", layout="split", each=True)
                self.convert([log], "acpc", self.folder / "legal.acpc", each=True)
            self.assertEqual(sorted(os.listdir(self.folder / "single")), [
                *(f"match-{n}.phh" for n in (1, 2, 3, 4, 6, 7, 9)), "match.left-out"])
            self.assertEqual((self.folder / "single" / "match.left-out").read_text().splitlines(), [
                f"{log}: refused: hand 5: event 3, action 1: RaiseTooSmall (line 6)",
                f"{log}: bad input: line 9, byte 9: BadBetting"])
            self.assertEqual((self.folder / "legal.acpc").read_text(), "".join(
                LINE % number for number in range(9) if number not in (4, 7)))

    def test_sums(self):
        """One refused hand does not cost the sums of the others."""
        numbers = range(40)
        log = self.log(*numbers)
        lines = log.read_text().splitlines(keepends=True)
        wrong = self.folder / "wrong.acpc"
        for spoiled in ("r150", "x300"):
            wrong.write_text("".join(line.replace("r300", spoiled) if place == 17 else line
                                     for place, line in enumerate(lines)))
            for pieces in (1 << 20, 300):
                with mock.patch.object(sources, "PIECE", pieces):
                    for command in ("report", "session"):
                        call = many.Call(command, MATCH, keep_going=True)
                        with open(self.folder / "rows", "wb") as rows:
                            self.told = []
                            result = many.run([str(wrong), str(log)], call, many.Asked(
                                jobs=2, tell=self.told.append, form="tsv", stdout=rows))
                        net = [line.split("\t") for line in
                               (self.folder / "rows").read_text().splitlines()]
                        place = net[0].index("chips" if command == "report" else "net")
                        self.assertEqual([(row[1], int(row[place])) for row in net
                                          if row[0] == "name"], [("A", -7900), ("B", 7900)])
                        self.assertEqual((len(self.told), result.status),
                                         (1, 1 if spoiled == "r150" else 3))
                        self.assertEqual(many.left_out(result), f"left out: 1 hand of {wrong}")
        call = many.Call("report", MATCH)
        with open(self.folder / "rows", "wb") as rows:
            result = many.run([str(wrong), str(log)], call, many.Asked(
                tell=self.told.append, stdout=rows))
        self.assertEqual((result.status, (self.folder / "rows").read_text()), (3, ""))


if __name__ == "__main__":
    unittest.main()
