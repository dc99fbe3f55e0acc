"""Tries report, session, judge and replay over pieces against one call of the program, and files of
PHH that are cut, joined and split."""
import gzip
import io
import json
import os
import random
import sys
import tempfile
import unittest
from pathlib import Path
from unittest import mock

HERE = Path(__file__).resolve().parent
sys.path.insert(0, str(HERE.parent))
import handref  # noqa: E402
from handref import many, phhs, sources, tables  # noqa: E402
from handref.journal import Call  # noqa: E402

EXAMPLES = HERE.parent.parent / "examples"
MATCH = str(EXAMPLES / "match.game")
HAND = (EXAMPLES / "folds.phh").read_text()
HAND = "".join(line + "\n" for line in HAND.split("\n") if line and not line.startswith("#"))


def hand_of(names, stacks, more=""):
    """The hand of folds.phh with other names and stacks: p1 pays 1, p2 pays 2, p3 wins 3."""
    listed = json.dumps(names, ensure_ascii=False)
    lines = [line for line in HAND.split("\n") if line and not line.startswith("starting_stacks")]
    return "\n".join([*lines, f"starting_stacks = {stacks}", f"players = {listed}", more]) + "\n"


class Case(unittest.TestCase):
    def setUp(self):
        folder = tempfile.TemporaryDirectory()
        self.addCleanup(folder.cleanup)
        self.folder = Path(folder.name) / "a folder's \"hands\""
        self.folder.mkdir()
        cut = mock.patch.object(sources, "PIECE", 1000)  # so that files of a few hands are long
        cut.start()
        self.addCleanup(cut.stop)
        self.told = []

    def run_(self, command, *paths, form="text", keep_going=False, out="", **more):
        """The result of a call, and what it writes to the standard output."""
        self.told, written = [], io.BytesIO()
        layout = more.pop("layout", "each")
        call = Call(command, MATCH, more.pop("to", None), False, keep_going, layout,
                    more.pop("each", False))
        asked = many.Asked(jobs=2, tell=self.told.append, form=form, stdout=written, **more)
        result = many.run([str(path) for path in paths], call, asked, None, str(out))
        return result, written.getvalue().decode()

    def evening(self, count, name="hands.phhs", seed=1, order=None):
        """A file of hands of three of five names, whose stacks go on or begin anew."""
        chance, stacks = random.Random(seed), {}
        hands = []
        for number in range(1, count + 1):
            names = chance.sample(["Ann", "Bob", "Cy", "Dan", "Eve"], 3)
            start = [stacks.get(each, 100) if chance.random() < 0.7 else chance.randint(50, 90)
                     for each in names]
            for each, chips, won in zip(names, start, (-1, -2, 3)):
                stacks[each] = chips + won
            hands.append(f"[{number}]\n{hand_of(names, start)}\n")
        for first, second in order or ():
            hands[first], hands[second] = hands[second], hands[first]
        path = self.folder / name
        path.write_text("".join(hands))
        return path


class Sums(Case):
    def test_session_and_report_of_pieces(self):
        """A session over pieces is that of one call, also where hands are not in order."""
        for seed, order in ((1, None), (2, [(0, 11), (3, 4)])):
            path = self.evening(12, seed=seed, order=order)
            self.assertGreater(len(list(sources.regions(sources.sources([str(path)])[0][0]))), 2)
            _, text = self.run_("session", path, form="json")
            rows = [json.loads(line) for line in text.split("\n")[:-1]]
            self.assertEqual(rows, list(handref.rows("session", path, "phh")))
            _, text = self.run_("report", path, form="json")
            rows = [json.loads(line) for line in text.split("\n")[:-1]]
            self.assertEqual(rows, list(handref.rows("report", path, "phh")))

    def test_text_is_that_of_the_program(self):
        path = self.evening(5)
        for command in ("report", "session"):
            own = handref.run([command, "--from", "phh"], path).decode()
            own = "".join(line + "\n" for line in own.split("\n")[:-1]
                          if not line.startswith("hand "))
            heads = [line for line in self.run_(command, path)[1].split("\n")
                     if line.endswith(("name", "pots"))]
            self.assertEqual([" ".join(line.split()) for line in heads], {
                "report": ["game hands pots", "net hands name"],
                "session": ["first gaps net last hands entered raised shown won name"]}[command])
            text = self.run_(command, path)[1]
            self.assertEqual("".join(line + "\n" for line in text.split("\n")[:-1]
                                     if line not in heads), own)

    def test_log(self):
        log = self.folder / "match.acpc"
        log.write_text("".join((EXAMPLES / "match.acpc").read_text() for _ in range(9)))
        for command in ("session", "report"):
            _, text = self.run_(command, log, form="json")
            rows = [json.loads(line) for line in text.split("\n")[:-1]]
            self.assertEqual(rows, list(handref.rows(command, log, "acpc", MATCH)))

    def test_refused(self):
        """Nothing is written where a file is refused; with --keep-going it is left out."""
        path, wrong = self.evening(4), EXAMPLES / "small_raise.phh"
        result, text = self.run_("report", path, wrong)
        self.assertEqual((result.status, text, len(self.told)), (1, "", 1))
        result, text = self.run_("report", path, wrong, keep_going=True, form="json")
        self.assertEqual(json.loads(text.split("\n")[1])["hands"], 4)
        self.assertEqual((result.status, len(self.told)), (1, 1))

    def test_judge_and_replay(self):
        log = self.folder / "match.log"
        lines = (EXAMPLES / "match.acpc").read_text() * 12
        log.write_text(lines.replace("r300", "r150", 3).replace("r150", "r300", 2))
        with mock.patch.object(sources, "PIECE", 300):
            result, text = self.run_("judge", log, form="tsv")
        rows = [line.split("\t") for line in text.split("\n")[1:-1]]
        own = [list(map(tables.tsv_line, [row.values()]))[0][:-1].split("\t")
               for row in list(handref.rows("judge", log, "acpc", MATCH))]
        for row, other in zip(rows, own):
            self.assertEqual(row[1:10], other[:9])
        self.assertEqual((len(rows), result.status, result.legal), (24, 1, 23))
        path = self.evening(4)
        _, text = self.run_("replay", path, form="json")
        rows = [json.loads(line) for line in text.split("\n")[:-1]]
        self.assertEqual([{**row, "file": str(path)}
                          for row in list(handref.rows("replay", path, "phh"))],
                         [{key: row[key] for key in (*tables.COLUMNS["replay"], "file")}
                          for row in rows])

    def refused_log(self, name="match.log"):
        """A log of some pieces, of whose 24 hands two are refused."""
        lines = ((EXAMPLES / "match.acpc").read_text() * 12).split("\n")
        for place in (13, 41):
            self.assertIn("r300", lines[place])
            lines[place] = lines[place].replace("r300", "r150")
        log = self.folder / name
        log.write_text("\n".join(lines))
        return log

    def test_replay_each(self):
        """A refused hand is shown as one call of the program shows it, with its number."""
        log = self.refused_log()
        own = handref.run(["replay", "--each", "--from", "acpc", "--game", MATCH], log).decode()
        with mock.patch.object(sources, "PIECE", 300):
            self.assertGreater(len(list(sources.regions(sources.sources([str(log)])[0][0]))), 5)
            result, text = self.run_("replay", log, each=True)
            _, rows = self.run_("replay", log, each=True, form="json")
        self.assertEqual(text.replace(f"{log}: hand ", "hand "), own)
        self.assertEqual(text.count(f"{log}: hand "), 24 + 2)
        self.assertEqual((result.status, result.hands, result.legal, self.told), (1, 24, 22, []))
        self.assertEqual([json.loads(line) for line in rows.split("\n")[:-1]],
                         [{"file": str(log), **row} for row in list(handref.rows(
                             "replay", log, "acpc", MATCH, each=True))])
        result, text = self.run_("replay", log)
        self.assertEqual((result.status, text, len(self.told)), (1, "", 1))

    def test_replay_each_of_what_does_not_read(self):
        """A file that does not read has no rows, and ends the call as without --each."""
        log, wrong = self.refused_log(), EXAMPLES / "fraction.phh"
        for paths in ((log, wrong), (wrong, log)):
            result, text = self.run_("replay", *paths, each=True)
            self.assertEqual((result.status, text, len(self.told)), (3, "", 1))
            result, text = self.run_("replay", *paths, each=True, keep_going=True)
            self.assertEqual(text.count("RaiseTooSmall\n"), 2)
            self.assertEqual((result.status, result.legal_files, len(self.told)), (3, 0, 1))
        lines = log.read_text().split("\n")
        log.write_text("\n".join(lines[:30] + ["STATE:x"] + lines[30:] + ["STATE:y"]))
        with mock.patch.object(sources, "PIECE", 300):
            result, text = self.run_("replay", log, each=True, keep_going=True)
        self.assertEqual((result.status, text), (3, ""))
        self.assertEqual(len(self.told), 1)
        self.assertIn("line 31, byte", self.told[0])

    def test_replay_each_goes_on(self):
        """Pieces that a journal has are not replayed again."""
        log, journal = self.refused_log(), str(self.folder / "journal")
        with mock.patch.object(sources, "PIECE", 300):
            whole = self.run_("replay", log, each=True)
            for shard in (1, 2):
                self.run_("replay", log, each=True, journal=journal, shard=(shard, 2))
            with mock.patch.object(handref, "run", side_effect=AssertionError):
                again = self.run_("replay", log, each=True, journal=journal)
            self.assertEqual(again, whole)

    def test_status_of_verdicts(self):
        """With status 1 each hand has a verdict; else the status says why some have none."""
        wrong = EXAMPLES / "small_raise.phh", EXAMPLES / "fraction.phh"
        self.assertEqual(self.run_("judge", wrong[0])[0].status, 1)
        self.assertEqual(self.run_("judge", *wrong)[0].status, 3)
        self.assertEqual(self.run_("judge", *wrong, keep_going=True)[0].status, 3)
        self.assertEqual(self.run_("check", *wrong, keep_going=True)[0].status, 1)

    def test_rows_each(self):
        rows = list(handref.rows("replay", EXAMPLES / "small_raise.phh", "phh", each=True))
        self.assertEqual([row["event"] for row in rows if row["seat"] == 1], [0, 1, 2, 3])
        self.assertEqual({name: value for name, value in rows[-1].items() if value is not None},
                         {"hand": 1, "variant": "NT",
                          "text": "refused: hand 1: event 4, action 4: RaiseTooSmall"})
        legal = EXAMPLES / "folds.phh"
        self.assertEqual(list(handref.rows("replay", legal, "phh", each=True)),
                         list(handref.rows("replay", legal, "phh")))
        with self.assertRaises(handref.Refused):
            list(handref.rows("replay", EXAMPLES / "small_raise.phh", "phh"))
        with self.assertRaisesRegex(ValueError, "judge has no each"):
            list(handref.rows("judge", legal, "phh", each=True))


class Documents(Case):
    HARD = ('[1]\nx = """\n[2]\n"""\ny = [ # ]\n[3]\n]\nz = \'\'\'\n[4]\'\'\'\n',
            "[1] # [2]\na = {b = [\n[9]\n], c = '''\n[8]\n'''}\n\n",
            '[1]\n"a" = "#"\n[1.x]\ny = 1\n')

    def test_hard_headers(self):
        """A line inside of a text or a list is no header."""
        for text in self.HARD:
            data = (text + HAND + f"[10]\n{HAND}[2]\n{HAND}").encode()
            hands = phhs.Hands(data)
            self.assertEqual(list(hands.numbers), [1, 10, 2])
            self.assertEqual(data[slice(*hands.span(1))], f"[2]\n{HAND}".encode())

    def test_not_sure(self):
        for text, line in (('[1]\na = "x\n[2]\n', 2), ("[1]\na = [\n[2]\n", 2),
                           ("[meta]\na = 1\n", 1), ("[1]\n[2]\n[1]\n", 3), ("[1]\na = '''\n[2]", 2),
                           ("[01]\n", 1), ("[[1]]\n", 1), ("[1]\n[2]\n[1.a]\n", 3), ("[1] 2\n", 1),
                           ("[1]\n" + "[" * 9 + "\n[2]\n", 2), ("[1]\na = \"\"\"\n", 2)):
            with self.assertRaises(phhs.NotSure, msg=text) as caught:
                phhs.Hands(text.encode())
            self.assertEqual(caught.exception.line, line, text)

    def test_long_file_that_cannot_be_cut(self):
        path = self.evening(6)
        path.write_text(path.read_text() + "[meta]\na = 1\n")
        with mock.patch.object(handref, "MOST_BYTES", 100):
            result, _ = self.run_("check", path)
        line = path.read_text().split("\n").index("[meta]") + 1
        self.assertEqual(result.status, 3)
        self.assertIn(f"not cut at its hands: line {line}: this table is not a hand", self.told[0])

    def test_every_cut_keeps_all_hands(self):
        path = self.evening(7)
        data = path.read_bytes()
        for size in (1, 300, 700, 5000):
            with mock.patch.object(sources, "PIECE", size):
                found = list(sources.regions(sources.sources([str(path)])[0][0]))
            hands = b"".join(region.data() for region in found)
            self.assertEqual(hands.strip(), data.strip())

    def test_numbers_of_refused_hands(self):
        """A hand is reported by its place among the numbers, as by one call."""
        path = self.evening(6, order=[(0, 5)])
        path.write_text(path.read_text().replace("cbr 6", "cbr 3", 1))  # it is hand 6
        for form in (path, Path(f"{path}.gz")):
            if form != path:
                form.write_bytes(gzip.compress(path.read_bytes()))
            self.run_("check", form, keep_going=True)
            self.assertEqual(self.told, [
                f"{form}: refused: hand 6: event 4, action 4: RaiseTooSmall"])

    def test_convert_long(self):
        """What is written of pieces is what one call writes, with the numbers of hands."""
        path = self.evening(9)
        text = path.read_text().replace("[3]\n", "[3]\nhand = 77\n").replace(
            "[8]\n", "[8]\nhand = 7\n")
        path.write_text(text)
        out = self.folder / "out.ohh"
        self.run_("convert", path, to="ohh", out=out)
        self.assertEqual(out.read_bytes(), handref.convert(path, "phh", "ohh"))
        out = self.folder / "out.phhs"
        self.run_("convert", path, to="phh", out=out)
        self.assertEqual(handref.compare(path, "phh", out, "phh").hands, 9)
        log = self.folder / "match.acpc"
        log.write_text("".join((EXAMPLES / "match.acpc").read_text() for _ in range(9)))
        with mock.patch.object(sources, "PIECE", 300):
            self.run_("convert", log, to="phh", out=out)
        self.assertEqual(handref.compare(log, "acpc", out, "phh", MATCH).hands, 18)

    def test_join_and_split(self):
        """Hands that are joined and split are the same; what looks like a header is text."""
        hands = self.folder / "hands"
        hands.mkdir()
        hidden = 'venue = """\n[7]\nhand = 9\nvariant = \'NT\'\n"""'
        for number, more in ((2, hidden), (10, "hand = 5"), (1, "")):
            (hands / f"hand-{number}.phh").write_text(
                hand_of([f"N{number}", "B", "C"], [100, 100, 100], more))
        (hands / "hidden.phh").write_text(HAND + f"[77]\n{HAND}")
        out = self.folder / "all.phhs"
        result, _ = self.run_("convert", hands, to="phh", out=out, layout="join")
        self.assertEqual(result.hands, 4)
        said = [row["name"] for row in list(handref.rows("session", out, "phh"))[:-1]]
        self.assertEqual(said[:1] + said[3:5], ["N1", "N2", "N10"])
        single = self.folder / "single"
        self.run_("convert", out, to="phh", out=single, layout="split")
        self.assertEqual(sorted(os.listdir(single)), [f"all-{n}.phh" for n in (1, 2, 3, 4)])
        for number, other in ((2, 2), (3, 10)):
            self.assertEqual(handref.compare(single / f"all-{number}.phh", "phh",
                                             hands / f"hand-{other}.phh", "phh").hands, 1)


class Sources(Case):
    def test_by_content(self):
        for name, own in (("folds.phh", "phh"), ("raise_adds.ohh", "ohh"), ("match.acpc", "acpc"),
                          ("three_hands.phhs", "phh")):
            path = self.folder / f"{own}-{name[:3]}.txt"
            path.write_bytes((EXAMPLES / name).read_bytes())
            self.assertEqual(sources.notation_in(str(path)), own)
        (self.folder / "notes.txt").write_text("variants of [hands] = 1")
        found, others = sources.sources([str(self.folder)])
        self.assertEqual((len(found), others), (4, {"not hands": 1}))

    def test_what_cannot_be_read(self):
        folder = self.folder / "hands"
        folder.mkdir()
        (folder / "folds.phh").write_text(HAND)
        (folder / "gone.phh").symlink_to("nowhere")
        os.mkfifo(folder / "pipe.phh")
        (folder / "empty.phh").write_text("")
        result, _ = self.run_("check", folder, keep_going=True)
        self.assertEqual([line[len(str(folder)) + 1:] for line in self.told], [
            "empty.phh: no hands", "gone.phh: no such file or directory",
            "pipe.phh: it is not a file"])
        self.assertEqual((result.status, result.files, result.legal_files), (3, 4, 1))

    def test_order(self):
        names = ["hand-10", "hand-2", "a", "hand-2b", "10", "9"]
        self.assertEqual(sorted(names, key=sources.natural),
                         ["9", "10", "a", "hand-2", "hand-2b", "hand-10"])


if __name__ == "__main__":
    unittest.main()
