"""Tries the commands page and explain: a clear line for each fault, and no half output."""
import gzip
import os
import signal
import subprocess
import sys
import time
import unittest

from pages import EXAMPLES, HERE, LOG, MATCH, Case, Parsed


class Commands(Case):
    def call(self, *words, **more):
        environment = {**os.environ, "PYTHONPATH": str(HERE.parent), **more.pop("environment", {})}
        return subprocess.run([sys.executable, "-m", "handref", *map(str, words)],
                              capture_output=True, text=True, env=environment, **more)

    def refused(self, status, line, *words, **more):
        """A call ends with a status and one line, and writes nothing."""
        done = self.call(*words, **more)
        self.assertEqual((done.returncode, done.stdout), (status, ""), done.stderr)
        self.assertEqual(done.stderr.count("\n"), 1, done.stderr)
        self.assertIn(line, done.stderr)

    def test_page(self):
        out = self.folder / "a page's name.html"
        done = self.call("page", EXAMPLES / "folds.phh", out)
        self.assertEqual((done.returncode, done.stdout, done.stderr), (0, "", ""))
        self.assertTrue(out.read_text().startswith("<!DOCTYPE html>"))
        self.assertEqual(os.listdir(self.folder), [out.name])

    def test_page_is_not_made(self):
        out, hand = self.folder / "out.html", self.folder / "hand.phh"
        hand.write_bytes((EXAMPLES / "folds.phh").read_bytes())
        other = self.folder / "other.phh"
        other.write_bytes(hand.read_bytes() + b'players = ["Zo\xe9"]')
        missing = self.folder / "no\x1b[2Jsuch.phh"
        (self.folder / "a.html").mkdir()
        foreign = self.folder / "notes.html"
        foreign.write_text("mine")
        self.assertEqual(self.call("page", hand, out).returncode, 0)
        before = out.read_bytes()
        for status, line, words in (
                (5, "no\\u{1b}[2Jsuch.phh: no such file or directory", (missing, out)),
                (5, "No such file or directory", (hand, self.folder / "none" / "out.html")),
                (5, "Is a directory", (hand, self.folder / "a.html")),
                (5, "hand.txt: no such file or directory", (self.folder / "hand.txt", out)),
                (2, "hand.phh: the name of a page ends in .html", (other, hand)),
                (2, "there is such a file, and handref has not made it; --force", (hand, foreign)),
                (2, "standard input: --from says which notation it is", ("-", out)),
                (2, "--hand is a list of hands", ("--hand", "3,x", hand, out)),
                (2, "there is no hand 2", ("--hand", "2", hand, out)),
                (2, "a log needs a game file", ("--from", "acpc", hand, out)),
                (2, "--game goes with logs", ("--game", MATCH, hand, out)),
                (3, "other.phh: bad input: Text (handref explain says where)", (other, out)),
                (9, "game missing", ("--from", "acpc", "--game", "no.game", hand, out))):
            with self.subTest(line=line):
                self.refused(status, line, "page", *words)
        self.assertEqual(hand.read_bytes(), (EXAMPLES / "folds.phh").read_bytes())
        self.assertEqual((out.read_bytes(), foreign.read_text()), (before, "mine"))
        self.assertEqual(sorted(os.listdir(self.folder)),
                         ["a.html", "hand.phh", "notes.html", "other.phh", "out.html"])

    def test_page_of_several(self):
        """Folders, standard input, packed and several files; and what may be written over."""
        out, hands = self.folder / "out.html", self.folder / "hands"
        hands.mkdir()
        for name in ("folds.phh", "small_raise.phh", "raise_adds.ohh", "evening.phhs"):
            (hands / name).write_bytes((EXAMPLES / name).read_bytes())
        (hands / "folds2.phh.gz").write_bytes(gzip.compress((EXAMPLES / "folds.phh").read_bytes()))
        (hands / "bad.phh").write_bytes(b"min_bet = [")
        (hands / "empty.phh").write_bytes(b"")
        (hands / "match.acpc").write_bytes((EXAMPLES / "match.acpc").read_bytes())
        (hands / "notes.txt").write_bytes(b"mine")
        done = self.call("page", hands, out)
        self.assertEqual((done.returncode, done.stderr), (0, ""))
        index, shown = Parsed(out.read_text()).parts()
        files = [(index["files"][row[5]], row[2]) for row in index["hands"]]
        self.assertEqual(files, [
            ("bad.phh", "Text"), ("evening.phhs", ""), ("evening.phhs", ""), ("evening.phhs", ""),
            ("folds2.phh.gz", ""), ("folds.phh", ""), ("raise_adds.ohh", ""),
            ("small_raise.phh", "RaiseTooSmall")])
        self.assertEqual([hand["n"] for hand in shown], list(range(1, 9)))
        self.assertEqual(shown[3]["d"], [2, 3])
        said = "".join(Parsed(out.read_text()).said)
        for line in ("match.acpc: a log needs a game file: --game", "empty.phh: no hands",
                     "1 file of folders: not hands"):
            self.assertIn(line, said)
        self.assertEqual(self.call("page", "--hand", "2,7", hands, out).returncode, 0)
        _, shown = Parsed(out.read_text()).parts()
        self.assertEqual([(hand["n"], hand["d"][1]) for hand in shown], [(2, 1), (7, 1)])
        done = self.call("page", "--from", "phh", "-", out,
                         input=(EXAMPLES / "folds.phh").read_text())
        self.assertEqual((done.returncode, done.stderr), (0, ""))
        self.assertIn("1 hand of <bdi>standard input</bdi>", out.read_text())
        self.assertEqual(self.call("page", EXAMPLES / "folds.phh", out).returncode, 0)
        out.write_text(out.read_text().replace("3 hands", "4 hands").replace("folds", "my hands"))
        self.refused(2, "handref has not made it", "page", EXAMPLES / "folds.phh", out)
        log = self.text("logs/a.acpc", (EXAMPLES / "match.acpc").read_text())
        self.text("logs/b.game", MATCH.read_text())
        done = self.call("page", log, self.folder / "log.html")
        self.assertEqual((done.returncode, done.stderr), (
            0, f"{log.parent}/b.game: taken as the game file of {log}\n"))
        foreign = self.folder / "notes.html"
        foreign.write_text("mine")
        done = self.call("page", "--force", EXAMPLES / "folds.phh", foreign)
        self.assertEqual((done.returncode, done.stderr), (0, ""))
        self.assertTrue(foreign.read_text().startswith("<!DOCTYPE html>"))

    def test_program(self):
        """A program that is not there, is killed, or says what nobody understands."""
        out, program = self.folder / "out.html", self.folder / "program"
        words = ("page", EXAMPLES / "folds.phh", out)
        for text, status, line in ((None, 70, "No such file or directory"),
                                   ("kill -9 $$", 70, "killed by signal 9"),
                                   ("exit 0", 70, "the output of judge is cut"),
                                   ("exit 99", 70, "ended with the status 99")):
            if text is not None:
                program.write_text(f"#!/bin/sh\n{text}\n")
                program.chmod(0o755)
            self.refused(status, line, *words, environment={"HANDREF_PROGRAM": str(program)})
            self.assertFalse(out.exists())

    @unittest.skipUnless(os.path.exists("/dev/full"), "there is no /dev/full")
    def test_full(self):
        self.refused(6, "write fault", "page", EXAMPLES / "folds.phh", "/dev/full")
        with open("/dev/full", "w") as full:
            done = subprocess.run([sys.executable, "-m", "handref", "explain",
                                   str(EXAMPLES / "small_raise.phh")], stdout=full,
                                  stderr=subprocess.PIPE, text=True,
                                  env={**os.environ, "PYTHONPATH": str(HERE.parent)})
        self.assertEqual((done.returncode, done.stderr), (6, "write fault\n"))

    def test_interrupt(self):
        """A page that is interrupted leaves nothing, and no process."""
        log = self.folder / "match.acpc"
        log.write_bytes(b"".join(LOG % number for number in range(300)))
        program = self.folder / "program"
        program.write_text('#!/bin/sh\n: > "$0.begun"\nexec sleep 60\n')
        program.chmod(0o755)
        for sign in (signal.SIGTERM, signal.SIGINT):
            running = subprocess.Popen(
                [sys.executable, "-m", "handref", "page", "--game", str(MATCH), str(log),
                 str(self.folder / "out.html")], stderr=subprocess.PIPE, text=True, env={
                     **os.environ, "PYTHONPATH": str(HERE.parent), "HANDREF_PROGRAM": str(program)})
            begun = self.folder / "program.begun"
            for _ in range(600):
                if not begun.exists():
                    time.sleep(0.1)
            begun.unlink()
            running.send_signal(sign)
            told = running.communicate(timeout=60)[1]
            self.assertEqual((running.returncode, told), (130, "interrupted\n"))
            self.assertEqual(sorted(os.listdir(self.folder)), ["match.acpc", "program"])

    def test_explain(self):
        done = self.call("explain", EXAMPLES / "small_raise.phh")
        self.assertEqual(done.returncode, 0)
        self.assertIn("small_raise.phh:10:3: refused: hand 1: event 4, action 4: RaiseTooSmall",
                      done.stdout)
        self.assertIn("The least legal raise of p3 is cbr 4, the greatest cbr 100", done.stdout)
        done = self.call("explain", "game missing")
        self.assertEqual((done.returncode, done.stdout.split("\n")[0]), (0, "game missing"))
        done = self.call("explain", EXAMPLES / "folds.phh", "limit: hands 65536")
        self.assertIn("handref many takes files with any number of hands.", done.stdout)

    def test_explain_is_not_done(self):
        for status, line, words in (
                (5, "no such file or directory", ("none.phh",)),
                (5, "no such file or directory", ("none.txt",)),
                (2, "a log needs a game file", (self.text("a.log", "STATE:0:f:|:0|0:A|B"),)),
                (2, "--game goes with logs", ("--game", MATCH, EXAMPLES / "folds.phh")),
                (2, "a line is explained of one file",
                 (EXAMPLES / "folds.phh", EXAMPLES / "limit.phh", "limit: hands 65536"))):
            with self.subTest(line=line):
                self.refused(status, line, "explain", *words)
        self.refused(2, "site.txt: the text of a hand history of Winamax, which handref import",
                     "explain", self.text("site.txt", "Winamax Poker - CashGame - HandId: #1"))
        self.refused(2, "other.txt: neither its name nor its first bytes say a notation",
                     "explain", self.text("other.txt", "mine"))

    def text(self, name, text):
        """A file of the folder."""
        path = self.folder / name
        path.parent.mkdir(exist_ok=True)
        path.write_text(text)
        return path

    def test_explain_of_several(self):
        """Files and folders: each with something wrong, and how many there are of what."""
        for name in ("folds.phh", "small_raise.phh", "match.acpc"):
            self.text(f"hands/{name}", (EXAMPLES / name).read_text())
        raised = self.text("hands/raise2.phh", (EXAMPLES / "small_raise.phh").read_text())
        self.text("hands/empty.phh", "")
        for name, text in (("ps", "PokerStars Hand #247:  Hold'em No Limit ($0.25/$0.50 USD)"),
                           ("gg", "Poker Hand #RC123: Hold'em No Limit  ($0.5/$1)"),
                           ("tilt", "Full Tilt Poker Game #123: Table A"), ("mine", "mine")):
            self.text(f"hands/{name}.txt", text)
        done = self.call("explain", self.folder / "hands", EXAMPLES / "limit.phh")
        self.assertEqual((done.returncode, done.stderr), (0, ""))
        heads = [line for line in done.stdout.split("\n") if line.startswith(str(self.folder))]
        self.assertEqual([line.removeprefix(f"{self.folder}/hands/") for line in heads], [
            "empty.phh: no hands",
            "match.acpc: a log needs a game file: --game, or a .game file beside it",
            "raise2.phh:10:3: refused: hand 1: event 4, action 4: RaiseTooSmall",
            "small_raise.phh:10:3: refused: hand 1: event 4, action 4: RaiseTooSmall"])
        self.assertEqual(done.stdout.count("the raise is below the smallest legal raise"), 1)
        self.assertEqual(done.stdout.split("\n")[-6:], [
            "6 files: 4 with something wrong, 2 without", "1 file: not hands",
            "1 file: the text of a hand history of Full Tilt, which handref does not read",
            "1 file: the text of a hand history of GGPoker, which handref import reads",
            "1 file: the text of a hand history of PokerStars, which handref import reads", ""])
        done = self.call("explain", raised, "refused: hand 1: event 4, action 4: RaiseTooSmall")
        self.assertIn("raise2.phh:10:3: refused", done.stdout)
        done = self.call("explain", "--from", "phh", "-",
                         input=(EXAMPLES / "small_raise.phh").read_text())
        self.assertIn("standard input:10:3: refused: hand 1", done.stdout)

    def test_explain_of_long(self):
        """A long file of PHH, packed as well, is explained at the line of the whole file."""
        hand = (EXAMPLES / "folds.phh").read_text()
        text = "".join(f"[{number}]\n{hand}" for number in range(1, 6001)).replace(
            "cbr 6", "cbr 3", 5991).replace("cbr 3", "cbr 6", 5990)
        self.assertGreater(len(text), 1 << 20)
        plain = self.text("long.phhs", text)
        packed = self.folder / "packed.phhs.gz"
        packed.write_bytes(gzip.compress(text.encode()))
        line = 1 + text[:text.index("p3 cbr 3")].count("\n")
        for path in (plain, packed):
            for more in ((), ("refused: hand 5991: event 4, action 4: RaiseTooSmall",)):
                done = self.call("explain", path, *more)
                self.assertIn(f"{path}:{line}:3: refused: hand 5991: event 4, action 4: RaiseToo",
                              done.stdout)


if __name__ == "__main__":
    unittest.main()
