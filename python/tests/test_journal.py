"""Tries what is noted of pieces that are done: after interrupts, for calls that share a journal, where notes are damaged or
somebody else's. What comes out is compared with what the program says of the same hands in one call."""
import json
import os
import random
import shutil
import signal
import sqlite3
import subprocess
import sys
import tempfile
import time
import unittest
from pathlib import Path
from unittest import mock

HERE = Path(__file__).resolve().parent
sys.path.insert(0, str(HERE.parent))
import handref  # noqa: E402
from handref import journal, many, sources  # noqa: E402

EXAMPLES = next(path for path in (HERE.parents[1] / "tests" / "examples", HERE.parents[1] / "examples") if path.exists())
MATCH = str(EXAMPLES / "match.game")
PROGRAM = shutil.which(os.environ.get("HANDREF_PROGRAM") or "handref")
HAND = (EXAMPLES / "folds.phh").read_text()
SMALL = HAND.replace("cbr 6", "cbr 3")  # below the least raise, 4
LINE = "STATE:%d:r300f:9s8h|KdTc:-100|100:A|B\n"
MAIN = f"import signal, sys; sys.path.insert(0, {str(HERE.parent)!r}); from handref import sources, __main__; " \
    "sources.PIECE = 300; signal.signal(signal.SIGINT, signal.default_int_handler); __main__.main()"
# So files of a few hands are cut, and ^C ends a call also where the tests run beside another one.


class Case(unittest.TestCase):
    def setUp(self):
        folder = tempfile.TemporaryDirectory()
        self.addCleanup(folder.cleanup)
        self.folder = Path(folder.name) / "a folder's \"hands\""
        self.hands, self.state = self.folder / "hands", self.folder / "state"
        self.hands.mkdir(parents=True)
        (self.folder / "program").write_text(
            f"#!/bin/sh\nprintf x >> '{self.folder.parent}/calls'\n"
            f"{{ read -r most < '{self.folder.parent}/most'; }} 2>/dev/null\n"
            f"while [ -e '{self.folder.parent}/most' ] && [ \"$(wc -c < '{self.folder.parent}/calls')\" -gt \"$most\" ]\n"
            "do sleep 0.05; done\n"
            f"exec '{PROGRAM}' \"$@\"\n")
        (self.folder / "program").chmod(0o755)
        self.env = {"PATH": os.environ["PATH"], "HOME": os.environ.get("HOME", "/"), "LANG": "C.UTF-8",
                    "XDG_STATE_HOME": str(self.state), "HANDREF_PROGRAM": str(self.folder / "program")}
        for patch in (mock.patch.object(sources, "PIECE", 300), mock.patch.dict(os.environ, self.env)):
            patch.start()
            self.addCleanup(patch.stop)
        self.told = []

    def calls(self):
        path = self.folder.parent / "calls"
        return len(path.read_text()) if path.exists() else 0

    def log(self, count, *wrong):
        lines = [LINE % number for number in range(count)]
        for place in wrong:
            lines[place] = lines[place].replace("r300", "r150")
        path = self.folder / "match.acpc"
        path.write_text("# a match\n\n" + "".join(lines))
        return str(path)

    def check(self, *paths, **more):
        self.told = []
        return many.check([str(path) for path in paths], tell=self.told.append, **{"game": MATCH, "jobs": 3, **more})

    def words(self, *words):
        return [sys.executable, "-c", MAIN, "many", *map(str, words)]

    def call(self, *words):
        done = subprocess.run(self.words(*words), capture_output=True, text=True, cwd=self.hands, env=self.env)
        return done.returncode, done.stdout, done.stderr

    def ended(self, sign, *words, after=4, send=os.kill):
        """Runs a call, and ends it by a signal when the program was called a number of times."""
        most, before = self.folder.parent / "most", self.calls()
        most.write_text(f"{before + after}\n")  # what is called after that waits, until the call is ended
        running = subprocess.Popen(self.words(*words), stdout=subprocess.PIPE, stderr=subprocess.PIPE, text=True,
                                   cwd=self.hands, env=self.env, start_new_session=True)
        while running.poll() is None and self.calls() <= before + after:
            time.sleep(0.005)
        send(running.pid, sign)
        if sign != signal.SIGKILL:
            time.sleep(0.2)
        most.unlink()
        said = running.communicate(timeout=300)
        return running.returncode, *said

    def rows(self, path):
        """The rows of a journal."""
        with sqlite3.connect(path) as rows:
            found = rows.execute("select piece, answer, part, sum from pieces").fetchall()
        rows.close()
        return found

    def own(self):
        return self.rows(self.state / "handref" / "many.handref-journal")


class Resume(Case):
    TO = ("convert", "-j", "1", "--resume", "--join", "--to", "ohh", "--out", "../all.ohh", ".")

    def some(self, count=8):
        for number in range(count):
            (self.hands / f"h{number}.phh").write_text(HAND + f"hand = {number}\n")

    def test_in_the_folder_that_is_read(self):
        """The notes do not lie among the hands, and each hand is there once."""
        self.some()
        status, _, told = self.ended(signal.SIGINT, *self.TO)
        self.assertEqual((status, told), (130, "interrupted: give the same call again to go on\n"))
        self.assertEqual(sorted(os.listdir(self.hands)), [f"h{number}.phh" for number in range(8)])
        self.assertGreater(len(self.own()), 1)
        before = self.calls()
        self.assertEqual(self.call(*self.TO), (0, "converted: 8 of 8 files, 8 hands\n", ""))
        self.assertLess(self.calls() - before, 8)
        written = [json.loads(line) for line in (self.folder / "all.ohh").read_text().split("\n") if line]
        self.assertEqual([hand["ohh"]["game_number"] for hand in written], [str(number) for number in range(8)])
        self.assertEqual(self.own(), [])

    def test_after_a_kill(self):
        """What a call that was killed has left is not taken for hands."""
        self.some()
        for words in (("--to", "phh", "--out", "all.phhs"), ("--to", "ohh", "--out", "all.ohh")):
            self.ended(signal.SIGKILL, "convert", "-j", "1", "--join", *words, ".")
        left = [path.name for path in self.hands.rglob("*") if path.is_file() and path.suffix != ".phh"]
        self.assertGreater(len(left), 4)
        status, text, told = self.call("check", ".")
        self.assertEqual((status, told), (0, ""))
        self.assertRegex(text, r"\Alegal hands: 8 of 8\nlegal files: 8 of 8\n"
                               r"left out: \d+ files: left by a call that was ended\n\Z")

    def test_killed_at_any_moment(self):
        """Whenever a call is killed, the same call ends with each hand once."""
        self.some()
        chosen = random.Random(89)
        for _ in range(4):
            for path in (self.hands, self.folder):
                for left in path.glob("all.ohh"):
                    left.unlink()
            for _ in range(chosen.randrange(1, 3)):
                self.ended(signal.SIGKILL, *self.TO, after=chosen.randrange(1, 5))
            self.assertEqual(self.call(*self.TO)[::2], (0, ""))
            text = (self.folder / "all.ohh").read_bytes()
            self.assertEqual([f'"game_number":"{number}"'.encode() in text for number in range(8)], [True] * 8)
            self.assertEqual(text.count(b'{"ohh"'), 8)

    def test_while_a_file_is_written(self):
        """The front of a file that was being written is not taken for hands either."""
        self.some(2)
        script = f"import sys, os; sys.path.insert(0, {str(HERE.parent)!r}); from handref import outputs\n" \
            "with outputs.written('out.phh') as file:\n    file.write(open('h0.phh', 'rb').read()); file.flush(); os._exit(9)"
        subprocess.run([sys.executable, "-c", script], cwd=self.hands, env=self.env)
        self.assertEqual(len(os.listdir(self.hands)), 3)
        self.assertEqual(self.call("check", ".")[1].split("\n")[0], "legal hands: 2 of 2")

    def test_of_a_stranger(self):
        """What lies in a folder of hands, or where others can write, is not believed."""
        self.some(1)
        (self.hands / "h0.phh").write_text(SMALL)
        with mock.patch.object(many.tasks, "work", lambda region, call, data: journal.Answer(1, 1, 9)):
            self.check(self.hands / "h0.phh", journal=str(self.hands / "handref-resume-1"))
        planted = next(self.hands.glob("*/*.handref-journal"))
        self.assertEqual(len(self.rows(planted)), 1)
        status, said, _ = self.call("check", "--resume", "-k", ".")
        self.assertEqual((status, said.split("\n")[0]), (1, "./h0.phh: refused: hand 1: event 4, action 4: RaiseTooSmall"))
        (self.state / "handref").chmod(0o777)
        status, said, told = self.call("check", "--resume", ".")
        self.assertEqual((status, said, told.count("\n")), (2, "", 1))
        self.assertIn("others can write to this folder", told)

    def test_at_once(self):
        """Two equal calls at once both end well, and write the same."""
        self.some(30)
        running = [subprocess.Popen(self.words(*self.TO), stdout=subprocess.PIPE, stderr=subprocess.PIPE, text=True,
                                    cwd=self.hands, env=self.env) for _ in range(4)]
        for each in running:
            said = each.communicate(timeout=300)
            self.assertEqual((each.returncode, *said), (0, "converted: 30 of 30 files, 30 hands\n", ""))
        self.assertEqual((self.folder / "all.ohh").read_bytes().count(b'"ohh"'), 30)

    def test_of_another_call(self):
        """The end of a call leaves the notes of others, and those that are old go away."""
        self.some(6)
        log = self.log(60)
        self.ended(signal.SIGTERM, *self.TO)
        noted = self.own()
        self.assertEqual(self.call("check", "--resume", "--game", MATCH, log)[0], 0)
        self.assertEqual(self.own(), noted)
        with mock.patch.object(journal.time, "time", return_value=time.time() + 31 * 24 * 3600):
            self.check(log, resume=True)
        self.assertEqual(self.own(), [])

    def test_long(self):
        """A log that is cut goes on after each signal, and ends as one call of the program does."""
        log, out = self.log(200), self.folder / "out.ohh"
        words = ("convert", "--to", "ohh", "--out", out, "--game", MATCH, "-j", "2", "--resume", log)
        for sign, send in ((signal.SIGINT, os.kill), (signal.SIGTERM, os.kill), (signal.SIGHUP, os.kill),
                           (signal.SIGINT, os.killpg)):  # the last as a terminal does
            status, _, told = self.ended(sign, *words, send=send)
            self.assertEqual((status, told), (130, "interrupted: give the same call again to go on\n"))
            self.assertFalse(out.exists())
        done, before = len(self.own()), self.calls()
        self.assertGreater(done, 7)
        self.assertEqual(self.call(*words)[::2], (0, ""))
        self.assertLess(self.calls() - before, 200 // 7 - done + 3)
        self.assertEqual(out.read_bytes(), handref.convert(log, "acpc", "ohh", MATCH))
        self.assertEqual(sorted(os.listdir(self.folder)), ["hands", "match.acpc", "out.ohh", "program", "state"])


class Notes(Case):
    def test_known_by_bytes(self):
        """Files of the same name, size and time that differ in a byte are different pieces."""
        for name, text in (("p", HAND), ("q", SMALL)):
            (self.folder / name).mkdir()
            (self.folder / name / "h.phh").write_text(text)
            os.utime(self.folder / name / "h.phh", ns=(10 ** 18, 10 ** 18))
        notes = self.folder / "notes"
        said = []
        for name in ("p", "q", "p"):
            done = subprocess.run(self.words("check", "-k", "--journal", notes, "."), capture_output=True, text=True,
                                  cwd=self.folder / name, env=self.env)
            said.append((done.returncode, done.stdout.split("\n")[0]))
        self.assertEqual(said, [(0, "legal hands: 1 of 1"),
                                (1, "./h.phh: refused: hand 1: event 4, action 4: RaiseTooSmall"),
                                (0, "legal hands: 1 of 1")])
        self.assertEqual(self.calls(), 2)

    def test_known_by_call(self):
        """Another program, another game file or other words have answers of their own."""
        log, notes, game = self.log(60, 17), str(self.folder / "notes"), self.folder / "own.game"
        game.write_text(Path(MATCH).read_text())
        first = self.check(log, keep_going=True, journal=notes, game=str(game))
        told, calls = self.told, self.calls()
        again = self.check(log, keep_going=True, journal=notes, game=str(game))
        self.assertEqual((again, self.told, self.calls()), (first, told, calls))
        os.utime(log, ns=(1, 1))
        self.check(log, keep_going=True, journal=notes, game=str(game))
        self.assertEqual(self.calls(), calls)
        game.write_text(Path(MATCH).read_text() + "\n")
        self.check(log, keep_going=True, journal=notes, game=str(game))
        self.assertEqual(self.calls(), 2 * calls)
        with open(self.folder / "program", "a") as program:
            program.write("# another one\n")
        self.check(log, keep_going=True, journal=notes, game=str(game))
        self.assertEqual(self.calls(), 3 * calls)

    def test_damaged(self):
        """A row that was changed is done anew: it loses no hand and says nothing wrong."""
        log, out, notes = self.log(60), str(self.folder / "out.ohh"), self.folder / "notes"
        wanted = handref.convert(log, "acpc", "ohh", MATCH)
        path = notes / "1-of-1.handref-journal"

        def convert():
            result = many.convert([log], "ohh", out, game=MATCH, jobs=2, journal=str(notes), tell=self.told.append)
            self.assertEqual((result.status, result.hands, Path(out).read_bytes()), (0, 60, wanted))

        convert()
        noted = sorted(self.rows(path))
        self.assertGreater(len(noted), 4)
        for change in ("part = x''", "part = null", "part = substr(part, 1, 40)", "answer = '[0, 0, 9, [], []]'",
                       "answer = ''", "answer = null", "part = x'7b7d'", "sum = x''", "sum = null",
                       "part = zeroblob(length(part))"):
            with sqlite3.connect(path) as rows:
                rows.execute(f"update pieces set {change} where rowid % 2 = 0")
            rows.close()
            convert()
            self.assertEqual(sorted(self.rows(path)), noted)

    def test_cut(self):
        """A journal that is cut or overwritten is named, or else its answers are right."""
        log, notes = self.log(60, 17), self.folder / "notes"
        first = self.check(log, keep_going=True, journal=str(notes))
        path = notes / "1-of-1.handref-journal"
        whole = path.read_bytes()
        for data in (b"", whole[:100], whole[:len(whole) // 2], b"x" * 5000,
                     *(whole[:place] + bytes([whole[place] ^ 32]) + whole[place + 1:]
                       for place in range(0, len(whole), 997))):
            path.write_bytes(data)
            try:
                self.assertEqual(self.check(log, keep_going=True, journal=str(notes)), first)
            except OSError as fault:
                self.assertEqual(fault.filename, str(path))
                self.assertIn("the journal cannot be used", fault.strerror)

    def test_shards(self):
        log, notes = self.log(60, 17), str(self.folder / "notes")
        whole = self.check(log, keep_going=True)
        told, calls = self.told, self.calls()
        for shard in (1, 2, 3):
            self.check(log, keep_going=True, journal=notes, shard=(shard, 3))
        self.assertEqual(self.calls(), 2 * calls)
        self.assertEqual(self.check(log, keep_going=True, journal=notes), whole)
        self.assertEqual((self.told, self.calls()), (told, 2 * calls))
        (self.folder / "h.phh").write_text(HAND)
        self.assertEqual(self.check(self.folder, keep_going=True).files, 2)


if __name__ == "__main__":
    unittest.main()
