"""Tries what goes wrong around hands: faults of this package, names that are too long, closed and full streams, readers that
end, and files that others write while they are read."""
import json
import os
import shutil
import signal
import stat
import subprocess
import sys
import tempfile
import unittest
from pathlib import Path
from unittest import mock

HERE = Path(__file__).resolve().parent
sys.path.insert(0, str(HERE.parent))
import handref  # noqa: E402
from handref import explain, page, phhs, sources, toml  # noqa: E402

EXAMPLES = next(path for path in (HERE.parents[1] / "tests" / "examples", HERE.parents[1] / "examples") if path.exists())
MATCH = str(EXAMPLES / "match.game")
PROGRAM = shutil.which(os.environ.get("HANDREF_PROGRAM") or "handref")
HAND = (EXAMPLES / "folds.phh").read_text()
LINE = "STATE:%d:r300f:9s8h|KdTc:-100|100:%s\n"
HUGE = HAND.replace("100, 100, 100", "1e99999999999999999999, 100, 100")


class Case(unittest.TestCase):
    def setUp(self):
        folder = tempfile.TemporaryDirectory()
        self.addCleanup(folder.cleanup)
        self.folder = Path(folder.name) / "hands"
        self.folder.mkdir()
        self.env = {"PATH": os.environ["PATH"], "HOME": os.environ.get("HOME", "/"), "LANG": "C.UTF-8",
                    "HANDREF_PROGRAM": str(PROGRAM), "XDG_STATE_HOME": str(self.folder.parent / "state")}

    def hands(self, *names, text=HAND):
        for name in names:
            (self.folder / name).write_text(text)

    def words(self, *words, first=""):
        """The call of the package with these words, after other lines of Python."""
        script = f"import sys; sys.path.insert(0, {str(HERE.parent)!r}); from handref import __main__, sources\n" \
            f"{first}\n__main__.main()"
        return [sys.executable, "-c", script, *map(str, words)]

    def call(self, *words, first="", front=(), **more):
        done = subprocess.run([*front, *self.words(*words, first=first)], cwd=self.folder, env=self.env,
                              **{"stdout": subprocess.PIPE, "stderr": subprocess.PIPE, "timeout": 600, **more})
        return done.returncode, (done.stdout or b"").decode(), (done.stderr or b"").decode()

    def stub(self, text):
        """Another program, which is run in place of handref; that is "$handref" there."""
        path = self.folder.parent / "program"
        path.write_text(f"#!/bin/sh\nhandref='{PROGRAM}'\n{text}\n")
        path.chmod(0o755)
        self.env["HANDREF_PROGRAM"] = str(path)


class OneFile(Case):
    """What is wrong with one file hides no other."""

    def test_huge_exponent(self):
        self.hands("a.phh", "c.phh")
        self.hands("b.phh", text=HUGE)
        said = "bad input: Text"
        self.assertEqual(self.call("many", "check", "-k", "."), (
            3, f"./b.phh: {said}\nlegal hands: 2 of 3\nlegal files: 2 of 3\n       1 Text\n", ""))
        status, text, told = self.call("explain", "b.phh")
        self.assertEqual((status, text.split("\n")[0].partition(": ")[2], told), (0, said, ""))
        self.assertEqual(self.call("page", "b.phh", "out.html"), (0, "", ""))

    def test_numbers(self):
        """A number that no Decimal holds is still one: out of every range, or near to 0 and not whole."""
        for word, wanted in (("1e99999999999999999999", float("inf")), ("-1.5e+99999999999999999999", float("-inf")),
                             ("1e999999999", float("inf")), ("0e99999999999999999999", 0), ("0e999999999", 0)):
            self.assertEqual(toml.read(f"a = {word}")["a"], wanted)
        for word in ("1e-99999999999999999999", "1e-999999999"):
            self.assertTrue(0 < toml.read(f"a = {word}")["a"] < toml.read("a = 1e-99")["a"])

    def test_bug(self):
        """A fault that nothing expects is one line that names the file, and no verdict."""
        self.hands("a.phh", "b.phh", "c.phh")
        first = "from handref import tasks; own = tasks.work\n" \
            "def work(region, *more):\n    return {}[1] if 'b.phh' in region.source.path else own(region, *more)\n" \
            "tasks.work = work"
        status, text, told = self.call("many", "check", "-k", ".", first=first)
        lines = text.split("\n")
        self.assertRegex(lines[0], r"^\./b\.phh: a bug of handref [0-9.]+: KeyError \(\w+\.py, line \d+\)$")
        self.assertEqual((status, lines[1:3], told), (70, ["legal hands: 2 of 2", "legal files: 2 of 3"], ""))
        for words, patch in ((("explain", "a.phh"), "explain.of_file"), (("page", "a.phh", "o.html"), "page.page_of")):
            module = patch.partition(".")[0]
            status, text, told = self.call(*words, first=f"from handref import {module}\n{patch} = lambda *all: {{}}[1]")
            self.assertRegex(told, r"^a\.phh: a bug of handref [0-9.]+: KeyError \(.*\)\n$")
            self.assertEqual((status, text), (70, ""))

    def test_long_name(self):
        """A name that the disk takes is written; what is too long ends its own file alone."""
        names = ["a.phh", "x" * 245 + ".phh", "y.phh"]
        self.hands(*names)
        self.assertEqual(self.call("many", "convert", "-k", "--to", "ohh", "--out", "../out", ".")[0], 0)
        written = self.folder.parent / "out"
        self.assertEqual(sorted(os.listdir(written)), ["a.ohh", "x" * 245 + ".ohh", "y.ohh"])
        self.hands("x" * 251 + ".phh")
        status, text, _ = self.call("many", "convert", "-k", "--to", "ohh-to", "--out", "../out", ".")
        self.assertEqual((status, text.split("\n")[0]), (6, f"./{'x' * 251}.phh: write fault: file name too long"))
        self.assertEqual(len([name for name in os.listdir(written) if name.endswith("ohh-to")]), 3)

    def test_mode(self):
        """A file that is replaced keeps its mode."""
        self.hands("a.phh")
        for mode in (0o600, 0o664, 0o444):
            (self.folder / "a.ohh").write_text("old")
            (self.folder / "a.ohh").chmod(mode)
            self.assertEqual(self.call("many", "convert", "--force", "--to", "ohh", "--out", "a.ohh", "a.phh")[0], 0)
            self.assertEqual(stat.S_IMODE((self.folder / "a.ohh").stat().st_mode), mode)
            self.assertEqual(json.loads((self.folder / "a.ohh").read_text())["ohh"]["game_number"], "0")
            (self.folder / "a.ohh").unlink()


class Streams(Case):
    COMMANDS = (("many", "check", "a.phh"), ("many", "check", "-k", "b.phh"), ("many", "judge", "a.phh"),
                ("many", "judge", "--json", "a.phh"), ("many", "report", "a.phh"), ("many", "session", "--tsv", "a.phh"),
                ("many", "replay", "a.phh"), ("explain", "b.phh"), ("--help",), ("many", "--help"), ("explain", "--help"))

    def setUp(self):
        super().setUp()
        self.hands("a.phh")
        self.hands("b.phh", text=HAND.replace("cbr 6", "cbr 3"))

    def test_closed(self):
        """Where standard output is closed, the answer is not lost without a word."""
        for words in self.COMMANDS:
            with self.subTest(words=words):
                self.assertEqual(self.call(*words, front=("sh", "-c", 'exec "$@" >&-', "sh")), (6, "", "write fault\n"))
        done = self.call("many", "check", "--from", "phh", "-", front=("sh", "-c", 'exec "$@" <&-', "sh"))
        self.assertEqual(done, (5, "", "standard input: Bad file descriptor\n"))
        status, text, told = self.call("many", "check", "b.phh", front=("sh", "-c", 'exec "$@" 2>&-', "sh"))
        self.assertEqual((status, text.count("RaiseTooSmall"), told), (1, 2, ""))
        written = self.call("many", "convert", "--to", "ohh", "--out", "a.ohh", "a.phh",
                            front=("sh", "-c", 'exec "$@" <&- 2>&-', "sh"))
        self.assertEqual(written[::2], (0, ""))
        self.assertEqual((self.folder / "a.ohh").read_bytes(), subprocess.run(
            [PROGRAM, "convert", "--from", "phh", "--to", "ohh"], input=HAND.encode(), capture_output=True).stdout)

    def test_full(self):
        for words in self.COMMANDS:
            with self.subTest(words=words), open("/dev/full", "wb") as full:
                self.assertEqual(self.call(*words, stdout=full), (6, "", "write fault\n"))

    def test_reader_that_ends(self):
        """Where nobody reads any more, a call ends as other filters do."""
        for words in self.COMMANDS:
            with self.subTest(words=words):
                reading, writing = os.pipe()
                os.close(reading)
                self.assertEqual(self.call(*words, stdout=writing), (-signal.SIGPIPE, "", ""))
                os.close(writing)

    def test_as_they_come(self):
        """A row is shown when its piece is done, and not when all are."""
        lines = [LINE % (number, "A|B") for number in range(40)]
        (self.folder / "match.acpc").write_text("".join(lines))
        go = self.folder.parent / "go"
        self.stub(f"cat > \"$0.$$\"; while grep -q STATE:39: \"$0.$$\" && [ ! -e '{go}' ]; do sleep 0.05; done\n"
                  "exec \"$handref\" \"$@\" < \"$0.$$\"")
        for more in ((), ("--tsv",), ("--json",)):
            words = self.words("many", "judge", "-j", "2", *more, "--game", MATCH, "match.acpc", first="sources.PIECE = 300")
            with subprocess.Popen(words, stdout=subprocess.PIPE, cwd=self.folder, env=self.env) as running:
                first = [running.stdout.readline() for _ in range(2)]
                self.assertIn(b"legal", first[1])
                go.touch()
                rest = running.stdout.read().split(b"\n")
            self.assertEqual((running.returncode, len(first + rest) > 40), (0, True))
            go.unlink()


class Written(Case):
    """A file that others write while it is read is no file of hands, whatever was read of it."""
    SAID = "it was changed while it was read"

    def changed(self, name, text, how, task):
        """What a call says of a file that is changed when its third piece is judged."""
        path = self.folder / name
        path.write_text(text)
        os.utime(path, (10 ** 9, 10 ** 9))
        (self.folder.parent / "new").write_text(how(text) if callable(how) else text)
        calls = self.folder.parent / "calls"
        calls.write_text("")
        move = f"cat '{self.folder.parent}/new' > '{path}'" if callable(how) else how.format(path)
        self.stub(f"printf x >> '{calls}'; [ \"$(cat '{calls}')\" != xxx ] || {move}\nexec \"$handref\" \"$@\"")
        words = {"convert": ("--to", "ohh", "--out", "../out.ohh")}.get(task, ())
        game = ("--game", MATCH) if name.endswith("acpc") else ()
        done = self.call("many", task, "-j", "1", "--time", "1000", *words, *game, name, first="sources.PIECE = 300")
        self.assertGreaterEqual(len(calls.read_text()), 3)
        self.assertFalse((self.folder.parent / "out.ohh").exists())
        return done

    def test_in_place(self):
        log = "".join(LINE % (number, "Ann|Bob") for number in range(200))
        for task in ("convert", "report", "session", "replay"):
            self.assertEqual(self.changed("log.acpc", log, lambda text: text.replace("Ann|Bob", "Eve|Dan"), task),
                             (5, "", f"log.acpc: {self.SAID}\n"))
        for task in ("check", "judge"):
            status, said, told = self.changed("log.acpc", log, lambda text: text.replace("Ann|Bob", "Eve|Dan"), task)
            self.assertEqual((status, said.count(self.SAID + "\n") + told.count(self.SAID + "\n") > 0), (5, True))

    def test_cut_short(self):
        """A file that is cut short ends no process."""
        hands = "".join(f"[{number}]\n{HAND}" for number in range(1, 60))
        ohh = "\n\n".join([(EXAMPLES / "raise_adds.ohh").read_text().strip()] * 60)
        log = "".join(LINE % (number, "Ann|Bob") for number in range(200))
        for name, text in (("a.phhs", hands), ("a.ohh", ohh), ("a.acpc", log)):
            for how in (lambda text: text[:700], lambda text: "", lambda text: text + "\n", "rm '{}'", "touch '{}'"):
                status, said, told = self.changed(name, text, how, "check")
                self.assertIn((status, told), ((5, ""), (3, "")))
                self.assertIn(f"{name}: {self.SAID}\n", said)

    def test_replaced(self):
        """Another file in its place is seen, also of the same size and time."""
        log = "".join(LINE % (number, "Ann|Bob") for number in range(200))
        move = "{{ cp -p '{0}' '{0}.new'; mv '{0}.new' '{0}'; }}"
        self.assertEqual(self.changed("log.acpc", log, move, "convert"), (5, "", f"log.acpc: {self.SAID}\n"))

    COMMANDS = (("explain", "{}"), ("explain", "{}", "other.phh"), ("page", "{}", "../out.html"),
                ("page", "{}", "other.phh", "../out.html"), ("import", "--out", "../out", "{}"),
                ("import", "--out", "../out", "{}", "other.phh"))

    def test_commands(self):
        """Each command says so of a file that is read, in one call of the program or in several, and writes nothing of it."""
        self.hands("other.phh")
        log = "".join(LINE % (number, "Ann|Bob") for number in range(60))
        shutil.copy(MATCH, self.folder / "log.game")
        (self.folder.parent / "new").write_text(log.replace("Ann|Bob", "Eve|Dan"))
        changes = (f"cat '{self.folder.parent}/new' > '{{0}}'", ": > '{0}'", "echo >> '{0}'", "rm '{0}'",
                   "{{ cp -p '{0}' '{0}.new'; mv '{0}.new' '{0}'; }}")
        ohh = subprocess.run([PROGRAM, "convert", "--from", "phh", "--to", "ohh"], input=HAND, capture_output=True, text=True)
        for name, text in (("log.acpc", log), ("a.phh", HAND), ("a.ohh", ohh.stdout)):
            for place, words in enumerate(self.COMMANDS):
                change = changes[(place + len(name)) % len(changes)]
                with self.subTest(name=name, words=words, change=change):
                    path = self.folder / name
                    path.write_text(text)
                    os.utime(path, (10 ** 9, 10 ** 9))
                    done = self.folder.parent / f"{name}.{place}"
                    self.stub(f"[ -e '{done}' ] || {{ : > '{done}'; {change.format(path)}; }}\n"
                              "exec \"$handref\" \"$@\"")
                    status, said, told = self.call(*(word.format(name) for word in words), first="sources.PIECE = 300")
                    self.assertEqual((status, (said + told).count(f"{name}: {self.SAID}\n")), (5, 1), said + told)
                    self.assertNotIn("bug of handref", said + told)
                    made = [each.name for each in self.folder.parent.glob("out*/*")] + [
                        each.name for each in self.folder.parent.glob("out.html")]
                    self.assertLessEqual(set(made), {".handref-import", "other.phh"})
                    shutil.rmtree(self.folder.parent / "out", ignore_errors=True)

    def test_package(self):
        """The functions of the package raise it."""
        log = "".join(LINE % (number, "Ann|Bob") for number in range(60))
        path = self.folder / "log.acpc"
        calls = {"rows": lambda: list(handref.rows("check", str(path), game=MATCH)),
                 "check": lambda: handref.check([str(path)], game=MATCH),
                 "explain": lambda: explain.explain(str(path), "acpc", MATCH),
                 "page": lambda: page.page(str(path), "acpc", MATCH)}
        for change in ("echo >> '{0}'", ": > '{0}'"):
            for name, call in calls.items():
                with self.subTest(name=name, change=change), mock.patch.object(sources, "PIECE", 300):
                    path.write_text(log)
                    os.utime(path, (10 ** 9, 10 ** 9))
                    self.stub(f"{change.format(path)}\nexec \"$handref\" \"$@\"")
                    with mock.patch.dict(os.environ, self.env), self.assertRaises(OSError) as raised:
                        call()
                    self.assertEqual((raised.exception.strerror, raised.exception.filename), (self.SAID, str(path)))

    def test_no_map_of_files_of_others(self):
        """A long document is read, and not mapped, since one that is cut short would end the process."""
        path = self.folder / "long.phhs"
        path.write_text("".join(f"[{number}]\n{HAND}" for number in range(1, 90)))
        for order in (1, -1):
            lines = "".join(f"[{number}]\n{HAND}" for number in list(range(1, 90))[::order])
            path.write_text(lines)
            with open(path, "rb") as file, mock.patch.object(phhs.handref, "MOST_BYTES", 1000), \
                    mock.patch.object(phhs, "_BLOCK", 1000):
                found = phhs.tables(file)
                first = next(found)
                os.truncate(path, 0)
                rest = list(found) if order < 0 else []
            self.assertEqual(first, f"[1]\n{HAND}".encode())
            self.assertEqual(len(rest), 88 if order < 0 else 0)


class Late(Case):
    """A piece that takes longer than it may is named and left out, and the others are done."""

    def slow(self, sign):
        """A program that does not come to an end for hands with this text."""
        self.stub(f"cat > \"$0.$$\"; ! grep -q '{sign}' \"$0.$$\" || exec sleep 1000; exec \"$handref\" \"$@\" < \"$0.$$\"")

    def test_file(self):
        self.hands("a.phh", "c.phh")
        self.hands("b.phh", text=HAND + "# slow\n")
        self.slow("slow")
        for task, more, sums in (("check", (), "legal hands: 2 of 3"),
                                 ("convert", ("--to", "ohh", "--out", "../out"), "converted: 2 of 3 files, 2 hands")):
            status, text, told = self.call("many", task, "-k", "--time", "4", *more, ".")
            self.assertEqual(status, 7)
            said = (text + told).split("\n")
            self.assertLessEqual({"./b.phh: limit: seconds 4 (from hand 1 on)", sums, "       1 seconds"}, set(said))
        self.assertEqual(sorted(os.listdir(self.folder.parent / "out")), ["a.ohh", "c.ohh"])
        status, text, told = self.call("many", "judge", "-k", "--json", "--time", "4", ".")
        rows = [json.loads(line) for line in text.split("\n") if line]
        self.assertEqual((status, [row["said"] for row in rows if row["file"] == "./b.phh"]), (7, ["limit: seconds 4"]))

    def test_piece(self):
        """The hands after a piece that was left out keep their numbers and their lines."""
        lines = [LINE % (number, "A|B") for number in range(40)]
        lines[35] = lines[35].replace("r300", "r150")
        (self.folder / "a.acpc").write_text("".join(lines))
        self.slow("STATE:10:")
        status, text, _ = self.call("many", "check", "-k", "--time", "4", "--resume", "--game", MATCH, "a.acpc",
                                    first="sources.PIECE = 300")
        said = text.split("\n")
        self.assertEqual(said[:3], ["a.acpc: limit: seconds 4 (from hand 10 on)",
                                    "a.acpc: refused: hand 36: event 3, action 1: RaiseTooSmall (line 36)",
                                    "legal hands: 31 of 40"])
        self.assertEqual(status, 7)

    def test_words(self):
        self.hands("a.phh")
        self.assertEqual(self.call("many", "check", "--time", "0", "a.phh"),
                         (2, "", "--time is 1 second or more\n"))
        self.assertEqual(self.call("many", "check", "--time", "600", "a.phh")[0], 0)


if __name__ == "__main__":
    unittest.main()
