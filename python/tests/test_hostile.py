"""Uses the package and `handref many` as nobody should: names that look like rows, files that are
not what they seem, disks without room, programs that are killed or are not handref."""
import gzip
import io
import json
import os
import re
import resource
import shutil
import signal
import socket
import subprocess
import sys
import tempfile
import unittest
from pathlib import Path
from unittest import mock

HERE = Path(__file__).resolve().parent
sys.path.insert(0, str(HERE.parent))
import handref  # noqa: E402
from handref import many, phhs, sources, tables  # noqa: E402

EXAMPLES = HERE.parent.parent / "examples"
RECIPES = EXAMPLES / "recipes"
MATCH = str(EXAMPLES / "match.game")
PROGRAM = os.environ.get("HANDREF_PROGRAM") or "handref"
ROW = "x\n" + "9000".rjust(20) + "1".rjust(8) + "  Mallory"
NAMES = [ROW, "\n", "a\nhand 1 join b 7", "\x1b]0;title\x07\x1b[2J", "cr\rlf\r\n", "tab\tand \\n",
         "\\", '"""\n\\', "\u202etxt", "line\u2028line", "\x85\x9b31m", "'''", "del\x7f",
         "rake 5\nrake 6", "  p1", "{\"kind\":\"name\"}\n{\"kind\":\"name\"}"]
SHORT = {"n": "\n", "t": "\t", "r": "\r", "\\": "\\"}


def unescaped(text):
    """The text of a column of TSV."""
    return re.sub(r"\\(?:x(..)|u(....)|(.))", lambda found: SHORT[found[3]] if found[3] else
                  chr(int(found[1] or found[2], 16)), text)
IS_QUICK = False  # `./handref --test` leaves these out


class Case(unittest.TestCase):
    def setUp(self):
        folder = tempfile.TemporaryDirectory()
        self.addCleanup(folder.cleanup)
        self.folder = Path(folder.name)

    def call(self, *words, data=None, limit=None, out=subprocess.PIPE, program=PROGRAM):
        def bounds():
            for name, most in limit or ():
                resource.setrlimit(name, (most, most))

        done = subprocess.run([sys.executable, "-m", "handref", *map(str, words)], input=data,
                              stdout=out, stderr=subprocess.PIPE, preexec_fn=bounds,
                              cwd=self.folder, env={**os.environ, "PYTHONPATH": str(HERE.parent),
                                   "HANDREF_PROGRAM": program})
        return done.returncode, done.stdout, done.stderr.decode("utf-8", "surrogateescape")

    def stub(self, text):
        path = self.folder / "stub"
        path.write_text(f"#!/bin/sh\n{text}\n")
        path.chmod(0o755)
        return str(path)


class NamesOfPlayers(Case):
    def hands(self):
        """Two files with these names, in OHH and in PHH."""
        hand = json.loads((EXAMPLES / "raise_adds.ohh").read_text())
        lines = []
        for first, second in zip(NAMES[::2], NAMES[1::2]):
            for player, name in zip(hand["ohh"]["players"], (first, second)):
                player["name"] = name
            lines.append(json.dumps(hand))
        (self.folder / "named.ohh").write_text("\n\n".join(lines))
        (self.folder / "named.phhs").write_bytes(
            handref.convert(self.folder / "named.ohh", "ohh", "phh"))
        return [(self.folder / "named.ohh", "ohh"), (self.folder / "named.phhs", "phh")]

    def test_package(self):
        for path, notation in self.hands():
            said = handref.report(path, notation)
            self.assertEqual([row.name for row in said.names], NAMES)
            self.assertEqual(sum(row.chips for row in said.names), 0)
            played = handref.session(path, notation)
            self.assertEqual([row.name for row in played.rows], NAMES)
            self.assertEqual([row.name for row in played.changes], NAMES)

    def test_from_a_pipe(self):
        """The input is read once, so that what is judged is what is printed."""
        path, notation = self.hands()[1]
        script = "import handref, json, sys; print(json.dumps([row.name for row in " \
            f"handref.report('/dev/stdin', {notation!r}).names]))"
        done = subprocess.run([sys.executable, "-c", script], input=path.read_bytes(),
                              capture_output=True,
                              env={**os.environ, "PYTHONPATH": str(HERE.parent)})
        self.assertEqual(json.loads(done.stdout), NAMES)

    def test_rows(self):
        """Each name is one row in each form, from a file and from a pipe."""
        path, notation = self.hands()[1]
        for task in ("report", "session"):
            status, text, _ = self.call("many", task, "--json", "--from", notation, "-",
                                        data=path.read_bytes())
            rows = [json.loads(line) for line in text.decode().split("\n")[:-1]]
            self.assertEqual([row["name"] for row in rows if row["kind"] == "name"], NAMES)
            text = self.call("many", task, "--tsv", path)[1].decode()
            names = [unescaped(line.split("\t")[1]) for line in text.split("\n")
                     if line.startswith("name\t")]
            self.assertEqual(names, NAMES)
            self.assertIsNone(re.search("[\x00-\x08\x0b-\x1f\x7f-\x9f\u2028\u202e]", text))
            text = self.call("many", task, path)[1].decode()
            self.assertIsNone(re.search("[\x00-\x09\x0b-\x1f\x7f-\x9f\u2028\u202e]", text))
            rows = [line for line in text.split("\n") if line.startswith(" ")]
            heads = [line for line in rows if line.endswith(("hands  name", "won  name"))]
            self.assertEqual((len(heads), len(rows)), (1, 1 + len(NAMES)))

    def test_escapes(self):
        every = "".join(map(chr, [*range(0x100), 0x2028, 0x202e, 0x1f600])) + "\udcff"
        self.assertEqual(unescaped(tables.escaped(every)), every)
        row = {"name": every}
        self.assertEqual(json.loads(tables.json_line(row)), row)
        for text in (tables.escaped(every), tables.json_line(row)[:-1]):
            self.assertIsNone(re.search("[\x00-\x1f\x7f-\x9f\u2028\u202e]", text))


class Explained(Case):
    FOREIGN = "\x1b]0;title\x07\x1b[2J\r\x85\x9b31m\u2028\u202e\x7f"

    def lines(self, *words):
        """What a command says of a file, which has to be plain signs in lines."""
        status, text, told = self.call(*words)
        for said in (text.decode(), told):
            self.assertIsNone(re.search("[\x00-\x09\x0b-\x1f\x7f-\x9f\u2028\u202e]", said), said)
        return status, text.decode() + told

    def files(self):
        """Files with a fault, each with signs in it that change a terminal."""
        quoted = json.dumps(self.FOREIGN)
        hand = (EXAMPLES / "folds.phh").read_text()
        move = json.dumps("p1 " + self.FOREIGN)
        yield "variant.phh", hand.replace('"NT"', quoted), ()
        yield "action.phh", hand.replace('"p1 f"', move), ()
        yield "key.phh", hand.replace("min_bet", quoted), ()
        yield "raw.phh", hand.replace("min_bet", self.FOREIGN), ()
        yield "twice.phh", hand + f"{quoted} = 1\n{quoted} = 2\n", ()
        game = (EXAMPLES / "raise_adds.ohh").read_text()
        yield "game.ohh", game.replace('"Holdem"', quoted), ()
        yield "action.ohh", game.replace('"Raise"', quoted), ()
        yield "raw.ohh", game.replace('"Raise"', self.FOREIGN), ()
        yield "stated.ohh", game.replace('"win_amount":200', '"win_amount":199').replace(
            '"name":"A"', f'"name":{quoted}'), ()
        log = (EXAMPLES / "match.acpc").read_text()
        yield "betting.acpc", log.replace("r300f", self.FOREIGN), ("--game", MATCH)
        yield "name.acpc", log.replace("100:A|B", "101:" + self.FOREIGN), ("--game", MATCH)
        (self.folder / "foreign.game").write_text(
            Path(MATCH).read_text().replace("numSuits", self.FOREIGN))
        yield "good.acpc", log, ("--game", "foreign.game")
        yield f"name{self.FOREIGN}.phh", hand.replace("cbr 6", "cbr 3"), ()

    def test_plain(self):
        """Nothing of a file reaches the terminal as it is, by `explain`, `many` and `import`."""
        count = 0
        for name, text, words in self.files():
            with self.subTest(name=name):
                (self.folder / name).write_text(text)
                status, said = self.lines("explain", *words, name)
                self.assertGreater(len(said.split("\n")), 2, said)
                for task in ("check", "judge", "report"):
                    self.lines("many", task, "-k", *words, name)
                self.lines("import", "--check", *words, name)
                count += 1
        self.assertEqual(count, 13)


class NamesOfFiles(Case):
    def test_lines(self):
        names = [b"new\nline.phh", b"\x1b[31m.phh", b"not\xffutf8.phh", b"-k.phh", b"a b'\".phh",
                 "\u202e.phh".encode()]
        for name in names:
            (self.folder / os.fsdecode(name)).write_bytes(
                (EXAMPLES / "small_raise.phh").read_bytes())
        status, text, _ = self.call("many", "check", "-k", ".")
        lines = text.decode().split("\n")
        self.assertEqual((status, len(lines)), (1, len(names) + 4))
        self.assertIsNone(re.search("[\x00-\x09\x0b-\x1f\x7f-\x9f\u202e]", text.decode()))
        status, text, _ = self.call("many", "judge", "-k", "--json", ".")
        rows = [json.loads(line) for line in text.decode().split("\n")[:-1]]
        self.assertEqual({os.fsencode(row["file"]) for row in rows},
                         {b"./" + name for name in names})


    def test_kinds(self):
        """Links that lead nowhere or in a ring, pipes, sockets and devices are lines, and no call
        waits for them; words after `--` are names, whatever they begin with."""
        hand = (EXAMPLES / "folds.phh").read_bytes()
        (self.folder / "-k.phh").write_bytes(hand)
        os.mkfifo(self.folder / "pipe.phh")
        for name, to in (("ring.phh", "ring.phh"), ("none.phh", "none"), ("zero.phh", "/dev/zero"),
                         ("up", ".."), ("here", ".")):
            os.symlink(to, self.folder / name)
        place = os.getcwd()
        os.chdir(self.folder)  # the name of a socket is short
        try:
            with socket.socket(socket.AF_UNIX) as bound:
                bound.bind("socket.phh")
        finally:
            os.chdir(place)
        status, text, _ = self.call("many", "check", "-k", ".")
        self.assertEqual((status, text.decode().split("\n")[:7]), (5, [
            "./none.phh: no such file or directory", "./pipe.phh: it is not a file",
            "./ring.phh: too many levels of symbolic links", "./socket.phh: it is not a file",
            "./zero.phh: it is not a file", "legal hands: 1 of 1", "legal files: 1 of 6"]))
        self.assertEqual(self.call("many", "check", "--", "-k.phh")[0], 0)
        for task in ("judge", "report", "session", "replay"):
            self.assertEqual(self.call("many", task, "-k", "zero.phh", "pipe.phh")[0], 5)

    def test_deep_folders(self):
        """Folders as deep as they can be are searched."""
        here = os.open(self.folder, os.O_RDONLY)
        place = here
        for _ in range(1500):
            os.mkdir("d", dir_fd=place)
            place, old = os.open("d", os.O_RDONLY, dir_fd=place), place
            os.close(old)
        with os.fdopen(os.open("a.phh", os.O_CREAT | os.O_WRONLY, dir_fd=place), "wb") as file:
            file.write((EXAMPLES / "folds.phh").read_bytes())
        os.close(place)
        try:
            self.assertEqual(self.call("many", "check", "."),
                             (0, b"legal hands: 1 of 1\nlegal files: 1 of 1\n", ""))
        finally:
            subprocess.run(["rm", "-rf", self.folder / "d"], check=True)


class OddInputs(Case):
    def test_without_end(self):
        """Of a device without an end no call keeps more than an input may have, and some."""
        limit = [(resource.RLIMIT_AS, 1_000_000_000), (resource.RLIMIT_FSIZE, 40_000_000)]
        for words in (("explain",), ("import", "--check"), ("page",), ("many", "check"), ("many", "report")):
            for notation in ("phh", "ohh", "acpc"):
                game = ("--game", MATCH) if notation == "acpc" else ()
                path = "-"
                more = (self.folder / "out.html",) if words[0] == "page" else ()
                with self.subTest(words=words, notation=notation), open("/dev/zero", "rb") as zero:
                    done = subprocess.run(
                        [sys.executable, "-m", "handref", *words, "--from", notation, *game, path,
                         *map(str, more)], stdin=zero, capture_output=True, text=True, timeout=300,
                        cwd=self.folder, env={**os.environ, "PYTHONPATH": str(HERE.parent)},
                        preexec_fn=lambda: [resource.setrlimit(name, (most, most))
                                            for name, most in limit])
                    self.assertIn("limit: input bytes 16777216", done.stdout + done.stderr)
                    self.assertEqual(done.returncode, 7)

    def test_exceptions(self):
        """What is no file of hands is an exception, and the program's line where it has one."""
        for hands, notation, wanted in (
                (b'{"ohh":' + b"[" * 100_000, "ohh", "bad input: hand 1: Text"),
                (b'{"ohh":{"dealer_seat":1e999999999}}', "ohh", "bad input: hand 1: Text"),
                (b"min_bet = 1e999999999\n", "phh", "bad input: Text"),
                (b"min_bet = " + b"9" * 100_000, "phh", "bad input: Text"),
                ("a\0b", "phh", ValueError),
                (str(self.folder / "absent"), "phh", FileNotFoundError)):
            for call in (handref.check, handref.judge, handref.report, handref.session):
                with self.subTest(hands=hands[:40], call=call.__name__):
                    error = handref.HandrefError if isinstance(wanted, str) else wanted
                    with self.assertRaises(error) as caught:
                        call(hands, notation)
                    if isinstance(wanted, str):
                        self.assertIn(wanted, str(caught.exception))


class Packed(Case):
    def test_end_between_blocks(self):
        """An end of a hand is seen where a block ends in the middle of it."""
        size = 1 << 20
        for ends, text in ((phhs.NUMBER, b"1" + b"x" * (size - 2) + b"["),
                           (sources._HAND_END, b"\n" + b"x" * (size - 2) + b"\n"),
                           (sources._HAND_LINE, b"\n" + b"x" * (size - 2) + b"\n")):
            self.assertEqual(sum(map(len, phhs.bounded(io.BytesIO(text * 20), ends, ""))),
                             20 * size)
            with self.assertRaises(handref.HandrefError):
                list(phhs.bounded(io.BytesIO(text.replace(b"\n", b"x").replace(b"[", b"x") * 20),
                                  ends, ""))

    def test_no_hand_for_long(self):
        """Where no hand ends within the limit, a long file is not read further."""
        log, hand = (EXAMPLES / "match.acpc").read_bytes(), (EXAMPLES / "rake.ohh").read_bytes()
        for notation, one, idle in (("acpc", log, b"# nothing\n\n"), ("ohh", hand + b"\n\n", b"\n"),
                                    ("ohh", hand + b"\n\n", b" \r\n")):
            with mock.patch.object(handref, "MOST_BYTES", 4000):
                some, many = idle * (1500 // len(idle)), idle * (5000 // len(idle))
                found = list(handref.pieces((one + some) * 9, notation))
                self.assertEqual(b"".join(piece.data for piece in found).strip(),
                                 ((one + some) * 9).strip())
                with self.assertRaises(handref.HandrefError) as caught:
                    list(handref.pieces(one + many + one, notation))
                self.assertEqual((caught.exception.status, caught.exception.line),
                                 (7, "limit: input bytes 4000"))
                ends = {"acpc": sources._HAND_LINE}.get(notation, sources._HAND_END)
                with mock.patch.object(sources, "PIECE", 1000), \
                        io.BytesIO(one + idle * 9000 + one) as file:
                    found = list(sources._blocks(file, notation))
                    self.assertEqual([len(data) > 4000 for data in found], [False, True])
                    self.assertLess(file.tell(), 10_000)
                with self.assertRaises(handref.HandrefError):
                    list(phhs.bounded(io.BytesIO(one + idle * 3_000_000), ends, ""))

    def test_help_to_a_full_device(self):
        """A help that cannot be written ends as other output does."""
        for words in (("--help",), ("page", "--help"), ("many", "check", "--help")):
            for unbuffered in ("", "1"):
                with open("/dev/full", "wb") as full:
                    done = subprocess.run(
                        [sys.executable, "-m", "handref", *words], stdout=full,
                        stderr=subprocess.PIPE, env={**os.environ, "PYTHONUNBUFFERED": unbuffered,
                                                     "PYTHONPATH": str(HERE.parent)})
                self.assertEqual((done.returncode, done.stderr), (6, b"write fault\n"))

    def test_bomb(self):
        """A packed file of any size takes no more than an input may, and some."""
        for name, text in (("line.acpc", b"x" * 1_000_000), ("blank.ohh", b"\n" * 1_000_000),
                           ("key.phh", b"a" * 1_000_000), ("list.ohh", b"[" * 1_000_000)):
            path = self.folder / f"{name}.gz"
            count = 2 if name == "blank.ohh" else 40
            with gzip.open(path, "wb", 1) as file:
                for _ in range(count):
                    file.write(text)
            # ru_maxrss would begin with that of the process of the tests.
            script = ("import handref, re, sys\ntry:\n    "
                      "print(sum(1 for _ in handref.pieces(sys.argv[1], sys.argv[2])))\n"
                      "except handref.HandrefError as error:\n    print(error.status)\n"
                      "print(re.search(r'VmHWM:\\s*(\\d+)', open('/proc/self/status').read())[1])")
            kind = {".acpc": "acpc", ".ohh": "ohh"}.get(Path(name).suffix)
            if kind:
                done = subprocess.run([sys.executable, "-c", script, path, kind],
                                      capture_output=True, text=True,
                                      env={**os.environ, "PYTHONPATH": str(HERE.parent)})
                said, most = map(int, done.stdout.split())
                self.assertEqual(said, 1 if name == "blank.ohh" else 7)
                self.assertLess(most, 150_000)
        stub = self.stub("head -c 20000000 | wc -c >> sizes; "
                         "echo 'limit: input bytes 16777216' >&2; exit 7")
        limit = [(resource.RLIMIT_AS, 1_000_000_000), (resource.RLIMIT_FSIZE, 30_000_000)]
        status, _, told = self.call("many", "check", "--game", MATCH, "-k", ".", program=stub,
                                    limit=limit)
        self.assertEqual(status, 7, told)
        for name in ("line.acpc", "key.phh", "list.ohh"):
            game = ("--game", MATCH) if name.endswith("acpc") else ()
            status, text, told = self.call("explain", *game, f"{name}.gz", program=stub,
                                           limit=limit)
            self.assertEqual(status, 7 if name.endswith("phh") else 0, told)
            self.assertIn("limit: input bytes", text.decode() + told)
        sizes = list(map(int, (self.folder / "sizes").read_text().split()))
        self.assertLessEqual(max(sizes), handref.MOST_BYTES + sources.PIECE + 1)


class Room(Case):
    def test_full(self):
        """Where there is no room, one line says so, with status 6, and no half file is left."""
        log = self.folder / "match.acpc"
        log.write_text((EXAMPLES / "match.acpc").read_text() * 20)
        limit = [(resource.RLIMIT_FSIZE, 2000)]
        before = sorted(os.listdir(self.folder))
        status, text, told = self.call("many", "convert", "--game", MATCH, "--to", "ohh", "--out",
                                       "out.ohh", "match.acpc", limit=limit)
        self.assertEqual((status, text, told.count("\n")), (6, b"", 1), told)
        self.assertRegex(told, "write fault: file too large")
        self.assertEqual(sorted(os.listdir(self.folder)), before)
        for words in (("report", "--json"), ("judge",), ("check", "-k")):
            with open("/dev/full", "wb") as full:
                status, _, told = self.call("many", *words, "--game", MATCH, "match.acpc", out=full)
            self.assertEqual((status, told.count("\n")), (6, 1), told)

    def test_page(self):
        """A page, or a file that is imported, is not left in half where there is no room."""
        (self.folder / "hand.phh").write_bytes((EXAMPLES / "folds.phh").read_bytes() + b"#" * 9000)
        before = sorted(os.listdir(self.folder))
        for words in (("page", "hand.phh", "out.html"), ("import", "--out", ".", "hand.phh", "--force")):
            status, _, told = self.call(*words, limit=[(resource.RLIMIT_FSIZE, 2000)])
            self.assertEqual((status, told.count("\n")), (6, 1), told)
            self.assertEqual(sorted(os.listdir(self.folder)), before)

    def test_closed(self):
        """A reader that goes away ends the call, in silence."""
        log = self.folder / "match.acpc"
        log.write_text((EXAMPLES / "match.acpc").read_text() * 9000)
        words = [sys.executable, "-m", "handref", "many", "judge", "--game", MATCH, str(log)]
        stub = self.stub("cat > /dev/null; i=0; while [ $i -lt 9000 ]; do i=$((i + 1)); "
                         "echo \"hand $i: legal\"; done; echo 'legal hands: 9000 of 9000'")
        with subprocess.Popen(words, stdout=subprocess.PIPE, stderr=subprocess.PIPE, env={
                **os.environ, "PYTHONPATH": str(HERE.parent), "HANDREF_PROGRAM": stub}) as running:
            running.stdout.readline()
            running.stdout.close()
            told = running.stderr.read().decode()
        self.assertEqual((running.returncode, told), (-signal.SIGPIPE, ""))


class OtherPrograms(Case):
    def test_no_refusal(self):
        """What is not handref refuses no hand, whatever it ends with."""
        hand = (EXAMPLES / "folds.phh").read_bytes()
        for program in ("/bin/false", "/bin/true", "/bin/cat", "/bin/ls", "/bin/echo", "no/such"):
            with mock.patch.dict(os.environ, HANDREF_PROGRAM=program):
                for call in (handref.check, handref.judge, handref.report, handref.session):
                    with self.assertRaises((handref.NoProgram, handref.UnclearOutput)):
                        call(hand, "phh")
        for status in range(1, 16):
            error = handref.error_of(status, "something else")
            self.assertIsInstance(error, handref.NoProgram)
        self.assertEqual(self.call("many", "check", EXAMPLES / "folds.phh",
                                   program="/bin/false")[0], 70)

    def test_killed(self):
        """A program that is killed ends its file alone, and leaves no process."""
        for number in range(6):
            (self.folder / f"{number}.phh").write_bytes((EXAMPLES / "folds.phh").read_bytes())
        (self.folder / "3.phh").write_text("kill = 1\n")
        stub = self.stub("cat > in.$$; grep -q kill in.$$ && { rm in.$$; kill -9 $$; }; rm in.$$; "
                         "echo 'legal hands: 1 of 1'")
        status, text, _ = self.call("many", "check", "-k", ".", program=stub)
        self.assertEqual(status, 8)
        self.assertIn(b"./3.phh: ", text)
        self.assertIn(b"legal files: 5 of 6", text)
        with mock.patch.dict(os.environ, HANDREF_PROGRAM=stub):
            many.check([str(self.folder)], tell=lambda _: None)
        children = [Path(f"/proc/self/task/{task}/children")
                    for task in os.listdir("/proc/self/task")]
        self.assertEqual([path.read_text() for path in children if path.exists()],
                         [""] * sum(path.exists() for path in children))

    def test_killed_while_it_writes(self):
        """Of a program that is killed in the middle of its answer nothing is taken."""
        (self.folder / "a.phh").write_bytes((EXAMPLES / "folds.phh").read_bytes())
        stub = self.stub(f"'{shutil.which(PROGRAM)}' \"$@\" | head -c 40; kill -9 $$")
        before = sorted(os.listdir(self.folder))
        for words in (("convert", "--to", "ohh", "--out", "out.ohh"), ("report",), ("session",),
                      ("replay",), ("convert", "--to", "phh", "--join", "--out", "all.phhs")):
            status, text, told = self.call("many", *words, "a.phh", program=stub)
            self.assertEqual((status, text), (8, b""), told)
            self.assertEqual(sorted(os.listdir(self.folder)), before)
        for words in (("page", "a.phh", "out.html"), ("explain", "a.phh")):
            status, text, told = self.call(*words, program=stub)
            self.assertEqual((status, text, told.count("\n")), (70, b"", 1), told)
            self.assertEqual(sorted(os.listdir(self.folder)), before)

    def test_many_files(self):
        """Thousands of files, in order, each with its line."""
        hands = self.folder / "hands"
        hands.mkdir()
        for number in range(3000):
            (hands / f"hand-{number}.phh").write_text(f"variant = '{number}'\n")
        stub = self.stub("read line; echo \"bad input: hand 1, variant: WrongType\" >&2; exit 3")
        status, text, _ = self.call("many", "check", "-k", "-j", "8", hands, program=stub)
        lines = text.decode().split("\n")
        self.assertEqual((status, [line.split(":")[0] for line in lines[:3000]]),
                         (3, [f"{hands}/hand-{number}.phh" for number in range(3000)]))


class Recipes(Case):
    """The recipes take names of files as they are, and hands as they were judged."""

    def setUp(self):
        super().setUp()
        own = self.folder / "own"
        own.mkdir()
        (own / "handref").write_text(
            f"#!/bin/sh\nexec env PYTHONPATH='{HERE.parent}' HANDREF_PROGRAM='"
            f"{shutil.which(PROGRAM)}' '{sys.executable}' -m handref \"$@\"\n")
        (own / "handref").chmod(0o755)
        self.path = {**os.environ, "PATH": f"{own}:{os.environ['PATH']}"}

    def recipe(self, name, *words, **more):
        done = subprocess.run([RECIPES / name, *words], capture_output=True, cwd=self.folder,
                              env=self.path, **more)
        return done.returncode, done.stdout, done.stderr.decode()

    def test_legal_hands(self):
        log = (EXAMPLES / "match.acpc").read_bytes()
        wanted = b"".join(line for line in log.splitlines(True) if line.startswith(b"STATE"))
        for name in ("a=b.log", "-k.log", '"q.log', "back\\nslash.log", "log"):
            (self.folder / name).write_bytes(log)
            self.assertEqual(self.recipe("legal-hands", name, MATCH), (0, wanted, ""))
        (self.folder / "packed.log.gz").write_bytes(gzip.compress(log))
        self.assertEqual(self.recipe("legal-hands", "packed.log.gz", MATCH), (0, wanted, ""))
        self.assertEqual(self.recipe("legal-hands", "/dev/stdin", MATCH, input=log),
                         (0, wanted, ""))
        (self.folder / "wrong").write_bytes(log.replace(b"r300", b"r150"))
        status, text, told = self.recipe("legal-hands", "wrong", MATCH)
        self.assertEqual((status, text), (0, wanted.split(b"\n")[1] + b"\n"))
        self.assertEqual(told, "wrong: refused: hand 1: event 3, action 1: RaiseTooSmall\n")
        for words in ((".", MATCH), ("absent", MATCH), ("log", "absent")):
            status, text, told = self.recipe("legal-hands", *words)
            self.assertEqual((status > 0, text, told.count("\n")), (True, b"", 1), told)

    def test_hands_sql(self):
        if not shutil.which("sqlite3"):
            self.skipTest("sqlite3 is not installed")
        for name in ('"a.log', "b.log", 'c".log', "d\t.log"):
            (self.folder / name).write_bytes((EXAMPLES / "match.acpc").read_bytes())
        files = sorted(os.listdir(self.folder))[:-1]
        for task in ("judge", "replay"):
            done = self.call("many", task, "--tsv", "--game", MATCH, *files)
            (self.folder / f"{task}.tsv").write_bytes(done[1])
        done = subprocess.run(
            ["sqlite3"], input=(RECIPES / "hands.sql").read_text() +
            "select file, count(*) from verdicts where verdict = 'legal' group by file;"
            "select sum(finish - start) from seats where seat = 2;",
            capture_output=True, text=True, cwd=self.folder)
        self.assertEqual((done.stdout.split("\n"), done.stderr), (
            ['"a.log\t2', "b.log\t2", 'c".log\t2', "d\\t.log\t2", "400", ""], ""))

    def test_with_limits(self):
        """Where limits cannot be set nothing is run; lower ones of the caller stay."""
        hand = (EXAMPLES / "folds.phh").read_bytes()
        (self.folder / "own" / "handref").write_text("#!/bin/sh\nulimit -v\nulimit -t\n")
        for bounds, wanted in (((), b"1000000\n60\n"),
                               ((resource.RLIMIT_AS, 800_000 << 10), b"800000\n60\n"),
                               ((resource.RLIMIT_CPU, 9), b"1000000\n9\n")):
            done = self.recipe("with-limits", "check", "--from", "phh", input=hand,
                               preexec_fn=lambda: bounds and resource.setrlimit(
                                   bounds[0], (bounds[1], bounds[1])))
            self.assertEqual(done, (0, wanted, ""))


if __name__ == "__main__":
    unittest.main()
