"""Tries `handref duplicates` on hands that are there twice, in whatever notations and places."""
import csv
import gzip
import io
import json
import os
import subprocess
import sys
import tempfile
import unittest
from pathlib import Path

from pages import EXAMPLES, HERE, MATCH

import handref

LINE = "STATE:%d:r300f:9s8h|KdTc:-100|100:A|B\n"


class Duplicates(unittest.TestCase):
    def setUp(self):
        folder = tempfile.TemporaryDirectory()
        self.addCleanup(folder.cleanup)
        self.folder = Path(folder.name)

    def found(self, *words, status=0, program=None):
        done = subprocess.run(
            [sys.executable, "-m", "handref", "duplicates", *map(str, words)],
            capture_output=True, text=True, cwd=self.folder, env={
                "PATH": os.environ["PATH"], "HOME": os.environ.get("HOME", "/"),
                "LANG": "C.UTF-8", "PYTHONPATH": str(HERE.parent),
                "HANDREF_PROGRAM": str(program or os.environ["HANDREF_PROGRAM"])})
        self.assertEqual(done.returncode, status, done.stderr)
        self.said = done.stderr
        return done.stdout.splitlines()

    def put(self, name, data):
        path = self.folder / name
        path.parent.mkdir(exist_ok=True, parents=True)
        path.write_bytes(data)
        return path

    def test_at_another_place(self):
        """13 hands of a file are copies of others, at other places and with other numbers."""
        hand = handref.convert(EXAMPLES / "folds.phh", "phh", "phh").decode()
        hands = [hand + f"venue = \"place {n}\"\n" for n in range(20)]
        self.put("a.phhs", "".join(f"[{n + 1}]\n{text}" for n, text in enumerate(hands)).encode())
        copies = [f"hand = {50 + n}\n" * (n % 2) + hands[n] for n in range(18, 5, -1)]
        self.put("b.phhs", "".join(f"[{n + 1}]\n{text}" for n, text in enumerate(copies)).encode())
        self.assertEqual(self.found("a.phhs", "b.phhs"), [
            *(f"b.phhs hand {n}: as a.phhs hand {20 - n}" + " (copy under another number)" * (n % 2 == 0)
              for n in range(1, 14)),
            "duplicates: 13 of 33 hands", "       7 exact copy", "       6 copy under another number",
            "not listed: 19 hands with the same play under other names or dates (--no-notes)"])

    def test_across_notations(self):
        """A hand is the same in PHH, in both dialects of OHH, in a log, and packed."""
        log = (LINE % 7).encode()
        self.put("a/one.log", log)
        self.put("a/match.game", Path(MATCH).read_bytes())
        for to in ("phh", "ohh", "ohh-to"):
            self.put(f"b/two.{to}", handref.convert(log, "acpc", to, MATCH))
        self.put("c/three.phh.gz", gzip.compress(handref.convert(log, "acpc", "phh", MATCH)))
        self.assertEqual(self.found("a", "b", "c"), [
            "b/two.ohh hand 1: as a/one.log hand 1", "b/two.ohh-to hand 1: as a/one.log hand 1",
            "b/two.phh hand 1: as a/one.log hand 1", "c/three.phh.gz hand 1: as a/one.log hand 1",
            "duplicates: 4 of 5 hands", "       4 exact copy"])
        self.assertEqual(self.said, "a/match.game: taken as the game file of a/one.log\n")

    def test_notes(self):
        """Names and dates count, unless only the play is compared; what looks like a key in a text
        of several lines is no key."""
        hand = handref.convert(EXAMPLES / "folds.phh", "phh", "phh").decode()
        odd = 'venue = """\nhand = 3\nactions = ["p1 f"]\nx"""\n'
        for name, more in (("a", ""), ("b", 'players = ["A", "B", "C"]\n'), ("c", odd),
                           ("d", "hand = 4\n" + odd)):
            self.put(f"{name}.phh", (more + hand).encode())
        self.put("e.phh", hand.replace("AhKh", "AhKd").encode())
        names = [f"{name}.phh" for name in "abcde"]
        copy = "d.phh hand 1: as c.phh hand 1 (copy under another number)"
        self.assertEqual(self.found(*names), [
            copy, "duplicates: 1 of 5 hands", "       1 copy under another number",
            "not listed: 2 hands with the same play under other names or dates (--no-notes)"])
        self.assertEqual(self.found("--no-notes", *names), [
            *(f"{name}.phh hand 1: as a.phh hand 1 (same play under other names or dates)"
              for name in "bc"), copy, "duplicates: 3 of 5 hands",
            "       1 copy under another number", "       2 same play under other names or dates"])

    def test_rows(self):
        name = 'a, "quoted"\tname.phh'
        self.put(name, (EXAMPLES / "folds.phh").read_bytes())
        self.put("b.phh", (EXAMPLES / "folds.phh").read_bytes())
        row = {"file": "b.phh", "hand": 1, "as_file": name, "as_hand": 1, "kind": "copy"}
        self.assertEqual([json.loads(line) for line in self.found("--json", name, "b.phh")], [row])
        rows = csv.DictReader(io.StringIO("\n".join(self.found("--csv", name, "b.phh"))))
        self.assertEqual(list(rows), [{key: str(value) for key, value in row.items()}])
        self.assertEqual(self.found("--tsv", name, "b.phh")[1].split("\t"),
                         ["b.phh", "1", name.replace("\t", "\\t"), "1", "copy"])

    def test_refused(self):
        """Hands that are refused are named and left out; the others have their own places."""
        lines = [LINE % n for n in range(4)]
        lines[1] = lines[1].replace("r300", "r150")
        self.put("a.log", "".join(lines).encode())
        self.assertEqual(self.found("--game", MATCH, "a.log", status=1), [
            *(f"a.log hand {n}: as a.log hand 1 (copy under another number)" for n in (3, 4)),
            "duplicates: 2 of 3 hands", "       2 copy under another number"])
        self.assertEqual(self.said, "a.log: refused: hand 2: event 3, action 1: RaiseTooSmall "
                         "(line 2)\nleft out: 1 hand of a.log\n")

    def test_removed(self):
        """Each hand is written once, byte for byte; a list says what was left out, and why. A hand
        that is refused is kept, and a SCORE line of hands that are not there is not."""
        bad = (LINE % 5).replace("r300", "r150")
        self.put("in/a.log", ("# mine\n" + LINE % 0 + LINE % 1 + bad + LINE % 0 + "SCORE:1|-1:A|B\n")
                 .encode())
        for name in ("in/match.game", "in/sub/match.game"):
            self.put(name, Path(MATCH).read_bytes())
        self.put("in/sub/b.log.gz", gzip.compress((LINE.replace("A|B", "C|D") % 1 + LINE % 1 +
                                                   "# end").encode()))
        hand = handref.convert((LINE % 0).encode(), "acpc", "phh", MATCH).decode()
        other = (EXAMPLES / "folds.phh").read_text()
        self.put("in/c.phhs", f"# of PHH\n\n[1]\n# first\n{hand}[3]\n{other}\n[7]\nhand = 0\n{hand}".encode())
        self.put("in/d.phh", other.encode())
        self.put("in/e.phh", (EXAMPLES / "limit.phh").read_bytes())
        self.put("in/f.ohh", (EXAMPLES / "rake.ohh").read_bytes() + b"\n"
                 + (EXAMPLES / "rake.ohh").read_bytes())
        self.found("--remove", "--out", "out", "in", status=1)
        written = {str(path.relative_to(self.folder / "out")): path.read_text()
                   for path in sorted((self.folder / "out").rglob("*")) if path.is_file()}
        rows = list(csv.DictReader(io.StringIO(written.pop("left-out.csv"))))
        self.assertEqual([tuple(row.values()) for row in rows], [
            ("in/a.log", "2", "in/a.log", "1", "number"), ("in/a.log", "4", "in/a.log", "1", "copy"),
            ("in/c.phhs", "1", "in/a.log", "1", "number"), ("in/c.phhs", "3", "in/a.log", "1", "copy"),
            ("in/d.phh", "1", "in/c.phhs", "2", "copy"), ("in/f.ohh", "2", "in/f.ohh", "1", "copy"),
            ("in/sub/b.log.gz", "2", "in/a.log", "1", "number")])
        self.assertEqual(written, {
            "a.log": "# mine\n" + LINE % 0 + bad, "match.game": Path(MATCH).read_text(),
            "c.phhs": f"# of PHH\n\n[3]\n{other}\n", "e.phh": (EXAMPLES / "limit.phh").read_text(),
            "f.ohh": (EXAMPLES / "rake.ohh").read_text() + "\n",
            "sub/match.game": Path(MATCH).read_text(), "sub/b.log": LINE.replace("A|B", "C|D") % 1 + "# end"})
        self.assertEqual(self.said.splitlines()[-1],
                         "written: 5 hands in 5 files; left out: 7 hands (out/left-out.csv)")
        self.assertEqual(self.found("--game", MATCH, "out", status=1)[0], "duplicates: 0 of 5 hands")
        self.found("--remove", "--out", "out", "in", status=1)  # over its own files
        self.found("--remove", "--no-notes", "--out", "plays", "in", status=1)
        self.assertFalse((self.folder / "plays" / "sub" / "b.log").exists())

    def test_removed_from_several(self):
        """Files of two folders keep their folders; a file that is given twice is refused, and so is
        a folder with the files of others."""
        for name in ("one/a.phh", "two/a.phh"):
            self.put(name, (EXAMPLES / "folds.phh").read_bytes())
        self.found("--remove", "--out", "out", "one", "two")
        self.assertEqual(sorted(str(path.relative_to(self.folder)) for path in
                                (self.folder / "out").rglob("*") if path.is_file()),
                         ["out/left-out.csv", "out/one/a.phh"])
        for words, said in ((["one", "one/a.phh"], "it is there twice"), (["--from", "phh", "-"], "not with the standard input")):
            self.found("--remove", "--out", "new", *words, status=2)
            self.assertIn(said, self.said)
        for name in ("both/a.phh", "both/a.phh.gz"):
            data = (EXAMPLES / "folds.phh").read_bytes()
            self.put(name, gzip.compress(data) if name.endswith(".gz") else data)
        self.found("--remove", "--out", "new", "both", status=2)
        self.assertIn("a.phh: two files would have this name", self.said)
        self.put("mine/one/a.phh", b"mine")
        self.found("--remove", "--out", "mine", "one", "two", status=2)
        self.assertIn("handref has not made it", self.said)
        self.assertEqual((self.folder / "mine/one/a.phh").read_bytes(), b"mine")
        self.found("--remove", "one", status=2)

    def test_ids_of_program(self):
        """Where the program has the command `ids`, its ids are taken: two hands of a log have the
        same record, and a third one has its play."""
        program = self.put("program", b"""#!/bin/sh
case $1 in
ids) cat >input; echo hand,number,play,record
     [ -s input ] && printf '%s\\n' "1,0,PLAY,RECORD" "2,1,PLAY,RECORD" "3,2,PLAY,OTHER" |
         sed "s/PLAY/$(printf '%064d' 1)/; s/RECORD/$(printf '%064d' 2)/; s/OTHER/$(printf '%064d' 3)/" ;;
*) exit 70 ;;
esac
exit 0
""")
        program.chmod(0o755)
        self.put("a.log", (LINE % 0 + LINE % 1 + LINE % 2).encode())
        self.assertEqual(self.found("--game", MATCH, "--no-notes", "a.log", program=program), [
            "a.log hand 2: as a.log hand 1 (copy under another number)",
            "a.log hand 3: as a.log hand 1 (same play under other names or dates)",
            "duplicates: 2 of 3 hands", "       1 copy under another number",
            "       1 same play under other names or dates"])

    def test_memory(self):
        """A packed file of many hands, half of them twice, takes no more than 100 MB."""
        lines = [f"STATE:{n}:r{200 + n // 2 % 19000}f:9s8h|KdTc:-100|100:A{n // 38000}|B\n"
                 for n in range(40_000)]
        self.put("a.log.gz", gzip.compress("".join(lines).encode(), 1))
        code = ("import resource, sys\nfrom handref import __main__\ntry:\n    __main__.main()\n"
                "finally:\n    print(resource.getrusage(resource.RUSAGE_SELF).ru_maxrss, "
                "file=sys.stderr)\n")
        done = subprocess.run([sys.executable, "-c", code, "duplicates", "-j", "2", "--game", MATCH,
                               "a.log.gz"], capture_output=True, text=True, cwd=self.folder,
                              env={**os.environ, "PYTHONPATH": str(HERE.parent)})
        self.assertEqual(done.stdout.splitlines()[-3:], [
            "duplicates: 20000 of 40000 hands", "   20000 copy under another number", "not listed: "
            "1000 hands with the same play under other names or dates (--no-notes)"], done.stderr)
        self.assertLess(int(done.stderr.split()[-1]), 100_000)


if __name__ == "__main__":
    unittest.main()
