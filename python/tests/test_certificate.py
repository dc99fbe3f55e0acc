"""Tries certificates of conversions: what they say, and that verify finds every change."""
import hashlib
import json
import os
import shutil
import subprocess
import sys
from pathlib import Path

from pages import EXAMPLES, HERE, MATCH, Case

import handref

LINE = "STATE:%d:r300f:9s8h|KdTc:-100|100:A|B\n"


class Certificate(Case):
    def call(self, *words, status=0, program=None):
        done = subprocess.run(
            [sys.executable, "-m", "handref", *map(str, words)],
            capture_output=True, text=True, cwd=self.folder, env={
                "PATH": os.environ["PATH"], "HOME": os.environ.get("HOME", "/"),
                "LANG": "C.UTF-8", "PYTHONPATH": str(HERE.parent),
                "HANDREF_PROGRAM": str(program or os.environ["HANDREF_PROGRAM"])})
        self.assertEqual(done.returncode, status, done.stderr)
        self.said = done.stderr
        return done.stdout

    def put(self, name, data):
        path = self.folder / name
        path.parent.mkdir(exist_ok=True, parents=True)
        path.write_bytes(data if isinstance(data, bytes) else data.encode())
        return path

    def sum(self, name):
        return hashlib.sha256((self.folder / name).read_bytes()).hexdigest()

    def made(self):
        """A folder that was converted, with what is left out of it."""
        for name in ("folds.phh", "raise_adds.ohh", "small_raise.phh", "limit.phh"):
            self.put(f"in/{name}", (EXAMPLES / name).read_bytes())
        self.put("in/sub/one.log", LINE % 3 + LINE % 4)
        self.put("in/sub/match.game", MATCH.read_bytes())
        self.call("many", "convert", "-k", "--to", "ohh", "--out", "out", "--certificate", "C.json",
                  "in", status=1)
        return json.loads((self.folder / "C.json").read_text())

    def test_what_it_says(self):
        """The sums are those of the files, and the ids those of the hands, on both sides."""
        said = self.made()
        self.assertEqual((said["kind"], said["form"], said["handref"]),
                         ("a conversion by handref", 1, handref.__version__))
        self.assertEqual(said["program"], hashlib.sha256(
            Path(os.environ["HANDREF_PROGRAM"]).read_bytes()).hexdigest())
        self.assertEqual(said["words"], ["many", "convert", "-k", "--to", "ohh", "--out", "out", "in"])
        self.assertEqual([(each["path"], each["hands"], each["written"]) for each in said["inputs"]], [
            ("in/folds.phh", 1, 1), ("in/limit.phh", 1, 1), ("in/raise_adds.ohh", 1, 1),
            ("in/small_raise.phh", 0, 0), ("in/sub/one.log", 2, 2)])
        for each in said["inputs"] + said["outputs"] + [said["inputs"][4]["game"]]:
            self.assertEqual(each["sha256"], self.sum(each["path"]))
        self.assertEqual([each["path"] for each in said["outputs"]], [
            "out/folds.ohh", "out/limit.ohh", "out/raise_adds.ohh", "out/sub/one.ohh"])
        self.assertEqual(said["hands"], {"read": 5, "written": 5})
        self.assertEqual(said["ids"]["inputs"], said["ids"]["outputs"])
        self.assertEqual(said["ids"]["inputs"]["hands"], 5)

    def test_verified(self):
        """It is verified where it was made, after all is moved, and by another version."""
        self.made()
        line = "verified: 4 files of 5 hands are the conversion of 5 files"
        self.assertEqual(self.call("verify", "C.json"), line + "\n")
        for name in ("in", "out", "C.json"):
            (self.folder / "moved").mkdir(exist_ok=True)
            shutil.move(self.folder / name, self.folder / "moved" / name)
        self.assertEqual(self.call("verify", "moved/C.json"), line + "\n")
        self.assertEqual(sorted(os.listdir(self.folder)), ["moved"])
        program = self.put("program", f"#!/bin/sh\nexec '{os.environ['HANDREF_PROGRAM']}' \"$@\"\n")
        program.chmod(0o755)
        self.assertEqual(self.call("verify", "moved/C.json", program=program),
                         f"{line}; by another program than that of version {handref.__version__}\n")

    def test_files_that_differ(self):
        """A byte of any file that the certificate names, and a file that is not there."""
        self.made()
        for name in ("in/folds.phh", "in/sub/one.log", "in/sub/match.game", "out/sub/one.ohh"):
            path = self.folder / name
            before = path.read_bytes()
            path.write_bytes(before + b"\n")
            self.assertEqual(self.call("verify", "C.json", status=14),
                             f"differs: {name} is not the file of the certificate\n")
            path.unlink()
            self.assertEqual(self.call("verify", "C.json", status=15),
                             f"{name}: there is no such file\n")
            path.write_bytes(before)
        self.call("verify", "C.json")

    def test_forged(self):
        """Files that were changed together with the sums, or counts that are not true."""
        said = self.made()
        path = self.folder / "out" / "folds.ohh"
        path.write_bytes(path.read_bytes().replace(b'"p2"', b'"P2"'))
        forged = json.loads(json.dumps(said))
        forged["outputs"][0]["sha256"] = self.sum("out/folds.ohh")
        self.put("forged.json", json.dumps(forged))
        self.assertEqual(self.call("verify", "forged.json", status=14),
                         "differs: out/folds.ohh is not what the inputs convert to\n")
        self.put("out/folds.ohh", handref.convert(EXAMPLES / "folds.phh", "phh", "ohh"))
        for change, line in (
                (lambda said: said["hands"].update(read=6), "the hands of the certificate are not"),
                (lambda said: said["ids"]["outputs"].update(sha256="0" * 64), "the ids of the"),
                (lambda said: said["outputs"].pop(0), "another file, folds.ohh, is not what the"),
                (lambda said: said["inputs"].pop(0), "out/folds.ohh is not what the inputs")):
            forged = json.loads(json.dumps(said))
            change(forged)
            self.put("forged.json", json.dumps(forged))
            self.assertIn(line, self.call("verify", "forged.json", status=14))

    def test_layouts(self):
        """One file, joined and split ones, packed ones, with a list of what is left out."""
        hands = "\n".join(f"[{n + 1}]\n" + (EXAMPLES / name).read_text() for n, name in enumerate(
            ("folds.phh", "stud.phh", "odd_chip.phh")))
        self.put("in/a.phhs", hands)
        self.put("in/b.phh", (EXAMPLES / "limit.phh").read_bytes())
        for words, line in (
                (["--each", "--out", "one.ohh", "in/a.phhs"],
                 "verified: 1 file of 2 hands is the conversion of 1 file"),
                (["--each", "--join", "--out", "all.ohh", "in"],
                 "verified: 1 file of 3 hands is the conversion of 2 files"),
                (["--each", "--split", "--out", "split", "in"],
                 "verified: 3 files of 3 hands are the conversion of 2 files"),
                (["--drop-notes", "--out", "b.ohh", "in/b.phh"],
                 "verified: 1 file of 1 hand is the conversion of 1 file")):
            with self.subTest(words=words):
                status = 0 if "--drop-notes" in words else 4
                (self.folder / "c").mkdir(exist_ok=True)
                self.call("many", "convert", "--to", "ohh", "--certificate", "c/C.json", "--force",
                          *words, status=status)
                self.assertEqual(self.call("verify", "c/C.json"), line + "\n")

    def test_import(self):
        """The journal of an import is named, and a change of it is found."""
        self.made()
        self.put("import.jsonl", "{}\n")
        self.call("many", "convert", "--to", "phh", "--out", "two.phh", "--certificate", "D.json",
                  "--import-journal", "import.jsonl", "in/folds.phh")
        said = json.loads((self.folder / "D.json").read_text())
        self.assertEqual(said["import"], {"path": "import.jsonl", "sha256": self.sum("import.jsonl")})
        self.call("verify", "D.json")
        self.put("import.jsonl", "{ }\n")
        self.assertEqual(self.call("verify", "D.json", status=14),
                         "differs: import.jsonl is not the file of the certificate\n")

    def test_not_written(self):
        """No certificate of half a conversion, over another's file, or of what cannot be read
        again."""
        self.made()
        words = ["many", "convert", "--to", "ohh", "--certificate"]
        self.call(*words, "E.json", "--out", "x", "in", status=1)
        self.assertIn("E.json: not written, as not all was converted", self.said)
        self.assertFalse((self.folder / "E.json").exists())
        self.put("mine.json", "{}")
        self.call(*words, "mine.json", "--out", "y", "in", status=2)
        self.assertIn("handref has not made it", self.said)
        self.assertFalse((self.folder / "y").exists())
        self.call(*words, "E.json", "--from", "phh", "--out", "y", "-", status=2)
        self.call("many", "convert", "--to", "ohh", "--import-journal", "i", "--out", "y", "in",
                  status=2)

    def test_no_certificate(self):
        """Other files, other forms, and one that would write outside of its folder."""
        said = self.made()
        for change in (lambda said: said.update(kind="x"), lambda said: said.update(form=2),
                       lambda said: said.pop("inputs"), lambda said: said.update(outputs=[1]),
                       lambda said: said["inputs"][0].update(place="../../evil.ohh"),
                       lambda said: said["inputs"][0].update(place="/tmp/evil.ohh"),
                       lambda said: said["call"].update(command="check")):
            other = json.loads(json.dumps(said))
            change(other)
            self.put("other.json", json.dumps(other))
            self.assertIn("other.json: it is no certificate of handref",
                          self.call("verify", "other.json", status=3))
        for data in (b"", b"[]", b"{}", b"\xff", b"null"):
            self.put("other.json", data)
            self.call("verify", "other.json", status=3)
        self.call("verify", "none.json", status=5)
