"""Tries the recipes: they find the program of their clone, and what they read twice is there once."""
import os
import shutil
import sqlite3
import subprocess
import sys
import tempfile
import unittest
from pathlib import Path

from pages import EXAMPLES, HERE, MATCH

LOG = "".join(f"STATE:{n}:r{300 - 150 * (n == 3)}f:9s8h|KdTc:-100|100:A|B\n" for n in range(5))


class Recipes(unittest.TestCase):
    def setUp(self):
        folder = tempfile.TemporaryDirectory()
        self.addCleanup(folder.cleanup)
        self.folder = Path(folder.name)
        shutil.copytree(EXAMPLES / "recipes", self.folder / "clone" / "examples" / "recipes")
        (self.folder / "match.log").write_text(LOG)

    def program(self):
        """A clone has the program two folders above its recipes."""
        path = self.folder / "clone" / "handref"
        path.write_text(f"#!/bin/sh\nPYTHONPATH='{HERE.parent}' HANDREF_PROGRAM="
                        f"'{os.environ['HANDREF_PROGRAM']}' exec '{sys.executable}' -m handref \"$@\"\n")
        path.chmod(0o755)

    def call(self, *words):
        done = subprocess.run(words, capture_output=True, text=True, cwd=self.folder, env={
            "PATH": "/usr/bin:/bin", "HOME": os.environ.get("HOME", "/"), "LANG": "C.UTF-8"})
        return done.returncode, done.stdout, done.stderr

    @unittest.skipIf(shutil.which("handref", path="/usr/bin:/bin"), "handref is installed")
    def test_program_of_the_clone(self):
        for name, words in (("legal-hands", ("match.log", str(MATCH))),
                            ("score", ("match.log", str(MATCH))), ("with-limits", ("check",))):
            call = ("bash", f"clone/examples/recipes/{name}", *words)
            self.assertEqual(self.call(*call), (70, "", f"{name}: handref is not on the path\n"))
        self.program()
        status, out, told = self.call("sh", "clone/examples/recipes/legal-hands", "match.log",
                                      str(MATCH))
        self.assertEqual((status, out.count("STATE:"), told), (
            0, 4, "match.log: refused: hand 4: event 3, action 1: RaiseTooSmall\n"))
        (self.folder / "match.log").write_text(LOG.replace("r150", "r300"))
        self.assertEqual(self.call("sh", "clone/examples/recipes/score", "match.log", str(MATCH)),
                         (0, "SCORE:-500|500:A|B\n", ""))

    @unittest.skipUnless(shutil.which("sqlite3"), "there is no sqlite3")
    def test_sql_twice(self):
        """What is read again takes the place of what was read before."""
        self.program()
        for task in ("judge", "replay"):
            words = ("many", task, "--tsv", "--game", str(MATCH), "match.log")
            (self.folder / f"{task}.tsv").write_text(
                self.call("clone/handref", *words, *["--each"] * (task == "replay"))[1])
        with open(EXAMPLES / "recipes" / "hands.sql") as script:
            text = script.read()
        for _ in range(2):
            done = subprocess.run(["sqlite3", "hands.db"], input=text, text=True, cwd=self.folder,
                                  capture_output=True)
            self.assertEqual((done.returncode, done.stderr), (0, ""))
            with sqlite3.connect(self.folder / "hands.db") as rows:
                self.assertEqual(rows.execute("select count(*) from verdicts").fetchall(), [(5,)])
                self.assertEqual(rows.execute(
                    "select seat, sum(finish - start) from seats group by seat").fetchall(),
                    [(1, -400), (2, 400)])


if __name__ == "__main__":
    unittest.main()
