"""Tries that the package installs without a network, and what its types and tables say."""
import os
import shutil
import subprocess
import sys
import tempfile
import unittest
import venv
import zipfile
from pathlib import Path

HERE = Path(__file__).resolve().parent
PACKAGE = HERE.parent
sys.path.insert(0, str(PACKAGE))
sys.path.insert(0, str(PACKAGE / "build_backend"))
import handref  # noqa: E402
import handref_build  # noqa: E402

EXAMPLES = PACKAGE.parent / "examples"
IS_QUICK = False  # `./handref --test` leaves these out


class Case(unittest.TestCase):
    def setUp(self):
        folder = tempfile.TemporaryDirectory()
        self.addCleanup(folder.cleanup)
        self.folder = Path(folder.name)


class Build(Case):
    def test_install(self):
        """In a fresh environment, from the wheel of a build without other packages."""
        place = self.folder / "venv"
        try:
            venv.create(place, with_pip=True)
        except subprocess.CalledProcessError:
            self.skipTest("pip is not here")
        pip = [str(place / "bin" / "python"), "-m", "pip", "--disable-pip-version-check"]
        done = subprocess.run([*pip, "install", "--no-index", str(PACKAGE)], capture_output=True,
                              text=True)
        self.assertEqual(done.returncode, 0, done.stderr)
        done = subprocess.run([str(place / "bin" / "handref-py"), "many", "check",
                               str(EXAMPLES / "folds.phh")], capture_output=True, text=True)
        self.assertEqual((done.returncode, done.stdout.split("\n")[0]), (0, "legal hands: 1 of 1"))
        done = subprocess.run([str(place / "bin" / "python"), "-c", "import handref; from handref "
                               "import messages; print(handref.__version__, "
                               "len(messages.document()) > 1000)"], capture_output=True, text=True,
                              cwd=self.folder)
        self.assertEqual(done.stdout, f"{handref.__version__} True\n")
        self.assertEqual([path for path in PACKAGE.iterdir() if path.name in ("build", "dist")
                          or path.suffix == ".egg-info"], [])

    def test_wheel(self):
        """The same sources give the same bytes, with all files of the package."""
        names = [handref_build.build_wheel(str(self.folder / part)) for part in ("a", "b")
                 if not (self.folder / part).mkdir()]
        data = [(self.folder / part / names[0]).read_bytes() for part in ("a", "b")]
        self.assertEqual(data[0], data[1])
        with zipfile.ZipFile(self.folder / "a" / names[0]) as wheel:
            inside = set(wheel.namelist())
            self.assertIsNone(wheel.testzip())
        for path in (PACKAGE / "handref").rglob("*"):
            if path.is_file() and "__pycache__" not in path.parts:
                self.assertIn(path.relative_to(PACKAGE).as_posix(), inside)
        self.assertIn("handref/MESSAGES.md", inside)
        self.assertTrue(handref_build.build_sdist(str(self.folder)).endswith(".tar.gz"))

    def test_version(self):
        self.assertIn(f'version = "{handref.__version__}"\n',
                      (PACKAGE / "pyproject.toml").read_text())


class Types(Case):
    def test_notations(self):
        """mypy finds a wrong notation, and accepts the right ones."""
        if not shutil.which("mypy"):
            self.skipTest("mypy is not here")
        use = self.folder / "use.py"
        use.write_text('import handref\nhandref.check(b"", "pph")\nhandref.check(b"", "phh")\n'
                       'handref.rows("judge", b"", "acpc", "g")\n'
                       'handref.rows("jugde", b"", "phh")\n')
        done = subprocess.run(["mypy", "--strict", "--cache-dir", str(self.folder / "cache"),
                               str(use)], capture_output=True, text=True, cwd=self.folder,
                              env={**os.environ, "MYPYPATH": str(PACKAGE)})
        wrong = [line.split(":")[1] for line in done.stdout.split("\n") if ": error: " in line]
        self.assertEqual(wrong, ["2", "5"], done.stdout)

    def test_all(self):
        """What is said to be there is there, and has no other name."""
        self.assertEqual([name for name in handref.__all__ if not hasattr(handref, name)], [])
        self.assertEqual(len(handref.__all__), len(set(handref.__all__)))


class Tables(Case):
    def test_rows(self):
        rows = list(handref.rows("check", EXAMPLES / "folds.phh", "phh"))
        self.assertEqual(rows[2], {"hand": 1, "seat": 3, "chips": 103})
        data = (EXAMPLES / "match.acpc").read_bytes() + (EXAMPLES / "match.raise.acpc").read_bytes()
        row = list(handref.rows("judge", data, "acpc", EXAMPLES / "match.game"))[2]
        said = "refused: hand 3: event 3, action 1: RaiseTooSmall"
        self.assertEqual([row[key] for key in ("hand", "verdict", "reason", "said")],
                         [3, "refused", "RaiseTooSmall", said])
        self.assertEqual(data.split(b"\n")[row["line"] - 1], data.strip().split(b"\n")[-1])
        changes = list(handref.rows("changes", EXAMPLES / "evening.phhs", "phh"))
        self.assertEqual(changes[4], {"hand": 3, "kind": "gap", "name": "Ann", "chips": 51})
        with self.assertRaisesRegex(ValueError, "'jugde' has no rows"):
            list(handref.rows("jugde", b"", "phh"))

    def test_frame(self):
        try:
            import pandas  # noqa: F401
        except ImportError as error:
            self.skipTest(str(error))
        frame = handref.frame("session", EXAMPLES / "evening.phhs", "phh")
        self.assertEqual(frame.net.sum(), 0)
        self.assertEqual(list(frame[frame.name == "Ann"].gaps), [51])
        self.assertEqual(list(handref.frame("report", b"", "phh").columns),
                         ["kind", "name", "hands", "chips"])


if __name__ == "__main__":
    unittest.main()
