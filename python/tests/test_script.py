"""Tries the script ./handref as people find it: copies of a clone, variables and descriptors of its caller, folders without
room or rights, and interrupts. Nothing is proved here: a clone of one source has a release of its own."""
import gzip
import hashlib
import os
import re
import shlex
import shutil
import signal
import subprocess
import sys
import tempfile
import time
import unittest
from pathlib import Path

HERE = Path(__file__).resolve().parent
TOP = HERE.parents[1]
EXAMPLES = next(path for path in (TOP / "tests" / "examples", TOP / "examples") if path.exists())
IS_QUICK = False
PROGRAM = shutil.which(os.environ.get("HANDREF_PROGRAM") or "handref")
HAND = (EXAMPLES / "folds.phh").read_bytes()
LEGAL = b"hand 1: 99 98 103\nlegal hands: 1\n"
AS_NOBODY = ["setpriv", "--reuid=65534", "--regid=65534", "--clear-groups"]


class Case(unittest.TestCase):
    def setUp(self):
        folder = tempfile.TemporaryDirectory()
        self.addCleanup(folder.cleanup)
        self.folder = Path(folder.name)
        self.folder.chmod(0o755)
        self.top = self.folder / "a folder's \"clone\""
        self.env = {"PATH": "/usr/bin:/bin", "HOME": str(self.folder), "LANG": "C.UTF-8"}
        for name in ("scripts", "docs", "completions", "examples", "python"):
            shutil.copytree(TOP / name, self.top / name, ignore=shutil.ignore_patterns("__pycache__", "tests"))
        for name in ("handref", "README.md", "CHANGELOG.md", "CITATION.cff", "LICENSE"):
            shutil.copy(TOP / name, self.top / name)
        (self.top / "crates" / "handref" / "src").mkdir(parents=True)
        (self.top / "crates.txt").write_text("handref:\n")
        self.source = self.top / "crates" / "handref" / "src" / "main.rt"
        self.source.write_text("// a source\n")
        self.release()

    def release(self):
        """A release of the sources that are there."""
        sources = subprocess.run([self.top / "scripts" / "sources"], capture_output=True, check=True).stdout
        program = Path(PROGRAM).read_bytes()
        (self.top / "release").mkdir(exist_ok=True)
        (self.top / "release" / "handref.gz").write_bytes(gzip.compress(program, 1))
        self.sum = hashlib.sha256(program).hexdigest()
        (self.top / "release" / "SOURCES").write_text(
            f"version 7.0\nsources {hashlib.sha256(sources).hexdigest()}\nprogram {self.sum}\n")

    def call(self, *words, front=(), top=None, env=None, data=HAND, **more):
        done = subprocess.run([*front, (top or self.top) / "handref", *words], env={**self.env, **(env or {})},
                              **{"input": data, "capture_output": True, "timeout": 300, "cwd": self.folder, **more})
        return done.returncode, done.stdout, done.stderr

    def version(self, top=None):
        status, text, told = self.call("--version", top=top)
        self.assertEqual((status, told), (0, b""))
        return text.decode()


class Marks(Case):
    OTHER = "handref [0-9.]*; these sources are not those of the release and have no proof here\n"

    def test_copies(self):
        """A copy of a clone with changed sources is not called proved, whatever the copy does to times."""
        proved = self.version()
        self.assertIn("7.0, proved; released program", proved)
        time.sleep(0.1)
        self.source.write_text("// changed\n")
        copies = {"plain": ["cp", "-r"], "all": ["cp", "-a"], "links": ["cp", "-rl"], "times": ["cp", "-r", "--preserve=timestamps"]}
        for name, words in copies.items():
            subprocess.run([*words, self.top, self.folder / name], check=True)
            self.assertRegex(self.version(self.folder / name), self.OTHER, name)
            self.assertEqual(self.call("check", "--from", "phh", top=self.folder / name, env={"HANDREF": "proved"})[:2],
                             (70, b""))
        self.assertRegex(self.version(), self.OTHER)
        self.source.write_text("// a source\n")
        self.assertEqual(self.version(), proved)
        time.sleep(0.1)
        for name, words in copies.items():
            subprocess.run([*words, self.top, self.folder / f"{name} 2"], check=True)
            self.assertEqual(self.version(self.folder / f"{name} 2"), proved, name)

    def test_change_and_copy(self):
        """So it is where the clone has not been asked since it was changed, and where the mark comes last."""
        self.version()
        time.sleep(0.1)
        self.source.write_text("// changed\n")
        subprocess.run(["cp", "-r", self.top, self.folder / "copy"], check=True)
        (self.folder / "copy" / "out" / "checked").touch()
        self.assertRegex(self.version(self.folder / "copy"), self.OTHER)
        subprocess.run(["cp", self.top / "out" / "checked", self.folder / "copy" / "out" / "checked"], check=True)
        time.sleep(0.1)
        (self.folder / "copy" / "out" / "checked").touch()
        self.assertRegex(self.version(self.folder / "copy"), self.OTHER)
        self.assertRegex(self.version(), self.OTHER)

    def test_mark_holds(self):
        """A mark is believed where nothing was changed, and the sources are not looked at again; but those of a copy are."""
        self.version()
        time.sleep(0.1)
        scripts = self.top / "scripts"
        (scripts / "sources").rename(scripts / "elsewhere")
        self.assertEqual(self.call("check", "--from", "phh")[:2], (0, LEGAL))
        self.top.rename(self.folder / "moved")
        self.assertEqual(self.call("check", "--from", "phh", top=self.folder / "moved")[:2], (0, LEGAL))
        subprocess.run(["cp", "-r", self.folder / "moved", self.folder / "copy"], check=True)
        self.assertEqual(self.call("check", "--from", "phh", top=self.folder / "copy")[:2], (70, b""))


class OfTheCaller(Case):
    def names(self):
        """Every variable that the scripts set or read, by their text."""
        texts = [(self.top / "handref").read_text()] + [
            (self.top / "scripts" / name).read_text() for name in ("words.sh", "run.sh", "proved.sh", "prove.sh", "install.sh",
                                                                  "installed", "sources")]
        found = set()
        for text in texts:
            text = re.sub(r"^ *#.*$", "", text, flags=re.M)
            found.update(re.findall(r"(?:^|[\s{(;'])([a-z_]+)=", text))
            found.update(re.findall(r"\bfor ([a-z_]+) in", text))
            found.update(re.findall(r"\$\{?([a-z_]+)", text))
            found.update(name for line in re.findall(r"\bread -r ([a-z_ ]+)", text) for name in line.split())
        return found

    def answers(self, planted):
        """What the script and the installed command say with variables in their environment."""
        (self.top / "out").exists() and shutil.rmtree(self.top / "out")
        prefix = self.folder / "prefix"
        here = [self.top / "handref"]
        installed = [prefix / "bin" / "handref"]
        said = []
        for words in ([*here, "--version"], [*here, "--help"], [*here, "check", "--from", "phh"], [*here, "chekc"],
                      [*here, "convert", "--from", "phh", "--to", "ohh"], [*here, "many", "check", "hand.phh"],
                      [*here, "--install", prefix], [*here, "--stop"], [*here, "--prove"], [*installed, "--help"],
                      [*installed, "check", "--from", "phh"], [*installed, "nothing"], [*installed, "--version"],
                      [*installed, "explain", "hand.phh"], [*here, "--uninstall", prefix]):
            line = shlex.join(map(str, words)) + " <hand.phh"
            calls = [line, f"{line} | cat; exit ${{PIPESTATUS[0]}}", f"script -qec {shlex.quote(line)} /dev/null </dev/null"]
            few = {"--install": 1, "--uninstall": 1, "--prove": 1, "--stop": 1, "many": 2, "explain": 2}  # bars of a terminal
            for call in calls[:few.get(words[1])]:
                done = subprocess.run(["bash", "-c", call], capture_output=True, cwd=self.folder, timeout=300,
                                      env={**self.env, **planted})
                said.append((call, done.returncode, done.stdout, done.stderr))
        return said

    def test_variables(self):
        """No variable of the environment is taken for one of the scripts."""
        (self.folder / "hand.phh").write_bytes(HAND)
        names = self.names() - {"top"}
        self.assertGreater(len(names), 60)
        self.assertLessEqual({"ticker", "undo", "waits", "proves", "stays", "work", "help_is"}, names)
        wanted = self.answers({})
        self.assertEqual([(status, text) for call, status, text, _ in wanted if "check --from" in call],
                         [(0, LEGAL), (0, LEGAL), (0, LEGAL.replace(b"\n", b"\r\n"))] * 2)
        victim = subprocess.Popen(["sleep", "600"])
        self.addCleanup(victim.wait)
        self.addCleanup(victim.kill)
        for got, want in zip(self.answers(dict.fromkeys(names, str(victim.pid))), wanted):
            self.assertEqual(got, want)
        self.assertIsNone(victim.poll())

    def test_descriptors(self):
        """The descriptors of the caller are kept, and it gets no other ones."""
        match, game = EXAMPLES / "match.acpc", EXAMPLES / "match.game"
        (self.folder / "handref").symlink_to(self.top / "handref")
        words = "./handref check --from acpc --game"
        self.assertEqual(self.call("--version")[0], 0)
        for number in range(3, 8):
            for line in (f"{words} /dev/fd/{number} {number}<'{game}' <'{match}' | cat",
                         f"{words} /dev/fd/{number} {number}<'{game}' <'{match}' >out; cat out",
                         f"script -qec \"{words} /dev/fd/{number} {number}<'{game}' <'{match}'\" /dev/null"):
                done = subprocess.run(["bash", "-c", line], capture_output=True, cwd=self.folder, env=self.env, timeout=60,
                                      stdin=subprocess.DEVNULL)
                self.assertIn(b"legal hands: 2", done.stdout, line)
            for line in (f"{words} /dev/fd/{number} <'{match}' 2>&1 | cat",
                         f"script -qec \"{words} /dev/fd/{number} <'{match}'\" /dev/null"):
                done = subprocess.run(["bash", "-c", line], capture_output=True, cwd=self.folder, env=self.env, timeout=60,
                                      stdin=subprocess.DEVNULL)
                self.assertEqual(done.stdout.strip(), b"game missing", line)


class Terminals(Case):
    NAMED = HAND.decode() + 'players = ["x\\n                9000       1  Mallory", "\\u001b[31mB", """C\n\ny"""]\n'

    def at_terminal(self, line, **env):
        done = subprocess.run(["script", "-qec", line, "/dev/null"], stdin=subprocess.DEVNULL, capture_output=True,
                              cwd=self.folder, env={**self.env, **env}, timeout=300)
        return done.returncode, done.stdout.decode().replace("\r\n", "\n")

    def without_python(self):
        """A folder with the tools of the system but Python."""
        tools = self.folder / "tools"
        tools.mkdir()
        for tool in Path("/usr/bin").iterdir():
            if not tool.name.startswith(("python", "pypy")):
                (tools / tool.name).symlink_to(tool)
        return tools

    def test_odd_names(self):
        """So it is with other signs that the notation writes in a way of its own, and nothing is left of what is kept."""
        (self.folder / "handref").symlink_to(self.top / "handref")
        temporary = self.folder / "temporary"
        temporary.mkdir()
        names = ["a\n\"\"\"", "'''\n\\n\n", "\x1f\n\r\t\"", "\n", "\"\n\"\"", "b\\\n"]
        for some in (names[:3], names[3:]):
            quoted = ", ".join('"' + "".join(f"\\u{ord(sign):04x}" for sign in name) + '"' for name in some)
            text = HAND.decode() + f"players = [{quoted}]\n"
            (self.folder / "odd.phh").write_text(text)
            with open(self.folder / "odd.ohh", "wb") as output:
                subprocess.run([PROGRAM, "convert", "--from", "phh", "--to", "ohh"], input=text.encode(), stdout=output, check=True)
            shown = [re.sub("[\r\x1f]", lambda sign: f"\\x{ord(sign[0]):02x}", name.replace("\n", "\\n")) for name in some]
            for notation in ("phh", "ohh"):
                status, text = self.at_terminal(f"./handref report --from {notation} < odd.{notation}", TMPDIR=str(temporary))
                self.assertEqual((status, [row[30:] for row in text.split("\n")[2:-1]]), (0, shown))
        signs = "".join(f"\\u{number:04x}" for number in [*range(1, 8), 11, *range(14, 32)])
        (self.folder / "odd.phh").write_text(HAND.decode() + f'players = ["a\\nb", "{signs}", "c"]\n')
        self.assertIn("handref: names that have line ends are shown with them\n",
                      self.at_terminal("./handref report --from phh < odd.phh", TMPDIR=str(temporary))[1])
        self.assertEqual(os.listdir(temporary), [])

    def test_names(self):
        """At a terminal a line end in a name is shown as \\n, so that no name is a row."""
        (self.folder / "named.phh").write_text(self.NAMED)
        with open(self.folder / "named.ohh", "wb") as output:
            subprocess.run([PROGRAM, "convert", "--from", "phh", "--to", "ohh", "--drop-notes"], input=self.NAMED.encode(),
                           stdout=output, check=True)
        (self.folder / "handref").symlink_to(self.top / "handref")
        self.assertEqual(self.call("--install", self.folder / "prefix")[0], 0)
        names = [r"x\n                9000       1  Mallory", r"\x1b[31mB", r"C\n\ny"]
        for command in ("prefix/bin/handref", "./handref"):
            for words in ("report --from phh < named.phh", "report --from=ohh < named.ohh", "report --from phh named.phh"):
                status, text = self.at_terminal(f"{command} {words}")
                rows = text.split("\n")[2:-1]
                self.assertEqual((status, [row[30:] for row in rows]), (0, names), text)
                self.assertEqual([row[:30].split() for row in rows], [["-1", "1"], ["-2", "1"], ["3", "1"]])
        self.assertEqual(self.at_terminal("./handref report --from phh < named.phh", PATH=str(self.without_python())),
                         self.at_terminal("./handref report --from phh < named.phh"))
        status, text = self.at_terminal("./handref session --from phh < named.phh")
        self.assertEqual([row[122:] for row in text.split("\n") if row.startswith(" ")], names)
        self.assertEqual(text.split("\n")[:3], [f"hand 1 join {name} 100" for name in names])
        for words in ("--from phh < .", "--from phh <&-", "--from ohh < named.phh", "--from"):
            plain = subprocess.run(["sh", "-c", f"./handref report {words} 2>&1"], capture_output=True, cwd=self.folder,
                                   env=self.env)
            status, text = self.at_terminal(f"./handref report {words}")
            self.assertEqual((status, text.split("\n")[0]), (plain.returncode, plain.stdout.decode().split("\n")[0]), words)

    def test_modules_of_a_stranger(self):
        """The folder of a call is not searched for modules."""
        (self.folder / "hand.phh").write_bytes(HAND)
        for name in ("json", "gzip", "argparse", "sqlite3", "handref", "runpy", "re", "signal", "decimal", "encodings"):
            (self.folder / f"{name}.py").write_text("open('ran', 'w').close()\n")
        self.assertEqual(self.call("--install", self.folder / "prefix")[0], 0)
        calls = [[self.top / "handref"], [self.folder / "prefix" / "bin" / "handref"]]
        env = {**self.env, "HANDREF_PROGRAM": PROGRAM}
        if sys.version_info >= (3, 11):
            calls.append([sys.executable, "-P", "-m", "handref"])
            env["PYTHONPATH"] = str(self.top / "python")
        for front in calls:
            for words in (["many", "check", "hand.phh"], ["many", "check", "--resume", "hand.phh"], ["explain", "hand.phh"]):
                done = subprocess.run([*front, *words], capture_output=True, cwd=self.folder, env=env)
                self.assertEqual((done.returncode, (self.folder / "ran").exists()), (0, False), done.stderr)
        self.at_terminal(f"{shlex.quote(str(self.top / 'handref'))} report --from phh hand.phh")
        self.assertFalse((self.folder / "ran").exists())


class Left(Case):
    """After any way of ending nothing is left in out/ or in the folder for temporary files."""

    def setUp(self):
        super().setUp()
        self.temporary = self.folder / "temporary"
        self.temporary.mkdir()
        self.temporary.chmod(0o1777)
        self.env["TMPDIR"] = str(self.temporary)

    def nobody(self):
        """The front of a call by somebody who cannot write to the clone."""
        if os.getuid() != 0:
            self.top.chmod(0o555)
            self.addCleanup(self.top.chmod, 0o755)
            return []
        return AS_NOBODY

    def test_no_rights(self):
        front = self.nobody()
        (self.folder / "hand.phh").write_bytes(HAND)
        for words, data, wanted in ((("check", "--from", "phh"), HAND, LEGAL),
                                    (("many", "check", "hand.phh"), b"", b"legal hands: 1 of 1\nlegal files: 1 of 1\n"),
                                    (("explain", "hand.phh"), b"", None), (("--version",), b"", None),
                                    (("check", "--from", "phh"), b"x", b"")):
            status, text, told = self.call(*words, front=front, data=data)
            self.assertEqual(status, 3 if data == b"x" else 0, told)
            self.assertIn(wanted, (None, text))
            self.assertEqual(os.listdir(self.temporary), [])
            with open(self.folder / "output", "wb") as output:  # where the script is replaced by the program
                self.call(*words, front=front, data=data, stdout=output, stderr=output, capture_output=False)
            self.assertEqual((self.folder / "output").read_bytes(), text + told)
            self.assertEqual(os.listdir(self.temporary), [])
        self.assertFalse((self.top / "out").exists())

    def test_killed(self):
        """A call that is killed while its program runs leaves nothing either."""
        reading, writing = os.pipe()
        running = subprocess.Popen([*self.nobody(), self.top / "handref", "check", "--from", "phh"], stdin=reading,
                                   stdout=subprocess.DEVNULL, cwd=self.folder, env=self.env, start_new_session=True)
        os.close(reading)
        for _ in range(1200):
            command = Path(f"/proc/{running.pid}/cmdline").read_bytes()
            if b"/proc/" in command or b"released" in command:
                break
            time.sleep(0.05)
        os.killpg(running.pid, signal.SIGKILL)
        running.wait()
        os.close(writing)
        self.assertEqual(os.listdir(self.temporary), [])

    def test_interrupted(self):
        """A first call that is interrupted at any moment leaves no file that is not whole."""
        for delay in [number / 60 for number in range(1, 20)]:
            if (self.top / "out").exists():
                shutil.rmtree(self.top / "out")
            running = subprocess.Popen([self.top / "handref", "--version"], stdout=subprocess.PIPE, stderr=subprocess.PIPE,
                                       cwd=self.folder, env=self.env)
            time.sleep(delay)
            running.terminate()
            running.communicate(timeout=60)
            left = os.listdir(self.top / "out") if (self.top / "out").exists() else []
            self.assertLessEqual(set(left), {"released", "checked"})
            self.assertEqual(os.listdir(self.temporary), [])
        (self.top / "out").mkdir(exist_ok=True)
        for name in ("released.77", "began.77", "prove.log.1"):
            (self.top / "out" / name).write_text("")
            os.utime(self.top / "out" / name, (10 ** 9, 10 ** 9))
        (self.top / "out" / "checked").unlink(missing_ok=True)
        self.version()
        self.assertEqual(sorted(os.listdir(self.top / "out")), ["checked", "prove.log.1", "released"])

    def test_no_room(self):
        """No room is said as no room, and not as a program that does not run or an input that is not read."""
        limit = ["sh", "-c", 'ulimit -f 100; exec "$@"', "sh"]
        status, text, told = self.call("check", "--from", "phh", front=limit)
        self.assertEqual((status, text, told), (
            70, b"", f"handref: there is no room for the program of the release in {self.temporary}/x\n".encode()
            .replace(b"/x\n", told[told.rfind(b"/"):])))
        self.assertEqual((os.listdir(self.temporary), os.listdir(self.top / "out")), ([], []))
        self.source.write_text("// changed\n")
        tools = self.folder / "tools"
        tools.mkdir()
        (tools / "rt").write_text(f"#!/bin/sh\nshift 2\n'{PROGRAM}' \"$@\"\necho \"run=ended status=$?\" >&2\n")
        (tools / "rt").chmod(0o755)
        self.env["PATH"] = f"{tools}:{self.env['PATH']}"
        long = HAND + b"# a comment\n" * 20_000
        status, text, told = self.call("check", "--from", "phh", front=limit, data=long)
        self.assertEqual((status, text), (70, b""))
        self.assertIn(b"handref: there is no room for the input in ", told.split(b"\n")[-2])
        self.assertEqual(os.listdir(self.temporary), [])
        self.assertEqual(self.call("check", "--from", "phh", data=long)[:2], (0, LEGAL))
        # A folder for temporary files that is named from here.
        self.assertEqual(self.call("check", "--from", "phh", env={"TMPDIR": "temporary"})[:2], (0, LEGAL))
        self.assertEqual(os.listdir(self.temporary), [])


if __name__ == "__main__":
    unittest.main()
