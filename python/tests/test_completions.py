"""Tries what shells complete after the commands of the package."""
import shutil
import subprocess
import sys
import unittest

from pages import HERE

TOP = HERE.parent.parent
CALL = """. "$0"
COMP_WORDS=("$@") COMP_CWORD=$(($# - 1)) COMPREPLY=()
_handref 2>/dev/null
printf '%s\\n' "${COMPREPLY[@]}"
"""


class Completions(unittest.TestCase):
    def test_written_anew(self):
        """The files are as the words of the parser have them."""
        done = subprocess.run([sys.executable, TOP / "scripts" / "completions", "--check"],
                              capture_output=True, text=True)
        self.assertEqual((done.returncode, done.stdout, done.stderr), (0, "", ""))

    @unittest.skipUnless(shutil.which("bash"), "there is no bash")
    def test_bash(self):
        for words, some in (
                (["many", ""], {"check", "convert", "session", "duplicates"}),
                (["many", "check", "--g"], {"--game"}),
                (["many", "convert", "--to", ""], {"phh", "ohh", "ohh-to", "acpc"}),
                (["page", "--f"], {"--from", "--force"}), (["explain", "--from", "p"], {"phh"}),
                (["import", "--r"], {"--rules"}), (["duplicates", "--no"], {"--no-notes"}),
                (["du"], {"duplicates"}), (["check", "--f"], {"--from"})):
            done = subprocess.run(["bash", "-c", CALL, TOP / "completions" / "handref.bash",
                                   "handref", *words], capture_output=True, text=True)
            self.assertLessEqual(some, set(done.stdout.split()), (words, done.stderr))

    def test_syntax(self):
        for shell, name in (("zsh", "_handref"), ("fish", "handref.fish")):
            if shutil.which(shell):
                done = subprocess.run([shell, "-n", TOP / "completions" / name],
                                      capture_output=True, text=True)
                self.assertEqual((done.returncode, done.stderr), (0, ""))


if __name__ == "__main__":
    unittest.main()
