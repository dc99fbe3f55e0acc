"""Tries the reader of TOML against the program, and against the reader that Python 3.11 has."""
import importlib.util
import json
import random
import unittest
from decimal import Decimal

from pages import EXAMPLES, HERE, Case

import handref
from handref import toml

CASES = HERE.parent.parent / "tests" / "cases"
PARTS = ["a.b = 1", "[x]", "[[x]]", "[x.y]", "x = {a = 1, b.c = 2}", "x = {a = 1,\n b = 2,}",
         "t = 12:30", "t = 1979-05-27 07:32:00Z", 's = """a\nb\\\n  c"""', "s = '''a'b''c'''",
         's = "\\e\\x41\\u00e9"', "f = 1e5", "f = 1_000.5", "i = 0x1F", "i = -0", "b = true",
         '"q k" = 1', "'k' = 1", "a.b.c = 2", "[a]", "[a.b]", "x = inf", 'x = [1,[2,"a"],]',
         "year = 2024", "t = 2024-02-30", 's = "\\q"', 's = ""', "x = 01", "x = 1__0", "x = .5"]
SIGNS = [*"'\"[]{}=,.#\n \\_-:0aZ\t\r", '"""', "'''", "\r\n", "\\u", "é", "\x01", "??"]


def plain(value):
    """A value in which numbers with a fraction are those of the other reader."""
    if isinstance(value, dict):
        return {key: plain(value[key]) for key in value}
    if isinstance(value, list):
        return [plain(item) for item in value]
    return repr(float(value)) if isinstance(value, (float, Decimal)) else value


class Toml(Case):
    def texts(self):
        """The documents of the examples and of the cases."""
        found = [path.read_text() for path in sorted(EXAMPLES.glob("*.phh*"))
                 if path.suffix in (".phh", ".phhs")]
        for path in sorted(CASES.glob("*.jsonl")) if CASES.exists() else ():
            for line in path.read_text().splitlines():
                text = json.loads(line).get("input")
                if isinstance(text, str) and "=" in text:
                    found.append(text)
        return found

    def read(self, text):
        try:
            return plain(toml.read(text))
        except toml.TomlError as fault:
            self.assertTrue(0 <= fault.at <= len(text) and fault.what, text)
            return None

    def is_text(self, text):
        """Whether the program reads a document as TOML."""
        try:
            handref.judge(text.encode(), "phh")
        except handref.HandrefError as error:
            return error.reason != "Text"
        return True

    def test_program(self):
        """What the program takes for TOML is read, and nothing else."""
        chance = random.Random(1)
        texts = [text for text in self.texts() if len(text) < 5000]
        refused = 0
        for _ in range(300):
            text = chance.choice(texts)
            for _ in range(chance.randint(0, 2)):
                lines = text.split("\n")
                lines.insert(chance.randint(0, len(lines)), chance.choice(PARTS))
                text = "\n".join(lines)
            for _ in range(chance.randint(0, 2)):
                at = chance.randint(0, len(text))
                text = text[:at] + chance.choice(SIGNS) + text[at + chance.randint(0, 1):]
            is_read = self.read(text) is not None
            refused += not is_read
            self.assertEqual(is_read, self.is_text(text), text)
        self.assertGreater(refused, 30)

    @unittest.skipUnless(importlib.util.find_spec("tomllib"), "tomllib is not here")
    def test_values(self):
        """The values are those of Python's reader."""
        import tomllib
        count = 0
        for text in self.texts():
            try:
                wanted = plain(tomllib.loads(text.removeprefix("\ufeff")))
            except ValueError:
                continue  # not TOML, or TOML 1.1
            self.assertEqual(self.read(text), wanted)
            count += 1
        self.assertGreater(count, 15)

    def test_faults(self):
        """Each fault has its place, its kind and its words."""
        for text, at, kind, what in (
                ("a = 1\na = 2\n", 6, "twice", "the key a is here a second time"),
                ("[a]\n[b]\n[a]\n", 8, "twice", "the table a is here a second time"),
                ("a = 1\n[a.b]\n", 6, "twice", "a is already a value, and no table"),
                ('a = "C:\\hands"', 7, "backslash", "\\h is no escape of TOML"),
                ('a = ["b", "c', 10, "cut", "the text ends inside quotes"),
                ('a = [1, 2', 9, "cut", "the text ends here: a comma or the end of the list is "
                 "expected here"),
                ("a = [\n", 4, "cut", "the text ends inside a list"),
                ("a = b\n", 4, "form", "b is no value of TOML: a text needs quotes"),
                ("a = 1 b = 2", 6, "form", "something follows where the line has to end"),
                ("= 1", 0, "form", "a key is expected here"),
                ("a = 1 \x01", 6, "form", "the sign 0x01 may not be here")):
            with self.subTest(text=text):
                with self.assertRaises(toml.TomlError) as found:
                    toml.read(text)
                fault = found.exception
                self.assertEqual((fault.at, fault.kind, fault.what), (at, kind, what))

    def test_new_forms(self):
        """What TOML 1.1 has and 1.0 has not."""
        found = toml.read('t = 12:30\ns = "\\e\\x41"\nx = {\n a = 1, # one\n}\n')
        self.assertEqual((str(found["t"]), found["s"], found["x"]), ("12:30:00", "\x1bA", {"a": 1}))

    def test_deep(self):
        """80 lists and inline tables may be in one another, as for the program; so may 80 parts of
        a key, and of a header."""
        for text in (lambda deep: "a = " + "[" * deep + "]" * deep,
                     lambda deep: "a = " + "{b.c = " * deep + "1" + "}" * deep,
                     lambda deep: "a = " + "[{b=" * (deep // 2) + "1" + "}]" * (deep // 2) + (
                         "" if deep < 81 else "\nb = " + "[" * deep + "]" * deep),
                     lambda deep: "a" + ".b" * (deep - 1) + " = 1",
                     lambda deep: "[a" + ".b" * (deep - 1) + "]"):
            toml.read(text(80))
            for deep in (81, 3000):
                with self.assertRaises(toml.TomlError) as found:
                    toml.read(text(deep))
                self.assertEqual(found.exception.kind, "deep")

    def test_line_ends(self):
        """Inside a text of several lines they stay as they are."""
        for end in ("\n", "\r\n"):
            self.assertEqual(toml.read(f'a = """{end}b{end}c"""{end}'), {"a": f"b{end}c"})
            self.assertEqual(toml.read(f"a = '''b{end}c'''{end}"), {"a": f"b{end}c"})


if __name__ == "__main__":
    unittest.main()
