"""Looks through all Python of the repository for what Python 3.9 does not have: syntax, names, and
types that are only written so from 3.10 on. Nothing is run."""
from __future__ import annotations

import ast
import unittest
from pathlib import Path
from typing import Iterator

TOP = Path(__file__).resolve().parent.parent.parent
OLDEST = (3, 9)
# What came later: names of modules and attributes, and words that a call takes.
MODULES = {"tomllib"}
NAMES = {"pairwise", "batched", "StrEnum", "UTC", "Self", "TypeAlias", "ParamSpec", "ExceptionGroup", "aiter", "anext",
         "EncodingWarning", "add_note", "bit_count", "full_match", "walk_up", "file_digest", "KW_ONLY"}
WORDS = {"zip": {"strict"}, "dataclass": {"slots", "kw_only", "weakref_slot"},
         "bisect_left": {"key"}, "bisect_right": {"key"}, "insort": {"key"}}


def sources() -> Iterator[Path]:
    """All files that Python reads."""
    for path in sorted(TOP.glob("*/**/*")):
        if path.parts[len(TOP.parts)] in ("crates", "out", ".git") or not path.is_file():
            continue
        if path.suffix == ".py" or not path.suffix and path.read_bytes()[:22] == b"#!/usr/bin/env python3":
            yield path


def later(tree: ast.Module) -> Iterator[tuple[int, str]]:
    """The lines with what came after Python 3.9. An import in a function or in `try` may fail."""
    for each in tree.body:
        if isinstance(each, ast.Import):
            yield from ((each.lineno, name.name) for name in each.names if name.name in MODULES)
        elif isinstance(each, ast.ImportFrom):
            yield from ((each.lineno, name.name) for name in each.names if name.name in NAMES)
            if each.module in MODULES:
                yield each.lineno, str(each.module)
    is_late = any(isinstance(each, ast.ImportFrom) and each.module == "__future__" for each in tree.body)
    for each in ast.walk(tree):
        if isinstance(each, ast.Attribute) and each.attr in NAMES:
            yield each.lineno, each.attr
        elif isinstance(each, ast.Call):
            called = getattr(each.func, "id", getattr(each.func, "attr", ""))
            yield from ((each.lineno, f"{called}({word.arg}=)") for word in each.keywords
                        if word.arg in WORDS.get(called, ()))
            if called == "total" and not each.args:  # of a Counter
                yield each.lineno, called
        elif isinstance(each, (ast.arg, ast.AnnAssign)) and not is_late and each.annotation:
            yield from unions(each.annotation)
        elif isinstance(each, ast.FunctionDef) and not is_late and each.returns:
            yield from unions(each.returns)


def unions(annotation: ast.AST) -> Iterator[tuple[int, str]]:
    """Types that are written with `|`, which Python 3.9 would compute."""
    yield from ((each.lineno, "X | Y") for each in ast.walk(annotation)
                if isinstance(each, ast.BinOp) and isinstance(each.op, ast.BitOr))


class OldestPython(unittest.TestCase):
    def test_sources(self) -> None:
        """Nothing in the sources needs a later Python than the package asks for."""
        asked = (TOP / "python" / "pyproject.toml").read_text()
        self.assertIn(f'requires-python = ">={OLDEST[0]}.{OLDEST[1]}"\n', asked)
        found, count = [], 0
        for path in sources():
            tree = ast.parse(path.read_text(), feature_version=OLDEST)
            if "It needs Python 3." in (ast.get_docstring(tree) or ""):
                continue
            found += [f"{path.relative_to(TOP)}:{line}: {what}" for line, what in later(tree)]
            count += 1
        self.assertEqual(found, [])
        self.assertGreater(count, 50)

    def test_what_is_seen(self) -> None:
        """Syntax and names of later versions are seen."""
        with self.assertRaises(SyntaxError):
            ast.parse("match 1:\n    case 1: pass\n", feature_version=OLDEST)
        for text, wanted in (("import tomllib", "tomllib"), ("from itertools import pairwise", "pairwise"),
                             ("zip(a, b, strict=True)", "zip(strict=)"), ("def f(a: int | None): pass", "X | Y"),
                             ("def f() -> int | None: pass", "X | Y"), ("a: int | None = 1", "X | Y"),
                             ("counter.total()", "total")):
            self.assertEqual(list(later(ast.parse(text))), [(1, wanted)])
        for text in ("try:\n    import tomllib\nexcept ImportError:\n    pass", "zip(a, b)",
                     "from __future__ import annotations\ndef f(a: int | None): pass"):
            self.assertEqual(list(later(ast.parse(text))), [])


if __name__ == "__main__":
    unittest.main()
