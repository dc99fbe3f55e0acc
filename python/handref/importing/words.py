"""The words of `handref import`, and what they do."""
import argparse
import os
import sys
from contextlib import ExitStack
from typing import Any, Optional, TextIO

from handref.importing import rules, run, work
from handref.importing.made import OutFolder

KINDS = ("phh", "ohh", "ohh-to", "acpc")


def add(commands: Any) -> None:
    """Adds the command to those of a parser."""
    said = "rewrites files as people have them into what handref reads, and names every change"
    command = commands.add_parser("import", help=said, description=said)
    option = command.add_argument
    option("--out", metavar="FOLDER", help="where the files go; nothing else is replaced there")
    option("--check", action="store_true", help="writes nothing: says what would be changed")
    option("--rules", action="store_true", help="lists the rules, and ends")
    option("--not", dest="off", action="append", default=[], metavar="RULE",
           help="does not use this rule; may be given again")
    option("--from", dest="kind", choices=KINDS, metavar="NOTATION",
           help="phh, ohh, ohh-to or acpc, where neither the name nor the first bytes say it, or "
           "two dialects of OHH are possible")
    option("--game", metavar="FILE", help="the game file of logs; else the one of the same name, the "
           "one that the log names, or the only one of the folder")
    option("--times", type=int, metavar="N", help="multiplies all amounts by N; else the least "
           "number that makes all amounts of a file whole")
    option("--journal", metavar="FILE", help="notes each change there, as lines of JSON")
    option("--force", action="store_true", help="replaces files that no import has made")
    option("-j", "--jobs", type=int, metavar="N", help="processes at a time; else the processors")
    option("path", nargs="*", metavar="PATH", help="files and folders; - is the standard input")


def run_import(given: argparse.Namespace) -> int:
    """Imports files. The status is 0 only if every hand was written and is legal."""
    on = rules.named(given.off)
    if given.rules:
        sys.stdout.write(rules.listed())
        sys.stdout.flush()
        return 0
    _look_at(given)
    out = OutFolder(given.out, given.force) if given.out else None
    kind = "log" if given.kind == "acpc" else given.kind
    call = work.Call(on, given.times, given.game, kind if kind in ("ohh", "ohh-to") else None)
    with ExitStack() as stack:
        journal: Optional[TextIO] = stack.enter_context(_journal(given.journal)) \
            if given.journal else None
        counts = run.run(given.path, call, run.Asked(out, given.jobs, journal, _tell, kind))
    _tell(counts.line())
    return counts.exit_status


def _look_at(given: argparse.Namespace) -> None:
    """Refuses words that do not go together."""
    if not given.path:
        raise ValueError("import: which files or folders? (- is the standard input)")
    if bool(given.out) == given.check:
        raise ValueError("import needs --out FOLDER, or --check, which writes nothing")
    if given.check and given.journal:
        raise ValueError("--check writes nothing, and so no journal")
    if given.times is not None and given.times < 1 or given.jobs is not None and given.jobs < 1:
        raise ValueError("--times and --jobs are 1 or more")
    for path in given.path:
        if given.out and os.path.isdir(path) and os.path.isdir(given.out) \
                and os.path.samefile(path, given.out):
            raise ValueError("--out is a folder that is read")


def _journal(path: str) -> TextIO:
    """A new file of changes. ValueError: it is there already."""
    try:
        return open(path, "x", encoding="utf-8")
    except FileExistsError as why:
        raise ValueError(f"{path}: it is there; a journal is a new file") from why


def _tell(text: str) -> None:
    print(text, flush=True)
