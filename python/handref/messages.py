"""What docs/MESSAGES.md says of a status and its line: what it means, and what to do.

    from handref import messages
    messages.said_of(1, "refused: hand 1: event 4, action 4: RaiseTooSmall").text

The document is in the package, in the checkout that the package is part of, or in share/doc/handref
of the folder under which it is installed.
"""
import os
import re
from dataclasses import dataclass
from functools import lru_cache
from typing import Iterator, Optional

import handref

_CAPITALS = re.compile(r"\b[A-Z]+\b|(?<=\bp)N\b")  # what stands for something in a form

SECTIONS = {"phh": "Poker Hand History", "ohh": "Open Hand History",
            "ohh-to": "Open Hand History", "acpc": "Logs"}
_HERE = os.path.dirname(os.path.abspath(__file__))


@dataclass(frozen=True)
class Said:
    """A part of the document: of which status and section, the names it is about, its text."""
    status: int
    section: str
    names: tuple[str, ...]
    text: str


@lru_cache(maxsize=None)
def document() -> str:
    """The text of MESSAGES.md. FileNotFoundError: the package was installed without it."""
    for path in _places():
        if os.path.exists(path):
            with open(path, encoding="utf-8") as file:
                return file.read()
    raise FileNotFoundError(2, "the package was installed without it", next(_places()))


def _places() -> Iterator[str]:
    """Where the document may be."""
    yield os.path.join(_HERE, "MESSAGES.md")
    yield os.path.join(os.path.dirname(os.path.dirname(_HERE)), "docs", "MESSAGES.md")
    folder = _HERE
    while folder != os.path.dirname(folder):
        folder = os.path.dirname(folder)
        yield os.path.join(folder, "share", "doc", "handref", "MESSAGES.md")


@lru_cache(maxsize=None)
def parts() -> tuple[Said, ...]:
    """All that the document says, in its order, without its examples."""
    return tuple(_parts(re.sub(r"^```.*?^```$", "", document(), flags=re.M | re.S)))


def _parts(text: str) -> Iterator[Said]:
    status, section = -1, ""
    for block in re.split(r"\n\s*\n|\n(?=- |\|)", text):
        block = " ".join(block.split())
        head = re.match(r"(##+) (?:(\d+) )?(.*)", block)
        if head:
            status = int(head[2]) if head[2] else -1 if head[1] == "##" else status
            section = "" if head[1] == "##" else head[3]
        elif status < 0 or not block or block.startswith("|---"):
            continue
        elif block.startswith("|"):
            first, *cells = [cell.strip() for cell in block.strip("|").split(" | ")]
            names = tuple(re.findall("`([^`]+)`", first)) or (first,)
            yield Said(status, section, names, _joined(cells))
        else:
            named = re.match(r"(?:- )?`([^`]+)`: (.*)", block)
            forms = tuple(form for form in re.findall("`([^`]+)`", block)
                          if form.startswith(("no such ", "differs: hands")))
            yield Said(status, section, (named[1],) if named else forms,
                       plain(named[2] if named else block))


def _joined(cells: list[str]) -> str:
    texts = [plain(cell.strip(" |")) for cell in cells]
    return ". ".join(text[:1].upper() * bool(place) + text[1:] if place else text
                     for place, text in enumerate(texts) if text)


def plain(text: str) -> str:
    """A text without its links and the marks of code."""
    text = re.sub(r"\s*\((?:see )?\[[^\]]*\]\([^)]*\)\)", "", text)
    return re.sub(r"\[([^\]]*)\]\([^)]*\)", r"\1", text).replace("`", "")


def explained(error: handref.HandrefError, notation: Optional[str] = None) -> str:
    """What the document says of a call that is not done, after the name of what is wrong.
    FileNotFoundError: the document is not here."""
    said = said_of(error.status, error.line, notation)
    if said is None:
        return ""
    if error.status == 7:
        general = _first([part for part in parts() if part.status == 7])
        return f"{general.text if general else ''} Here: {said.text}."
    if error.reason == "Text":
        return "Text: " + said.text.partition(" handref explain FILE")[0]
    text = filled(said, re.sub("^(refused: |file: )?(hand [0-9]+: )?", "", error.line))
    if said.names and error.reason and error.status in (1, 3, 4, 10, 14):
        return text[:1].upper() + text[1:] if error.reason == "stated" else \
            f"{error.reason}: {text}"
    return text


def filled(said: Said, line: str) -> str:
    """A part of the document with the numbers and names of a line in place of its capital letters,
    as X in `pots stated X, replayed Y`."""
    for name in said.names:
        words = _CAPITALS.findall(name)
        found = re.fullmatch("(.+?)".join(map(re.escape, _CAPITALS.split(name))), line)
        if found and words:
            values = dict(zip(words, found.groups()))
            return _CAPITALS.sub(lambda word: values.get(word[0], word[0]), said.text)
    return said.text


def said_of(status: int, line: str, notation: Optional[str] = None) -> Optional[Said]:
    """The part of the document about a line, and None where it has none."""
    line = re.sub("^file: ", "", line)
    error = handref.error_of(status, line)
    own = [part for part in parts() if part.status == status]
    reason = error.reason or ""
    if status == 7:
        reason = line.rpartition(" ")[0]
    elif status in (13, 14, 70) or reason == "stated":
        return _by_form(own, line) or _first(own)
    found = [part for part in own if any(_is_of(reason, name) for name in part.names)]
    section = SECTIONS.get(notation or "", "")
    return next((part for part in found if part.section == section), None) or \
        next(iter(found), None) or (None if reason else _first(own))


def meaning(error: handref.HandrefError, notation: Optional[str] = None) -> str:
    """What the document says of a call that is not done; nothing where it is not here."""
    return _meaning(error.status, re.sub(r"\d+", "1", error.line), notation)


@lru_cache(maxsize=1000)
def _meaning(status: int, line: str, notation: Optional[str]) -> str:
    try:
        said = said_of(status, line, notation)
    except FileNotFoundError:
        return ""
    return said.text if said else ""


def _first(own: list[Said]) -> Optional[Said]:
    """What a section says in general."""
    return next((part for part in own if not part.names), None)


def _is_of(reason: str, name: str) -> bool:
    if not reason:
        return False
    if reason.startswith("Note "):
        return name == "Note NAME"
    return name == reason or bool(re.search(rf"(\A|[:\s]){re.escape(reason)}(\s|\Z)", name))


def _by_form(own: list[Said], line: str) -> Optional[Said]:
    """The part one of whose forms, as `no such hand: H of N`, the line has: capital letters there
    stand for anything, and so do two points."""
    said = re.sub(r"^(handref|differs|refused): (hand \d+: )?", "", line)
    for part in own:
        for name in part.names:
            form = re.escape(re.sub(r"^differs: ", "", name)).replace(r"\.\.", ".*")
            if re.match(re.sub(r"\b[A-Z]+\b|(?<=p)N\b", ".+", form), said):
                return part
    return None
