"""What is known of a line of the program and of the place that it is about: what is there, what
would have been legal, what to do.

    explanation.of_line("refused: hand 1: event 4, action 4: RaiseTooSmall").meaning
"""
import os
import re
import shlex
import textwrap
from dataclasses import dataclass, field, replace
from typing import Optional, Sequence

import handref
from handref import (Game, HandrefError, Piece, explain_game, explain_import, explain_play,
                     explain_text, explain_value, messages, places)
from handref.places import Spot
from handref.texts import shown

STATUS = {"refused": 1, "usage": 2, "bad input": 3, "unspelled": 4, "read fault": 5,
          "write fault": 6, "limit": 7, "out of memory": 8, "game missing": 9, "bad game": 10,
          "shelf fault": 11, "no such": 13, "differs": 14, "file missing": 15, "handref": 70}
_START = re.compile(r"(?:\A|: )((?:file: )?(?:refused|usage|bad input|unspelled|limit|bad game|"
                    r"differs|handref|no such [a-z]+): .*|(?:read fault|write fault|out of memory|"
                    r"game missing|shelf fault|file missing)\Z)")
_WIDE = 90  # columns that are shown of a line
_COMMAND = re.compile(r": ((?:7z|bzip2|gzip|iconv|jq|tail|unzip|xz|zstd) .* > NEW)\Z")


@dataclass
class Explanation:
    """A line of the program, the file and the place that it is about, sentences about it, and what
    MESSAGES.md says. Nothing is wrong where the line is empty; then `facts` say so."""
    status: int
    line: str
    file: str = ""
    spot: Optional[Spot] = None
    facts: list[str] = field(default_factory=list)
    meaning: str = ""

    def __str__(self) -> str:
        where = shown(self.file)
        if self.spot:
            where += f":{self.spot.line}:{self.spot.column}"
        head = [f"{where}: {shown(self.line)}" if where else shown(self.line)] if self.line else []
        facts = [fact if not self.line else _folded(fact) for fact in self.facts]
        meaning = ["", _folded(self.meaning)] if self.meaning else []
        return "\n".join([*head, *(_pointed(self.spot) if self.spot else []), *facts, *meaning])


def _folded(text: str) -> str:
    """A text in lines that are not too long; a command stays on one line."""
    return "\n".join("\n".join([shown(line)] if line.startswith("  ") else textwrap.wrap(
        shown(line), 88, break_long_words=False, break_on_hyphens=False))
        for line in text.split("\n"))


def _pointed(found: Spot) -> list[str]:
    """The line of a spot, and marks below it."""
    at = found.column - 1
    begin = max(0, at - _WIDE // 2) if len(found.text) > _WIDE else 0
    front, own = shown(found.text[begin:at]), shown(found.text[at:at + found.length])
    rest = shown(found.text[at + found.length:begin + _WIDE])
    dots = ("…" if begin else "", "…" if begin + _WIDE < len(found.text) else "")
    own = own[:_WIDE]
    number = str(found.line)
    return [f"  {number} | {dots[0]}{front}{own}{rest}{dots[1]}",
            f"  {' ' * len(number)} | {' ' * len(dots[0] + front)}{'^' * max(1, len(own))}"]


def status_of(line: str) -> Optional[int]:
    """The status with which the program prints a line, or the script one about its words."""
    line = re.sub("^file: ", "", line)
    if re.search(r"\A\S+: .*handref --help\)\Z", line):
        return 2
    return next((STATUS[word] for word in STATUS if line.startswith(word)), None)


def printed(text: str) -> str:
    """The line of the program in what was printed: without the name of a file before it, and the
    number of a line after it. ValueError: there is none."""
    text = text.strip().split("\n")[0]
    found = _START.search(text)
    if not found:
        raise ValueError(f"this is no line of the program: {text}")
    return re.sub(r" \(line \d+\)\Z", "", found[1])


def is_printed(text: str) -> bool:
    """Whether a text has a line of the program."""
    return bool(_START.search(text.strip()))


def of_piece(error: HandrefError, path: str, piece: Piece, game: Game) -> Explanation:
    """A fault of a piece of a file, said of the whole file."""
    found = of(error, path, piece, game)
    whole = handref.whole(replace(error, line_number=error.line_number), piece)
    if found.spot and error.status not in (9, 10, 11):
        found.spot = places.moved(found.spot, piece.lines_before)
    return replace(found, line=whole.line)


def of(error: HandrefError, path: str, piece: Piece, game: Game,
       facts: Sequence[str] = ()) -> Explanation:
    """What is known of a line and of the piece of a file that it is about."""
    found = Explanation(error.status, error.line, path, facts=list(facts))
    data, notation = piece.data, piece.notation
    try:
        found.meaning = messages.explained(error, notation)
    except FileNotFoundError:
        pass  # the rest is known without the document
    if error.line.startswith("file: "):
        error = replace(error, line=error.line[6:])
    if error.status == 10 or error.place == "game bytes":
        _of_game(found, error, game)
    elif error.reason == "Text":
        found.spot, found.facts = explain_text.why(data, notation, error.hand)
    elif error.status in (1, 3, 4, 14) and data:
        found.spot = places.of(data, notation, error)
        found.facts = _facts(error, data, notation, game, found.spot)
    elif error.status == 7:
        found.facts = _of_limit(error)
    elif error.status in (9, 15) and game:
        found.facts = [f"There is no file {shown(os.fspath(game))} in {shown(os.getcwd())}."
                       if not os.path.exists(game) else f"{shown(os.fspath(game))} is there now."]
    rule = explain_import.rule_of(error, notation, found.spot, data, found.facts)
    if rule:
        found.facts.append(explain_import.sentence(rule, game))
    if path and path != "standard input":
        named = shlex.quote(path)
        found.facts = [re.sub(r"\bFILE\b", lambda _: named, fact) for fact in found.facts]
    found.facts = [_COMMAND.sub(r":\n  \1", fact) for fact in found.facts]
    return found


def _of_game(found: Explanation, error: HandrefError, game: Game) -> None:
    """What is wrong with the game file."""
    if game is None:
        found.facts = ["--game GAME names the game file: with it the line is looked at."]
        return
    found.file = os.fspath(game)
    data = handref.read(game)
    if error.line_number is not None:
        found.spot, found.facts = explain_game.why(data, error.line_number, error.reason or "")


def _of_limit(error: HandrefError) -> list[str]:
    if error.place == "input bytes":
        return ["handref many takes files of any length."]
    return ["handref many takes files with any number of hands."] if error.place in (
        "hands", "moves of the file") else []


def _facts(error: HandrefError, data: bytes, notation: handref.Notation, game: Game,
           found: Optional[Spot]) -> list[str]:
    value = found.value if found else None
    if error.status == 1:
        try:
            own = places.hand_of(data, notation, error.hand or 1)
            return explain_play.facts(own, notation, game, error, value)
        except (LookupError, ValueError, UnicodeError):
            return ["The hand was not found in the file."]
    if error.status == 3 and found:
        return explain_value.facts(error, notation, found, data)
    return []


def of_line(line: str) -> Explanation:
    """What a line means, without its file."""
    said = printed(line)
    error = handref.error_of(status_of(said) or 0, said)
    return Explanation(error.status, said, meaning=messages.explained(error))
