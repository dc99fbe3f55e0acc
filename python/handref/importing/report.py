"""What an import says: a line for each thing that was changed, and for each file its counts."""
from collections import Counter
from dataclasses import dataclass, field
from typing import Callable, Optional

from handref import HandrefError, texts
from handref.importing import rules
from handref.importing.record import Hand

SHOWN = 3  # changes of one rule in one file, each with a line of its own


@dataclass
class Counts:
    """The sums of all files."""
    files: int = 0
    hands: int = 0
    written: int = 0
    legal: int = 0
    refused: list[str] = field(default_factory=list)
    wrong: int = 0  # stated results of files that are wrong, as a SCORE line
    has_bug: bool = False  # a hand is left out since this package is wrong
    status: int = 0  # of the first file that cannot be read

    @property
    def left_out(self) -> int:
        """The hands that are not written."""
        return self.hands - self.written

    @property
    def exit_status(self) -> int:
        """0 only if every hand was written and is legal."""
        return self.status or (70 if self.has_bug else 1 if self.refused or self.wrong else 3 if self.left_out else 0)

    def line(self) -> str:
        """The last line."""
        said = f"{_number(self.hands, 'hand')} of {_number(self.files, 'file')}: " \
            f"{self.written:,} written, {self.left_out:,} left out; {self.legal:,} legal, " \
            f"{len(self.refused):,} refused"
        return said + (f": {self.refused[0]}" if len(self.refused) == 1 else "")


def _number(count: int, word: str) -> str:
    return f"{count:,} {word}{'s' * (count != 1)}"


def changes(name: str, hands: list[Hand], tell: Callable[[str], None]) -> None:
    """The changes of the hands of a file: each by itself where they are few."""
    found: dict[str, list[tuple[int, str]]] = {}
    for hand in hands:
        for change in hand.changes if not hand.cause else ():
            if change.said:
                found.setdefault(change.rule, []).append((hand.number, change.said))
    for rule, listed in found.items():
        if len(listed) <= SHOWN:
            for number, said in listed:
                tell(f"{name}: hand {number}: {texts.shown(said)}")
            continue
        numbers = list(dict.fromkeys(number for number, _ in listed))
        tell(f"{name}: {_number(len(numbers), 'hand')}: {rules.by_name(rule).many} "
             f"({'hands' if len(numbers) > 1 else 'hand'} {_some(numbers)})")


def _some(numbers: list[int]) -> str:
    return ", ".join(map(str, numbers[:SHOWN])) + (", .." if len(numbers) > SHOWN else "")


def left_out(name: str, site: str, hands: list[Hand], out: Optional[str]) -> str:
    """The line of a file of which hands are left out, or that is a text."""
    causes = Counter(hand.cause for hand in hands if hand.cause)
    said = f"{name}: " + (f"{site}: " if site else "") + _number(len(hands), "hand")
    if not causes:
        return said
    count = sum(causes.values())
    said += f", {count:,} left out" + (f" ({out})" if out else "")
    listed = ", ".join(f"{number:,} {texts.shown(cause)}" for cause, number in causes.most_common())
    return f"{said}: {listed}"


def left_out_list(name: str, hands: list[Hand]) -> str:
    """The file that lists what is left out: a line for each hand, with the line and the cause."""
    return "".join(
        f"{name}:{hand.cause_line}: hand {hand.number}: {texts.shown(hand.cause)}"
        + (f": {texts.shown(hand.detail)}" if hand.detail else "") + "\n"
        for hand in hands if hand.cause)


def verdict(error: HandrefError, place: int) -> str:
    """What is wrong with a hand, with its place in the file that was written."""
    line = error.line.partition("hand ")[2].partition(": ")[2] or error.line
    return f"hand {place}: {line}"

