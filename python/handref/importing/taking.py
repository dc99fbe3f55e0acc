"""Takes what came of each file: writes it, says what was changed, and counts."""
import json
import os
from collections import Counter
from dataclasses import dataclass, field
from typing import Any, Callable, Optional, Sequence, TextIO

from handref import HandrefError, texts
from handref.importing import documents, report, work
from handref.importing.made import OutFolder
from handref.importing.record import LeftOut
from handref.importing.wild import Wild, sum_of

KEYS = "other-keys.jsonl"


@dataclass
class Imported:
    """What came of a file; one that could not be read, or was not cut at its hands, has a fault."""
    wild: Wild
    done: work.Done = field(default_factory=work.Done)
    fault: Optional[LeftOut] = None
    status: int = 0


class Taken:
    """The counts of all files, and what was written of them."""

    def __init__(self, out: Optional[OutFolder], journal: Optional[TextIO],
                 tell: Callable[[str], None], found: Sequence[Wild]) -> None:
        self.out, self.journal, self.tell = out, journal, tell
        self.counts = report.Counts()
        self.kept: list[str] = []
        self.held = ""  # the first refused hand: if it is the only one, the last line has it
        names = Counter(documents.name_of(one) for one in found)
        self.twice = {name for name, count in names.items() if count > 1}

    def take(self, imported: Imported) -> None:
        """Takes a file."""
        one, done = imported.wild, imported.done
        self.counts.files += 1
        if imported.fault:
            self._fault(one, imported)
            return
        hands = [each.hand for each in done.written if each.hand.number]
        for line in done.said:
            self.tell(f"{one.shown}: {line}")
        report.changes(one.shown, hands, self.tell)
        left_out = one.out + ".left-out"
        if any(hand.cause for hand in hands) or one.kind == "text":
            self.tell(report.left_out(one.shown, done.site, hands,
                                      os.path.basename(left_out) if self.out else None))
        if not hands:
            self.tell(f"{one.shown}: no hands")
            self.counts.status = self.counts.status or 3
        self._write(one, done, left_out)
        self._count(one, done)

    def _fault(self, one: Wild, imported: Imported) -> None:
        fault = imported.fault
        assert fault
        place = f":{fault.line}" if fault.line else ""
        self.tell(f"{one.shown}{place}: {fault.cause}"
                  + (f": {texts.shown(fault.detail)}" if fault.detail else ""))
        is_device = one.fault and not one.kind and not one.fault.startswith("it is neither")
        self.counts.status = self.counts.status or imported.status or (5 if is_device else 3)

    def _write(self, one: Wild, done: work.Done, left_out: str) -> None:
        """Writes the files of a file, the list of what is left out, and its changes."""
        places: dict[int, tuple[str, int]] = {}
        for name, written in documents.files(one, done, self.twice):
            if self.out and written:
                with self.out.writing(name) as file:
                    documents.write(file, one, name, written)
            elif self.out:
                self.out.drop(name)
            places.update({each.hand.number: (name, place) for place, each in enumerate(
                [each for each in written if each.hand.number], 1)})
        for name, data in done.beside.items():
            if self.out and places:
                with self.out.writing(documents.beside(one, name, self.twice)) as file:
                    file.write(data)
        listed = report.left_out_list(one.shown, [each.hand for each in done.written])
        if self.out and listed:
            with self.out.writing(left_out) as file:
                file.write(listed.encode("utf-8", "backslashreplace"))
        elif self.out:
            self.out.drop(left_out)
        self.places = places
        self._keep(done, places)
        if self.journal:
            self._note(one, done, places)

    def _keep(self, done: work.Done, places: dict[int, tuple[str, int]]) -> None:
        for each in done.written:
            if each.kept and each.hand.number in places:
                name, place = places[each.hand.number]
                self.kept.append(json.dumps({"file": name, "hand": place, "keys": each.kept},
                                            ensure_ascii=False) + "\n")

    def _note(self, one: Wild, done: work.Done, places: dict[int, tuple[str, int]]) -> None:
        """Notes each change and each hand: from which bytes it came, and where it went."""
        assert self.journal
        with open(one.path, "rb") as file:
            own = sum_of(file)
        for each in done.written:
            hand = each.hand
            if not hand.number:
                continue
            of: dict[str, Any] = {"source": one.name, "sha256": own, "hand": hand.number}
            for change in hand.changes if not hand.cause else ():
                self._line({**of, "rule": change.rule, "said": change.said,
                            "before": change.before, "after": change.after})
            end: dict[str, Any] = {"line": hand.line, "bytes": [hand.start, hand.end]}
            if hand.cause:
                end.update({"left out": hand.cause, "detail": hand.detail})
            else:
                name, place = places[hand.number]
                end.update({"times": done.units.of(hand), "out": name, "place": place,
                            "verdict": each.refused.line if isinstance(each.refused, HandrefError)
                            else "legal"})
            self._line({**of, **end})

    def _line(self, row: dict[str, Any]) -> None:
        assert self.journal
        self.journal.write(json.dumps(row, ensure_ascii=True) + "\n")

    def _count(self, one: Wild, done: work.Done) -> None:
        counts = self.counts
        for each in done.written:
            hand = each.hand
            counts.hands += bool(hand.number)
            counts.has_bug = counts.has_bug or hand.cause.startswith("a bug of ")
            if not hand.number or hand.cause:
                continue
            counts.written += 1
            if each.refused is None:
                counts.legal += 1
                continue
            assert isinstance(each.refused, HandrefError)
            name, place = self.places[hand.number]
            self._refused((texts.shown(self.out.path(name)) if self.out else one.shown) + ": "
                          + report.verdict(each.refused, place if self.out else hand.number))
        counts.wrong += done.wrong

    def _refused(self, line: str) -> None:
        if self.counts.refused:
            if self.held:
                self.tell(self.held)
                self.held = ""
            self.tell(line)
        else:
            self.held = line
        self.counts.refused.append(line)

    def finish(self, others: Sequence[str]) -> None:
        """Writes the keys that are kept beside, and names what was not looked at."""
        if self.out and self.kept:
            with self.out.writing(KEYS) as file:
                for line in self.kept:
                    file.write(line.encode("utf-8", "backslashreplace"))
        elif self.out:
            self.out.drop(KEYS)
        if others:
            first = ", ".join(texts.shown(name) for name in others[:3])
            self.tell(f"not read: {texts.counted(len(others), 'file')} without hands: {first}"
                      + (", .." if len(others) > 3 else ""))
