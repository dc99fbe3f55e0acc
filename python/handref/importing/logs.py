"""Logs of dealers as organisers have them: half chips, output with TO and FROM lines, SCORE lines."""
import mmap
import os
import re
import tempfile
from dataclasses import dataclass, field
from decimal import Decimal
from fractions import Fraction
from typing import Iterator, Optional, Sequence, Union

from handref.importing import amounts, games, judging
from handref.importing.finishing import settle
from handref.importing.record import Hand, LeftOut, Written
from handref.importing.rules import Rules

_VALUE = re.compile(rf"-?{amounts.NUMBER}")
_RAISE = re.compile(rf"r({amounts.NUMBER})")
_SEEN = re.compile(rb"(?:(TO|FROM) ([0-9]+) at [0-9.]+ )?MATCHSTATE:([0-9]+):([0-9]+):")
_PASSED = re.compile(rb"\s*(?:#.*|(?:STARTED|FINISHED) at [0-9.]+)?\s*")
_THIRDS = {"333333": 3, "666667": 3, "166667": 6, "833333": 6}  # as a dealer prints six digits


@dataclass
class Line:
    """A hand of a log: its fields, or what each seat saw of it; a SCORE line; or another line."""
    text: str = ""
    fields: list[str] = field(default_factory=list)
    is_seen: bool = False


# Finding hands.

def blocks(data: "Union[bytes, mmap.mmap]") -> Iterator[tuple[int, int, int]]:
    """The lines of a log. A line that is no hand has the number 0; the lines of one hand of a
    dealer's output are one block, with its line of the log where that follows."""
    number = 0
    open_hand: Optional[_Open] = None
    for start, end in _lines(data):
        line = data[start:end]
        seen, is_passed = _SEEN.match(line), _PASSED.fullmatch(line)
        if open_hand:
            own = seen[4] if seen else line[6:].partition(b":")[0] if line.startswith(b"STATE:") else b""
            if is_passed:
                open_hand.passed.append((start, end))
                continue
            if own == open_hand.own:
                open_hand.end, open_hand.passed = end, []
                if seen:
                    continue
            yield from open_hand.blocks(number)
            is_taken, open_hand = own == open_hand.own, None
            if is_taken:  # its line of the log, which ends it
                continue
        if seen:
            number, open_hand = number + 1, _Open(seen[4], start, end)
        else:
            is_hand = not is_passed and not line.startswith(b"SCORE:")
            number += is_hand
            yield number if is_hand else 0, start, end
    if open_hand:
        yield from open_hand.blocks(number)


@dataclass
class _Open:
    """A hand of a dealer's output: its number there, where it begins and ends, and the lines after
    it that say nothing."""
    own: bytes
    start: int
    end: int
    passed: list[tuple[int, int]] = field(default_factory=list)

    def blocks(self, number: int) -> Iterator[tuple[int, int, int]]:
        """The hand, and the lines after it."""
        yield number, self.start, self.end
        for start, end in self.passed:
            yield 0, start, end


def _lines(data: "Union[bytes, mmap.mmap]") -> Iterator[tuple[int, int]]:
    """Where each line begins and ends."""
    start, size = 0, len(data)
    while start < size:
        end = data.find(b"\n", start) + 1 or size
        yield start, end
        start = end


# Reading.

def read(hand: Hand, data: bytes, rules: Rules, game: games.GameFile) -> None:
    """Reads a line, and notes what its chips need."""
    hand.notation = "acpc"
    try:
        text = data.decode().rstrip("\r\n")
    except UnicodeDecodeError as why:
        raise LeftOut("a text that is not UTF-8") from why
    line = hand.value = Line(text)
    if not hand.number:
        if text.startswith("SCORE:"):
            line.fields = text.split(":")
            hand.stated = tuple(line.fields[1:])
            if rules.has("unit"):
                _need_of_values(hand, line.fields[1])
        return
    if text.startswith("STATE:"):
        line.fields = text.split(":")
        hand.stated = tuple(line.fields[4:6]) if len(line.fields) == 6 else ()
    if game.other_game():
        raise LeftOut("another game", game.other_game())
    if _SEEN.match(data):
        _merge(hand, data, rules, game)
    elif not line.fields:
        raise LeftOut("a line that is no hand", text[:60])
    if len(line.fields) == 6 and rules.has("unit"):
        for value in _RAISE.findall(line.fields[2]):
            _need(hand, value)
        _need_of_values(hand, line.fields[4])


def _need_of_values(hand: Hand, values: str) -> None:
    for value in values.split("|"):
        if _VALUE.fullmatch(value):
            _need(hand, value)


def exact(value: str) -> Fraction:
    """A number of chips; what a dealer prints as 33.333333 is a third."""
    front, _, part = value.partition(".")
    if part in _THIRDS:
        return Fraction(round(Fraction(value) * 6), 6)
    return Fraction(value)


def _need(hand: Hand, value: str) -> None:
    part = value.partition(".")[2]
    if part:
        hand.point = hand.point or value
        amounts.parts_of(Decimal(value))
        hand.parts = amounts.joined(hand.parts, exact(value).denominator)


def _merge(hand: Hand, data: bytes, rules: Rules, game: games.GameFile) -> None:
    """What the dealer sent of a hand, as one line: the last state, and the cards that any seat saw.
    The values are filled in later, by the replay. Where the line of the log is there too, it is the
    hand."""
    if not rules.has("dealer-output"):
        raise LeftOut("a line of MATCHSTATE")
    count = game.one("numPlayers")
    line, last = hand.value, ("", "")
    holes: dict[int, str] = {}
    for row in data.decode().split("\n"):
        seen = _SEEN.match(row.encode())
        parts = row.rstrip("\r").partition("MATCHSTATE:")[2].split(":")
        if not seen or len(parts) < 4:
            continue
        betting, cards = parts[2], parts[3]
        if seen[1] == b"TO":
            hand.seats[int(seen[2])] = int(parts[0])
        front, _, board = cards.partition("/")
        if len(betting) > len(last[0]) or len(betting) == len(last[0]) and len(board) > len(last[1]):
            last = (betting, board)
        for place, own in enumerate(front.split("|")):
            if own and holes.setdefault(place, own) != own:
                raise LeftOut("cards of a player that differ", f"{holes[place]} and {own}")
    whole = next((row for row in data.decode().split("\n") if row.startswith("STATE:")), None)
    if whole:
        _compare(hand, whole.rstrip("\r"), last[0], holes)
        return
    line.is_seen = True
    held = "|".join(holes.get(place, "") for place in range(count))
    names = "|".join(f"p{place + 1}" for place in range(count))
    line.fields = ["STATE", str(_number(data)), last[0],
                   held + ("/" + last[1] if last[1] else ""), "|".join("0" * count), names]
    hand.change("dealer-output", "the final state of what the dealer sent")


def _compare(hand: Hand, own: str, betting: str, holes: dict[int, str]) -> None:
    """Takes the line of the log as the hand, if it is what the dealer sent."""
    fields = own.split(":")
    held = fields[3].partition("/")[0].split("|") if len(fields) == 6 else []
    if len(fields) != 6 or fields[2] != betting or any(
            place >= len(held) or held[place] != cards for place, cards in holes.items()):
        raise LeftOut("a line of a log that is not what the dealer sent", own)
    hand.value.fields, hand.stated = fields, tuple(fields[4:6])
    hand.change("dealer-output", "its line of the log, in place of what the dealer sent")


def _number(data: bytes) -> int:
    seen = _SEEN.match(data)
    return int(seen[4]) if seen else 0


# Writing.

def finish(hands: list[Hand], units: amounts.Units, rules: Rules,
           game: games.GameFile) -> list[Written]:
    """Writes lines, and asks for the verdicts on the hands."""
    found = [Written(hand) for hand in hands]
    is_exchanged = rules.has("seats-exchanged") and game.exchanges_seats()
    times = units.chips
    with tempfile.TemporaryDirectory() as folder:
        path = os.path.join(folder, "game")
        with open(path, "wb") as file:
            file.write(game.text(times, is_exchanged))
        for each in found:
            _put(each, times, is_exchanged)
        wanted = [each for each in found if each.hand.number and not each.hand.cause]
        _fill_values(wanted, times, path)
        for each, refused in zip(wanted, judging.verdicts(
                [each.data + b"\n" for each in wanted], "acpc", path)):
            settle(each, refused)
    return found


def _put(written: Written, times: int, is_exchanged: bool) -> None:
    hand, line = written.hand, written.hand.value
    if hand.cause:
        return
    fields = list(line.fields)
    try:
        if len(fields) == 6:
            fields[2] = _RAISE.sub(lambda found: f"r{_times(found[1], times)}", fields[2])
            fields[4] = "|".join(_times(value, times) for value in fields[4].split("|"))
            if is_exchanged:
                front, slash, board = fields[3].partition("/")
                fields[3] = _turned(front) + slash + board
                fields[4], fields[5] = _turned(fields[4]), _turned(fields[5])
                hand.change("seats-exchanged", "the seats are exchanged")
        elif fields[:1] == ["SCORE"] and len(fields) == 3:
            fields[1] = "|".join(_times(value, times) for value in fields[1].split("|"))
    except LeftOut as why:
        hand.leave_out(why)
    is_kept = fields or hand.number or not line.text.strip() or line.text.startswith("#")
    written.data = (":".join(fields) if fields else ("" if is_kept else "# ") + line.text).encode()


def _times(value: str, times: int) -> str:
    if not _VALUE.fullmatch(value):
        return value
    found = exact(value) * times
    if found.denominator != 1:
        raise LeftOut(f"an amount that is not whole times {times}", value)
    return str(found.numerator)


def _turned(text: str) -> str:
    return "|".join(reversed(text.split("|")))


def _fill_values(wanted: Sequence[Written], times: int, game: str) -> None:
    """The values of what a dealer sent, which does not have them, by the replay."""
    some = [each for each in wanted if each.hand.value.is_seen]
    verdicts = judging.verdicts([each.data + b"\n" for each in some], "acpc", game)
    some = [each for each, refused in zip(some, verdicts)
            if refused is None or refused.status == 1]
    for each, replay in zip(some, judging.replays([each.data + b"\n" for each in some], "acpc", game)):
        if not replay.finish:
            continue
        first = replay.steps[0]
        values = [end - left - put for end, left, put in
                  zip(replay.finish, first.stacks, first.put)]
        fields = each.data.decode().split(":")
        fields[4] = "|".join(map(str, values))
        each.data = ":".join(fields).encode()
        each.hand.stated = ("|".join(str(Fraction(value, times)) for value in values), fields[5])


# What is said of the whole.

def name_players(found: Sequence[Written]) -> None:
    """Gives the players of a dealer's output the names of its SCORE line, which are in the order of
    the players."""
    names = next((each.hand.stated[1].split("|") for each in reversed(found)
                  if not each.hand.number and len(each.hand.stated) == 2), None)
    if not names:
        return
    for each in found:
        seats = each.hand.seats
        if each.hand.cause or not seats or sorted(seats) != list(range(1, len(names) + 1)):
            continue
        placed = [name for _, name in sorted(zip((seats[player] for player in sorted(seats)), names))]
        fields = each.data.decode().split(":")
        fields[5] = "|".join(placed)
        each.data = ":".join(fields).encode()
        if each.hand.stated:
            each.hand.stated = (each.hand.stated[0], fields[5])


def scores(found: Sequence[Written]) -> list[str]:
    """What is wrong with the SCORE lines: each has to read, and to be the sum of the values since
    the last one."""
    said: list[str] = []
    sums: dict[str, Fraction] = {}
    for each in found:
        parts = [text.split("|") for text in each.hand.stated]
        if len(parts) != 2 or len(parts[0]) != len(parts[1]) or not all(
                re.fullmatch(r"-?[0-9]+(?:[./][0-9]+)?", value) for value in parts[0]):
            if each.hand.stated and not each.hand.number:
                said.append(f"line {each.hand.line}: SCORE does not read")
            continue
        values, names = parts
        if each.hand.number:
            for name, value in zip(names, values):
                sums[name] = sums.get(name, Fraction(0)) + exact(value)
            continue
        for name, value in zip(names, values):
            due = sums.get(name, Fraction(0))
            if abs(exact(value) - due) > (0 if due.denominator in (1, 2, 4) else Fraction(1, 10 ** 5)):
                said.append(f"line {each.hand.line}: SCORE says {value}, due {_shown(due)}")
                break
        sums = {}
    return said


def _shown(value: Fraction) -> str:
    return str(value.numerator) if value.denominator == 1 else f"{float(value):.6f}".rstrip("0")
