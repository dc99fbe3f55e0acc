"""What the program says of the hands of a page: their replays, notes, moves, equities, sums."""
import json
import os
import re
from concurrent.futures import ThreadPoolExecutor
from dataclasses import dataclass, field
from typing import Any, Callable, Iterable, Optional, Sequence, TypeVar, Union

import handref
from handref import Game, HandrefError, UnclearOutput, toml
from handref.formats import OHH_NOTES
from handref.single_hands import together
from handref.texts import shown
from handref.places import seats_of
from handref.sources import Source

MOST_ASKED = 50  # hands that are shown with their legal moves and equity, where none are chosen
MOST_CHOSEN = 500  # and of chosen ones


@dataclass
class File:
    """A file of the page: what it is called, how it is read, and its hands, or where they are."""
    name: str
    notation: handref.Notation
    game: Game
    source: Union[bytes, Source]


@dataclass
class Hand:
    """A hand of the page: its verdict, a file of its own, and what the program says of it."""
    number: int  # in its file; on a page of several files among all hands
    refused: Optional[HandrefError]
    data: bytes  # a file of it, or of more hands where the file was not cut
    file: File
    place: int = 1  # its number in `data`
    own: int = 0  # its number in its file
    summary: dict[str, Any] = field(default_factory=dict)  # for the script: see page_hand.js
    text: str = ""  # the source's words of what is refused
    seat: Optional[int] = None  # that they name
    facts: list[str] = field(default_factory=list)  # what is wrong, in numbers and cards
    net: list[tuple[str, int]] = field(default_factory=list)
    names: list[str] = field(default_factory=list)


@dataclass
class Page:
    """The hands of files that are shown, and how many there are."""
    files: Sequence[File]
    hands: list[Hand] = field(default_factory=list)
    legal: int = 0
    refused: int = 0
    left: int = 0  # hands after the last that was read
    sessions: list[Optional[handref.Session]] = field(default_factory=list)  # of each piece
    not_shown: list[str] = field(default_factory=list)  # files of which no hand is shown, and why


Item = TypeVar("Item")
Answer = TypeVar("Answer")


def at_once(call: Callable[[Item], Answer], items: Iterable[Item]) -> list[Answer]:
    """What a call gives for each item, several at a time. After a fault or an interrupt no other
    one is begun."""
    several = ThreadPoolExecutor(os.cpu_count())
    try:
        return list(several.map(call, items))
    finally:
        several.shutdown(cancel_futures=True)


def _words(file: File) -> list[str]:
    """The words of a call that say how a file is read."""
    return ["--from", file.notation, *(["--game", os.fspath(file.game)] if file.game else [])]


def replay(file: File, rows: list[Hand], data: bytes) -> None:
    """What `replay` says of these hands, which are those of the data, and the notes of them."""
    if not rows:
        return
    words = _words(file)
    are_legal = not any(row.refused for row in rows)
    text = handref.run(["replay", *words, *["--each"] * (not are_legal)], data).decode()
    hands = handref._replays(text)
    if file.notation == "acpc":
        notes = _notes_of_log(data)
    elif are_legal:
        notes = _notes(handref.run(["convert", *words, "--to", "phh"], data).decode(), len(rows))
    else:
        notes = _notes_of_each(file, rows, words)
    if len(hands) != len(rows) or len(notes) != len(rows) or not text.endswith("\n"):
        raise UnclearOutput(0, "the output of replay or convert is cut", file=file.name)
    for row, replayed, note in zip(rows, hands, notes):
        row.summary = _summary(replayed)
        if ("f" in row.summary) == bool(row.refused and row.refused.reason != "stated"):
            raise UnclearOutput(0, "the output of replay is not that of judge", file=file.name)
        seats = len(row.summary["s"])
        row.names = [name or f"p{seat}" for seat, name in
                     enumerate(note.get("players") or [""] * seats, 1)]
        if any(note.get("antes", ())):
            row.summary["a"] = note["antes"]
        row.summary["b"] = int(row.summary["g"] not in ("F7S", "F7S/8", "FR"))
        row.summary["m"] = _moment(note)
        if not row.refused:
            row.net = [(name, end - start) for name, end, start in
                       zip(row.names, row.summary["f"], row.summary["s"])]


def _numbers(text: str) -> list[int]:
    return [int(word) for word in text.split()]


def _summary(text: str) -> dict[str, Any]:
    """A hand of `replay` in short: what each event adds is read back from its chips. UnclearOutput:
    the chips of an event are not those of one seat that moves."""
    lines = text.split("\n")
    head, first = lines[0].split(" "), lines[1].split(" | ")
    stacks, put = first[1].partition(" ")[2], first[2].partition(" ")[2]
    start = [left + paid for left, paid in zip(_numbers(stacks), _numbers(put))]
    summary: dict[str, Any] = {"g": head[1], "s": start, "i": _numbers(put)}
    events: list[str] = []
    returned: dict[int, int] = {}
    pots: list[list[Any]] = []
    for line in lines[2:]:
        if line[:1].isdigit():
            said, left, paid = line.split(" | ")
            event, _, words = said.partition(" ")
            left, paid = left[7:], paid[3:]
            if left != stacks or paid != put:
                words += f"+{_added(words, _numbers(put), _numbers(paid), _numbers(left), start)}"
                stacks, put = left, paid
            events.append(words)
            if event != str(len(events)):
                raise UnclearOutput(0, "the output of replay has other numbers of events")
        elif line.startswith("return "):
            _, seat, chips = line.split(" ")
            returned[int(seat[1:])] = int(chips)
        elif line.startswith("pot "):
            shares = {int(seat): int(chips) for seat, chips in re.findall(r"p(\d+) (\d+)", line)}
            rake = re.search(r"rake (\d+)$", line)
            pots.append([int(line.split(" ")[2][:-1]), shares, int(rake[1]) if rake else 0])
        elif line.startswith("finish "):
            summary.update(r=returned, t=pots, f=_numbers(line[7:]))
    summary["e"] = ";".join(events)
    return summary


def _added(words: str, before_it: list[int], put: list[int], left: list[int],
           start: list[int]) -> int:
    changed = [(seat, now - was) for seat, (was, now) in enumerate(zip(before_it, put), 1)
               if was != now]
    if len(changed) != 1 or not words.startswith(f"p{changed[0][0]} ") or [
            chips + paid for chips, paid in zip(left, put)] != start:
        raise UnclearOutput(0, f"the chips of an event are unclear: {words}")
    return changed[0][1]


def _notes_of_log(data: bytes) -> list[dict[str, Any]]:
    found = []
    for line in data.decode().split("\n"):
        if line.startswith("STATE:"):
            fields = line.rstrip("\r").split(":")
            found.append({"hand": fields[1], "players": fields[5].split("|")})
    return found


def _notes_of_each(file: File, rows: list[Hand], words: list[str]) -> list[dict[str, Any]]:
    """The notes of hands of which some are refused: `convert` gives those of the legal ones."""
    if any(row.place > 1 for row in rows):
        return [{} for _ in rows]  # Python does not read the file
    legal = [row.data for row in rows if not row.refused]
    notes = iter(_notes(handref.run(["convert", *words, "--to", "phh"], together(
        legal, file.notation)).decode(), len(legal)) if legal else [])
    own = _note_of_phh if file.notation == "phh" else _note_of_ohh
    return [own(row.data) if row.refused else next(notes, {}) for row in rows]


def _note_of_phh(data: bytes) -> dict[str, Any]:
    try:
        return toml.read(data.decode("utf-8-sig"))
    except ValueError:
        return {}


def _note_of_ohh(data: bytes) -> dict[str, Any]:
    """What a hand of OHH says in the words of PHH."""
    try:
        hand = json.loads(data)["ohh"]
        seats = seats_of(hand)
        names = {player["id"]: player.get("name") or "" for player in hand["players"]}
        antes = [0] * len(seats)
        for said in hand["rounds"][0]["actions"]:
            if said["action"] == "Post Ante":
                antes[seats.index(said["player_id"])] = int(said["amount"])
        found = {key: hand[OHH_NOTES[key]] for key in ("hand", "table", "venue", "currency")
                 if hand.get(OHH_NOTES[key])}
        moment = re.match(r"(\d+)-(\d+)-(\d+)[T ]([\d:.]+)", str(hand.get("start_date_utc")))
        for key, part in zip(("year", "month", "day"), moment.groups() if moment else ()):
            found[key] = int(part)
        if moment:
            found.update(time=moment[4], time_zone="UTC")
        return {**found, "players": [names[seat] for seat in seats], "antes": antes}
    except (ValueError, LookupError, TypeError, AttributeError):
        return {}


def _notes(text: str, count: int) -> list[dict[str, Any]]:
    """The notes and the antes of the hands of a document that `convert` has written."""
    parts = ["", "1", text]
    if text.startswith("["):
        parts = re.split(r"^\[([0-9]+)\]\n", text, flags=re.M)
    blocks = {int(number): block for number, block in zip(parts[1::2], parts[2::2])}
    if len(parts) != 2 * count + 1 or set(blocks) != set(range(1, count + 1)):
        whole = toml.read(text)  # a note with a line end has such a line
        return [whole[key] for key in sorted(whole, key=int)] if "1" in whole else [whole]
    return [_note(blocks[number]) for number in range(1, count + 1)]


_NOTE = re.compile(r"^(players|antes|hand|table|venue|currency|year|month|day|time|time_zone) = "
                   r"(.*)$", re.M)


def _note(block: str) -> dict[str, Any]:
    found: dict[str, Any] = {}
    if "'''" not in block and '"""' not in block:
        try:
            for key, value in _NOTE.findall(block):
                found[key] = value if key == "time" else json.loads(value)
            return found
        except ValueError:
            pass  # a text is written in another way than JSON does
    return toml.read(block)


def _moment(note: dict[str, Any]) -> str:
    """What is known of a hand besides its names: its own number, its table, its day."""
    day = "-".join(f"{note[key]:02}" for key in ("year", "month", "day") if key in note)
    parts = [f"{key} {note[key]}" for key in ("hand", "table") if key in note]
    parts += [str(note[key]) for key in ("venue", "currency") if key in note]
    parts.append(" ".join([day] * bool(day) + [str(note[key]) for key in ("time", "time_zone")
                                             if key in note]))
    return " · ".join(shown(text) for text in parts if text)


def session(file: File, hands: Sequence[Hand], legal: bytes) -> Optional[handref.Session]:
    """What `session` says of the legal hands, and None where names make it unclear."""
    try:
        session = handref.session(legal, file.notation, file.game)
    except UnclearOutput:
        return None
    nets: dict[str, int] = {}
    for hand in hands:
        for name, net in hand.net:
            nets[name] = nets.get(name, 0) + net
    if {row.name: row.net for row in session.rows} != nets:
        raise UnclearOutput(0, "the net chips of session and replay differ", file=file.name)
    return session


def ask_moves(made: Page, is_chosen: bool) -> None:
    """Asks for the legal moves and the equity of each street, where hands are few or chosen."""
    some = [hand for hand in made.hands if hand.summary and hand.summary["e"].count(";") < 400]
    if len(some) > MOST_ASKED and not is_chosen:
        some = [hand for hand in some if hand.refused]
    some = some[:MOST_CHOSEN if is_chosen else MOST_ASKED]
    asked: list[tuple[Hand, str, int]] = []
    for hand in some:
        events = hand.summary["e"].split(";") if hand.summary["e"] else []
        asked.append((hand, "options", 0))
        board, street = 0, {3: 2, 4: 3, 5: 4}
        for words in events if not hand.refused else []:
            if words.startswith("d db "):
                board += len(words[5:]) // 2
                asked += [(hand, "equity", street[board])] if board in street else []
    answers = at_once(lambda row: _answer(row[0], row[1], row[2]), asked)
    for (hand, command, place), answer in zip(asked, answers):
        if command == "options":
            hand.summary["o"] = answer
        else:
            hand.summary.setdefault("q", {})[place] = answer


def _options(hand: Hand) -> dict[int, str]:
    """What `options` says of a hand at each move, and at its last point."""
    words = ["options", *_words(hand.file), f"--hand={hand.place}"]
    points, _ = handref._points(handref.run(words, hand.data).decode())
    events = hand.summary["e"].split(";") if hand.summary["e"] else []
    if len(points) != len(events) + 1:
        raise UnclearOutput(0, "the output of options is cut", file=hand.file.name)
    return {place: text.partition(": ")[2].replace("\n", ";")[:-1]
            for place, (text, words) in enumerate(zip(points, [*events, ""]))
            if not words or re.match(r"p\d+ (f|cc|cbr|pb)", words)}


def _answer(hand: Hand, command: str, place: int) -> Union[str, dict[Any, Any]]:
    if command == "options":
        return _options(hand)
    try:
        equity = handref.equity(hand.data, hand.file.notation, hand.place, place, hand.file.game)
    except HandrefError as error:
        if error.status != 13:
            raise
        return f"the cards of {error.place} are not all known" if error.place else error.line
    answer: dict[str, Any] = {"t": equity.total, "w": equity.high}
    if equity.low:
        answer.update(n=equity.low_none, l=equity.low)
    return answer
