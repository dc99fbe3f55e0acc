"""What is done with the hands of a file, in processes of their own: reading, and writing."""
import os
import pickle
from dataclasses import dataclass, field
from typing import Callable, Iterator, Optional, Sequence

from handref import faults, phhs
from handref.importing import amounts, finishing, games, logs, ohh, phh, sites
from handref.importing.record import Hand, LeftOut, Written
from handref.importing.rules import Rules
from handref.importing.wild import Wild

PIECE = 1 << 20  # bytes of a piece, which is within the limits of an input
MOST = 5000  # hands of a piece


@dataclass(frozen=True)
class Call:
    """How files are read: which rules are on, and by what amounts are multiplied, if it is given."""
    rules: Rules = field(default_factory=Rules)
    times: Optional[int] = None
    game: Optional[str] = None
    dialect: Optional[str] = None


@dataclass
class Piece:
    """Some hands of a file: their numbers, lines and places."""
    wild: Wild
    hands: list[tuple[int, int, int, int]]  # number, line, start, end


@dataclass
class Read:
    """The hands of a piece that were read; of a long file they are kept in a file."""
    hands: list[Hand]
    kept: str = ""

    def needs(self) -> list[tuple[bool, int]]:
        """What the amounts of the hands need."""
        return [(hand.is_money, hand.parts) for hand in self.hands if not hand.cause]


@dataclass
class Done:
    """What came of a file: its units, its hands as they are written, lines about it, how many
    stated results of it are wrong that no hand states, its site, and files beside it."""
    units: amounts.Units = field(default_factory=amounts.Units)
    written: list[Written] = field(default_factory=list)
    said: list[str] = field(default_factory=list)
    wrong: int = 0
    site: str = ""
    beside: dict[str, bytes] = field(default_factory=dict)


def blocks(wild: Wild, data: phhs.Bytes, call: Call) -> Iterator[tuple[int, int, int]]:
    """The hands of a file: number, begin and end."""
    if wild.kind in ("ohh", "ohh-to"):
        return ohh.blocks(data, call.rules)
    if wild.kind == "log":
        return logs.blocks(data)
    if wild.kind == "text":
        return sites.blocks(data)
    return phh.blocks(data)


def pieces(wild: Wild, call: Call) -> Iterator[Piece]:
    """A file in pieces. LeftOut: it cannot be cut at its hands."""
    if not os.path.getsize(wild.path):
        return
    with open(wild.path, "rb") as file, phhs.own_map(file) as data:
        found: list[tuple[int, int, int, int]] = []
        size, line, place = 0, 1, 0
        for number, start, end in blocks(wild, data, call):
            if found and (size + end - start > PIECE or len(found) == MOST):
                yield Piece(wild, found)
                found, size = [], 0
            # Hands of PHH come in the order of their numbers, which may not be that of the file.
            line = line + data[place:start].count(b"\n") if start >= place else \
                1 + data[:start].count(b"\n")
            place = start
            found.append((number, line, start, end))
            size += end - start
        if found:
            yield Piece(wild, found)


def reader_of(wild: Wild) -> Callable[[Hand, bytes, Rules], None]:
    """What reads the hands of a file."""
    if wild.kind == "log":
        game = games.read(wild.game)
        return lambda hand, data, rules: logs.read(hand, data, rules, game)
    if wild.kind == "text":
        return sites.read
    return ohh.read if wild.kind in ("ohh", "ohh-to") else phh.read


def read(piece: Piece, call: Call) -> Read:
    """Reads the hands of a piece."""
    found = []
    reader = reader_of(piece.wild)
    with open(piece.wild.path, "rb") as file:
        for number, line, start, end in piece.hands:
            file.seek(start)
            hand = Hand(number, line, start, end)
            try:
                reader(hand, file.read(end - start), call.rules)
            except LeftOut as why:
                hand.leave_out(why)
            except (ArithmeticError, AttributeError, LookupError, TypeError, ValueError) as why:
                hand.leave_out(LeftOut(faults.bug(why)))  # it ends its hand, and not the others
            found.append(hand)
    return Read(found)


def write(piece: Read, wild: Wild, units: amounts.Units, call: Call) -> list[Written]:
    """Writes the hands of a piece."""
    if wild.kind in ("ohh", "ohh-to"):
        found = ohh.finish(piece.hands, units, call.rules, dialect_of(wild, call))
    elif wild.kind == "log":
        found = logs.finish(piece.hands, units, call.rules, games.read(wild.game))
    elif wild.kind == "text":
        found = sites.finish(piece.hands, units, call.rules)
    else:
        found = finishing.finish(piece.hands, units, call.rules)
    for written in found:
        written.hand.value = None  # it is not needed any more, and may be large
        if written.to:
            written.to.hand.value = None
    return found


def dialect_of(wild: Wild, call: Call) -> Optional[str]:
    """The dialect of a file of OHH, where the call or the end of its name says it."""
    if call.dialect or wild.kind == "ohh-to":
        return call.dialect or wild.kind
    return None if call.rules.has("dialect") else "ohh"


# Of a long file the hands that were read wait in a file until the unit is known.

def read_to(piece: Piece, call: Call, path: str) -> Read:
    """Reads a piece, and keeps its hands in a file. What it needs is in the answer."""
    found = read(piece, call)
    with open(path, "wb") as file:
        pickle.dump(found, file, pickle.HIGHEST_PROTOCOL)
    for hand in found.hands:
        hand.value, hand.changes = None, []
    return Read(found.hands, path)


def write_from(path: str, wild: Wild, units: amounts.Units, call: Call) -> list[Written]:
    """Writes the hands that were kept in a file."""
    with open(path, "rb") as file:
        found: Read = pickle.load(file)
    os.remove(path)
    return write(found, wild, units, call)


def whole(wild: Wild, call: Call) -> Done:
    """All that is done with a short file."""
    found = [read(piece, call) for piece in pieces(wild, call)]
    units = amounts.units(need_of(found), call.times, wild.kind == "log")
    return ended(wild, units, [each for piece in found for each in write(piece, wild, units, call)],
                 call)


def need_of(found: Sequence[Read]) -> list[tuple[bool, int]]:
    """What the amounts of a file need."""
    return [need for piece in found for need in piece.needs()]


def ended(wild: Wild, units: amounts.Units, written: list[Written], call: Call) -> Done:
    """What is said of a file when all its hands are written."""
    done = Done(units, written)
    done.site = ", ".join(dict.fromkeys(each.hand.site for each in written if each.hand.site))
    if wild.kind in ("ohh", "ohh-to") and written:
        said = ohh.decide(written, dialect_of(wild, call))
        with open(wild.path, "rb") as file, phhs.own_map(file) as data:
            done.said += ohh.said_of(data, [each.hand for each in written], call.rules) + said
    if wild.kind == "log" and written:
        _end_log(done, wild, call)
    done.said += amounts_said(units, written)
    return done


def _end_log(done: Done, wild: Wild, call: Call) -> None:
    """The game file of a log, and what is wrong with its SCORE lines."""
    game = games.read(wild.game)
    is_exchanged = call.rules.has("seats-exchanged") and game.exchanges_seats()
    done.beside[".game"] = game.text(done.units.chips, is_exchanged)
    if wild.game_said:
        done.said.append(f"its game is {os.path.basename(wild.game)}, {wild.game_said}")
    if game.is_changed:
        done.said.append("its game file without comments, and without spaces around lines")
    logs.name_players(done.written)
    if call.rules.has("score"):
        wrong = logs.scores(done.written)
        done.said += wrong
        done.wrong = len(wrong)


def amounts_said(units: amounts.Units, written: Sequence[Written]) -> list[str]:
    """What is said of the units of a file."""
    hands = [each.hand for each in written if each.hand.number and not each.hand.cause]
    times = {units.of(hand) for hand in hands}
    if times == {1}:
        point = next((hand.point for hand in hands if hand.point), "")
        return [amounts.said_unit(1, point)] if point else []
    if len(times) == 2:
        return [f"{amounts.said_unit(units.money)}; chips"
                + (f" times {units.chips}" if units.chips > 1 else " as they are")]
    return [amounts.said_unit(each) for each in times]
