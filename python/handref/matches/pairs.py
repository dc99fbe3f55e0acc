"""The hands of duplicate matches: of each number two or more logs have a hand with the same cards,
and each agent has each seat.

A pair is two hands of two players: their numbers, hole cards and boards are equal (a board as far
as both go) and the seats are exchanged. With more players it is all hands with these cards, in
which each agent sits in each seat equally often. All hands are in a table on disk, so that memory
does not grow with them.
"""
import sqlite3
from collections import Counter
from dataclasses import dataclass, field
from itertools import groupby
from operator import itemgetter
from typing import Iterator, Sequence

from handref.matches.played import Played

ALONE = "no other hand has its number"
CARDS = "the other hand has other cards"
SEATS = "the seats are not exchanged"
TWICE = "the same seats had these cards before"
UNKNOWN = "a hole card is not known"


@dataclass
class Pair:
    """Hands that belong together: the agents, and the sum of the net chips of each."""
    names: tuple[str, ...]
    hands: int
    values: dict[str, int]


@dataclass
class Unpaired:
    """Hands that belong to no pair, by file and why: how many, and which is the first."""
    counts: Counter[tuple[int, str]] = field(default_factory=Counter)
    first: dict[tuple[int, str], int] = field(default_factory=dict)

    def put(self, why: str, file: int, hand: int) -> None:
        """Notes a hand."""
        self.counts[file, why] += 1
        self.first[file, why] = min(hand, self.first.get((file, why), hand))


# A hand as a row: its agents, number, hole cards, board, file, place there, seats and net chips.
Row = tuple[int, int, str, str, int, int, str, str]


class Hands:
    """All hands, until they are put into pairs."""

    def __init__(self) -> None:
        self.rows = sqlite3.connect("")  # a file that goes away, and is in memory while it is small
        self.rows.execute("pragma cache_size = -32000")
        self.rows.execute("pragma journal_mode = off")  # nothing of it is ever taken back
        self.rows.execute("create table hands (agents integer, number integer, holes text, board "
                          "text, file integer, hand integer, names text, nets text)")
        self.agents: dict[tuple[str, ...], int] = {}
        self.kept: list[Row] = []
        self.unpaired = Unpaired()

    def put(self, hand: Played, file: int, place: int) -> None:
        """Keeps a hand."""
        if not all(hand.holes.split("|")) or hand.holes.count("|") + 1 < len(hand.names):
            self.unpaired.put(UNKNOWN, file, place)
            return
        own = tuple(sorted(hand.names))
        agents = self.agents.setdefault(own, len(self.agents))
        self.kept.append((agents, hand.number, hand.holes, hand.board, file, place,
                          " ".join(str(own.index(name)) for name in hand.names),
                          " ".join(map(str, hand.values))))
        if len(self.kept) > 5000:
            self._store()

    def _store(self) -> None:
        self.rows.executemany("insert into hands values (?, ?, ?, ?, ?, ?, ?, ?)", self.kept)
        self.kept = []

    def pairs(self) -> Iterator[Pair]:
        """All pairs, in the order of agents and numbers. Other hands are noted as unpaired."""
        self._store()
        all_agents = list(self.agents)
        found = self.rows.execute("select * from hands order by agents, number, holes, file, hand")
        for (agents, _), numbered in groupby(found, itemgetter(0, 1)):
            rows = list(numbered)
            for _, equal in groupby(rows, itemgetter(2)):
                yield from self._of(list(equal), all_agents[agents], len(rows))

    def _of(self, equal: Sequence[Row], names: tuple[str, ...], numbered: int) -> Iterator[Pair]:
        """The pair of hands with the same agents, number and hole cards, if they are one."""
        own: dict[str, Row] = {}
        for row in equal:
            if row[6] in own:
                self.unpaired.put(TWICE, row[4], row[5])
            else:
                own[row[6]] = row
        rows = list(own.values())
        if len(set(names)) == len(names) and len(rows) >= len(names) and _same_board(rows) and \
                _exchanged(list(own)):
            values: Counter[str] = Counter()
            for row in rows:
                for name, net in zip(row[6].split(), row[7].split()):
                    values[names[int(name)]] += int(net)
            yield Pair(names, len(rows), dict(values))
            return
        why = SEATS if len(rows) > 1 and _same_board(rows) else ALONE if numbered == 1 else \
            SEATS if len(equal) == numbered and len(rows) == 1 else CARDS
        for row in rows:
            self.unpaired.put(why, row[4], row[5])


def _same_board(rows: Sequence[Row]) -> bool:
    """Whether the boards are equal, as far as each goes."""
    longest = max((row[3] for row in rows), key=len)
    return all(longest.startswith(row[3]) for row in rows)


def _exchanged(seats: Sequence[str]) -> bool:
    """Whether each agent has each seat equally often."""
    taken = Counter((seat, name) for own in seats for seat, name in enumerate(own.split()))
    players = len(seats[0].split())
    return len(taken) == players ** 2 and len(set(taken.values())) == 1
