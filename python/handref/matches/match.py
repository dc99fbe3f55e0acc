"""Adds up the hands of logs: `handref match`."""
from collections import Counter
from dataclasses import dataclass, field
from decimal import Decimal
from typing import Optional

import handref
from handref import texts
from handref.importing import games
from handref.importing.record import LeftOut
from handref.matches import pairs, played, table
from handref.matches.sums import Running, Sum
from handref.results import Done, Rows

Names = tuple[str, ...]


@dataclass
class Log:
    """What came of a log: its hands, those that are left out, its SCORE lines, and for each of
    them that is wrong what it says and what the hands come to."""
    name: str
    shown: str
    hands: int = 0
    left_out: int = 0
    scores: int = 0
    compared: int = 0
    wrong: list[tuple[Optional[dict[str, Decimal]], dict[str, int]]] = field(default_factory=list)


@dataclass
class Match:
    """Takes the hands of logs file by file, and says at the end what came of them."""
    game: handref.Game = None
    is_duplicate: bool = False
    is_drawn: bool = False  # lines are kept for a chart
    blind: int = 0
    logs: list[Log] = field(default_factory=list)
    seatings: dict[Names, list[Sum]] = field(default_factory=dict)  # names by seat: what each won
    running: dict[Names, Running] = field(default_factory=dict)  # of the same agents
    paired: dict[tuple[Names, int], Running] = field(default_factory=dict)  # and hands of a pair
    hands: pairs.Hands = field(default_factory=pairs.Hands)
    columns = table.COLUMNS

    @property
    def is_wrong(self) -> bool:
        """Whether a SCORE line says something else than the hands."""
        return any(log.wrong for log in self.logs)

    @property
    def agents(self) -> list[str]:
        """All names, in their order."""
        return sorted({name for names in self.seatings for name in names})

    def put(self, rows: Rows, done: Done) -> None:
        """Adds the hands of a file. ValueError: its big blind is another one than before."""
        log = Log(done.source.name or done.source.path, done.source.shown)
        self._take_blind(done)
        self.logs.append(log)
        since: Counter[str] = Counter()
        is_whole = True
        for part in done.parts:
            with open(part.path, "rb") as file:
                for said in played.read(file.read()):
                    if said is None:
                        log.left_out += 1
                        is_whole = False
                    elif isinstance(said, played.Score):
                        self._compare(log, said, since, is_whole)
                        since, is_whole = Counter(), True
                    else:
                        log.hands += 1
                        since.update(dict(zip(said.names, said.values)))
                        self._add(said, log.hands + log.left_out)
        table.put_log(rows, log)

    def _take_blind(self, done: Done) -> None:
        path = str(self.game or done.source.game)
        try:
            blind = max(map(int, games.read(path).numbers.get("blind", ["0"])))
        except (LeftOut, ValueError) as why:
            raise ValueError(f"{texts.shown(path)}: its big blind does not read") from why
        if self.blind and blind != self.blind:
            raise ValueError(f"{done.source.shown}: the big blind is {blind}, and {self.blind} in "
                             "the logs before it: they are no one match")
        self.blind = blind

    def _add(self, hand: played.Played, place: int) -> None:
        """Adds a hand, which is at this place of the file that was put last."""
        own = self.seatings.get(hand.names)
        if own is None:
            own = self.seatings[hand.names] = [Sum() for _ in hand.names]
        for each, value in zip(own, hand.values):
            each.put(value)
        if self.is_drawn:
            names = tuple(sorted(set(hand.names)))
            running = self.running.setdefault(names, Running(names))
            running.put([sum(value for name, value in zip(hand.names, hand.values) if name == one)
                         for one in names])
        if self.is_duplicate:
            self.hands.put(hand, len(self.logs) - 1, place)

    def _compare(self, log: Log, score: played.Score, since: "Counter[str]", is_whole: bool) -> None:
        """Compares a SCORE line with the hands since the one before it."""
        log.scores += 1
        if not is_whole:
            return
        log.compared += 1
        if score.said is None or score.said != {
                name: Decimal(net) for name, net in since.items()}:
            log.wrong.append((score.said, dict(since)))

    def finish(self, rows: Rows) -> None:
        """Writes the tables."""
        if self.is_duplicate:
            for pair in self.hands.pairs():
                running = self.paired.setdefault((pair.names, pair.hands),
                                                 Running(pair.names, pair.hands))
                running.put([pair.values[name] for name in pair.names])
        table.put(rows, self)

    # What the tables show.

    def of_agent(self, name: str, seat: Optional[int] = None,
                 others: Optional[Names] = None) -> Sum:
        """What a name won: at a seat, against these others, or all in all."""
        found = Sum()
        for names, sums in self.seatings.items():
            for place, own in enumerate(names):
                if own == name and (seat is None or place == seat - 1) and (
                        others is None or others == without(names, name)):
                    found.add(sums[place])
        return found

    def others(self, name: str) -> list[Names]:
        """Against whom a name has played: each set of others."""
        return sorted({without(names, name) for names in self.seatings if name in names})

    def of_pairs(self, name: str, others: Optional[Names] = None) -> Sum:
        """What a name won in pairs: against these others, or all in all. Pairs of another number of
        hands are not added, but the most frequent ones are taken."""
        found: dict[int, Sum] = {}
        for (names, hands), running in self.paired.items():
            if name in names and (others is None or others == without(names, name)):
                found.setdefault(hands, Sum(parts=hands)).add(running.sums[names.index(name)])
        return max(found.values(), key=lambda own: own.count, default=Sum())


def without(names: Names, name: str) -> Names:
    """The other names, in their order."""
    others = list(names)
    others.remove(name)
    return tuple(sorted(others))
