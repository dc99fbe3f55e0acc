"""The rows and the text of `handref match`."""
from typing import TYPE_CHECKING, Iterator, Optional

from handref import tables, texts
from handref.matches.sums import Sum
from handref.results import Rows

if TYPE_CHECKING:
    from handref.matches.match import Log, Match

COLUMNS = ("kind", "file", "name", "against", "seat", "hands", "left_out", "pairs", "net",
           "mbb_per_game", "interval", "said")
_MOST_ACROSS = 12  # agents of a cross table to be read
_HEAD = f"{'mbb/g':>12}{'95 %':>14}{'net':>16}{'hands':>10}"


def put_log(rows: Rows, log: "Log") -> None:
    """Writes the row of a log, and a row for each SCORE line that is wrong."""
    left_out = f", {log.left_out} left out" if log.left_out else ""
    said, why = of_scores(log)
    rows.put(_row("log", file=log.name, hands=log.hands, left_out=log.left_out, said=said),
             f"{log.shown}: {texts.counted(log.hands, 'hand')}{left_out}, {why}\n")
    for stated, due in log.wrong:
        for name in sorted({*(stated or {}), *due}):
            own = (stated or {}).get(name)
            if own is None or own != due.get(name):
                rows.put(_row("score", file=log.name, name=name, net=due.get(name),
                              said=None if own is None else str(own)))


def of_scores(log: "Log") -> tuple[str, str]:
    """What is said of the SCORE lines of a log: in a word, and in a sentence."""
    if log.wrong:
        stated, due = log.wrong[0]
        known = ", ".join(f"{tables.escaped(name)} {value:f}" for name, value in
                          (stated or {}).items()) or "nothing that reads"
        played = ", ".join(f"{tables.escaped(name)} {value}" for name, value in due.items())
        return "differs", f"SCORE says {known}; due {played or 'no hands'}"
    if not log.scores:
        return "none", "no SCORE line"
    if log.compared < log.scores:
        return "not compared", "SCORE not compared, as hands are left out"
    return "agrees", "SCORE agrees" if log.scores == 1 else f"{log.scores} SCORE lines agree"


def put(rows: Rows, match: "Match") -> None:
    """Writes what each agent won: all in all, by seat, in pairs, and against whom."""
    if not match.agents:
        return
    rows.head(f"{_HEAD}  seat  name\n")
    for name in match.agents:
        _put_sum(rows, match, "agent", match.of_agent(name), name)
    for name in match.agents:
        for seat in range(1, 1 + max(map(len, match.seatings))):
            own = match.of_agent(name, seat)
            if own.count:
                _put_sum(rows, match, "seat", own, name, seat=seat)
    is_tournament = len({tuple(sorted(names)) for names in match.seatings}) > 1
    if match.is_duplicate:
        _put_pairs(rows, match, is_tournament)
    if is_tournament:
        _put_against(rows, match)


def _put_sum(rows: Rows, match: "Match", kind: str, own: Sum, name: str, against: str = "",
             seat: Optional[int] = None, text: Optional[str] = None) -> None:
    mean, interval = own.mean(match.blind), own.interval(match.blind)
    row = _row(kind, name=name, against=against or None, seat=seat, hands=own.count * own.parts,
               pairs=own.count if kind == "pairs" else None, net=own.total,
               mbb_per_game=round(mean, 3), interval=None if interval is None else
               round(interval, 3))
    rows.put(row, f"{mean:>12.1f}{_sided(interval):>14}{own.total:>16}{own.count:>10}"
                  f"{seat or 'all':>6}  {tables.escaped(name)}\n" if text is None else text)


def _sided(interval: Optional[float]) -> str:
    return "" if interval is None else f"± {interval:.1f}"


def _put_pairs(rows: Rows, match: "Match", is_tournament: bool) -> None:
    """Writes what agents won in the pairs of duplicate matches, and which hands are in no pair."""
    count = sum(running.sums[0].count for running in match.paired.values())
    hands = sum(running.sums[0].count * running.parts for running in match.paired.values())
    rows.head(f"\nduplicate: {texts.counted(count, 'pair')} of {texts.counted(hands, 'hand')}\n")
    unpaired = match.hands.unpaired
    for (file, why), number in sorted(unpaired.counts.items()):
        log = match.logs[file]
        rows.put(_row("unpaired", file=log.name, hands=number, said=why),
                 f"not paired: {texts.counted(number, 'hand')} of {log.shown}: {why} (first: hand "
                 f"{unpaired.first[file, why]})\n")
    if count:
        rows.head(f"{_HEAD.replace('hands', 'pairs')}  seat  name\n")
    for name in match.agents:
        own = match.of_pairs(name)
        if own.count:
            _put_sum(rows, match, "pairs", own, name)
        for others in match.others(name) if is_tournament else ():
            own = match.of_pairs(name, others)
            if own.count:
                _put_sum(rows, match, "pairs", own, name, listed(others), text="")


def _put_against(rows: Rows, match: "Match") -> None:
    """Writes what agents won against whom: as a cross table, if there are always two."""
    is_crossed = all(len(names) == 2 for names in match.seatings) and \
        len(match.agents) <= _MOST_ACROSS
    rows.head("\n" + ("".join(crossed(match)) if is_crossed else f"{_HEAD}  name, against\n"))
    for name in match.agents:
        for others in match.others(name):
            own = match.of_agent(name, others=others)
            text = f"{own.mean(match.blind):>12.1f}{_sided(own.interval(match.blind)):>14}" \
                f"{own.total:>16}{own.count:>10}  {tables.escaped(f'{name}, {listed(others)}')}\n"
            _put_sum(rows, match, "against", own, name, listed(others),
                     text="" if is_crossed else text)


def listed(names: "tuple[str, ...]") -> str:
    """Names one after the other."""
    return ", ".join(names)


def cell(match: "Match", name: str, other: str) -> Optional[Sum]:
    """What a name won against another: in pairs, if the match is a duplicate one."""
    own = match.of_pairs(name, (other,)) if match.is_duplicate else \
        match.of_agent(name, others=(other,))
    return own if own.count else None


def crossed(match: "Match") -> Iterator[str]:
    """The lines of a cross table: mbb/g of the name of the row against that of the column."""
    shown = [texts.short(tables.escaped(name), 18) for name in match.agents]
    yield f"{'mbb/g against':<20}" + "".join(f"{name:>20}" for name in shown) + "\n"
    for place, name in enumerate(match.agents):
        cells = []
        for other in match.agents:
            own = cell(match, name, other)
            cells.append("-" if own is None else f"{own.mean(match.blind):.1f} "
                         + _sided(own.interval(match.blind)))
        yield f"{shown[place]:<20}" + "".join(f"{text.rstrip():>20}" for text in cells) + "\n"


def _row(kind: str, **more: tables.Value) -> "dict[str, tables.Value]":
    return {**dict.fromkeys(COLUMNS), "kind": kind, **more}
