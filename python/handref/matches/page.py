"""The page of a match: tables, and how the chips of the agents went, with the band in which the
true difference is with 95 %."""
import hashlib
import html
from dataclasses import replace
from importlib import resources
from typing import Callable, Iterator, Optional, Sequence

from handref import colours
from handref.event_words import spaced
from handref.matches.match import Log, Match
from handref.matches.sums import Point, Running, Sum
from handref.matches.table import cell, listed, of_scores
from handref.page_chart import apart, rounded, ticks_of
from handref.page_html import MARK, hash_of
from handref.texts import counted, short, shown

_WIDE, _HIGH, _LEFT, _RIGHT, _TOP, _BELOW = 760, 340, 76, 140, 15, 40
_MOST_CHARTS = 66  # those of twelve agents, two by two
_NO_SUM = "0" * 64
_STYLE = """
.chart .band { opacity: .16; stroke: none; }
.wide { overflow-x: auto; }
.wide td.number { white-space: nowrap; }
.chart h3, .chart p { margin-inline-start: .5rem; }
"""


def document(match: Match, title: str) -> str:
    """The whole page, which needs no script and no network."""
    css = resources.files("handref").joinpath("page.css").read_text("utf-8") + colours.styles() \
        + _fills() + _STYLE
    parts = [
        "<!DOCTYPE html>", '<html lang="en">', "<head>", '<meta charset="utf-8">',
        '<meta http-equiv="Content-Security-Policy" content="default-src \'none\'; base-uri '
        f"'none'; form-action 'none'; style-src {hash_of(css)}\">", MARK % _NO_SUM,
        '<meta name="viewport" content="width=device-width, initial-scale=1">',
        f"<title>{_text(title)}</title>", f"<style>{css}</style>", "</head>", "<body>",
        f"<header><h1>{_text(title)}</h1>{_summary(match)}</header>", "<main>",
        *_agents(match), *_pairs(match), *_against(match), *_charts(match), *_logs(match),
        "</main>", "</body>", "</html>", ""]
    text = "\n".join(parts)
    return text.replace(MARK % _NO_SUM, MARK % hashlib.sha256(text.encode()).hexdigest(), 1)


def _fills() -> str:
    light = [f".b{place} {{ fill: {colour}; }}" for place, colour in enumerate(colours.LIGHT)]
    dark = [f"  .b{place} {{ fill: {colour}; }}" for place, colour in enumerate(colours.DARK)]
    return "\n".join([*light, "@media screen and (prefers-color-scheme: dark) {", *dark, "}", ""])


def _text(text: str) -> str:
    return html.escape(shown(text))


def _summary(match: Match) -> str:
    hands = sum(log.hands for log in match.logs)
    return (f"<p>{spaced(hands)} hands of {counted(len(match.logs), 'log')}; the big blind is "
            f"{spaced(match.blind)}. mbb/g are thousandths of it per hand, \u00b1 with 95 % "
            "(Student).</p>")


def _table(heads: Sequence[str], rows: Sequence[Sequence[str]], words: int = 1) -> str:
    """A table whose first columns are words, and the others numbers."""
    number = ' class="number"'
    top = "".join(f'<th scope="col"{number * (place >= words)}>{head}</th>'
                  for place, head in enumerate(heads))
    lines = [f'<tr><th scope="row">{row[0]}</th>' + "".join(
        f"<td{number * (place >= words)}>{each}</td>" for place, each in enumerate(row[1:], 1))
        + "</tr>" for row in rows]
    return (f'<div class="wide"><table class="rows"><thead><tr>{top}</tr></thead><tbody>'
            f'{"".join(lines)}</tbody></table></div>')


def _mean(own: Optional[Sum], blind: int) -> str:
    if own is None or not own.count:
        return ""
    interval = own.interval(blind)
    return f"{own.mean(blind):.1f}".replace("-", "\u2212") + (
        "" if interval is None else f" \u00b1 {interval:.1f}")


def _agents(match: Match) -> Iterator[str]:
    seats = range(1, 1 + max(map(len, match.seatings), default=0))
    ranked = sorted(match.agents, key=lambda name: -match.of_agent(name).total)
    rows = []
    for name in ranked:
        own = match.of_agent(name)
        rows.append([_name(name), _mean(own, match.blind), spaced(own.total), spaced(own.count), *(
            _mean(match.of_agent(name, seat), match.blind) for seat in seats)])
    yield "<h2>Agents</h2>"
    yield _table(["Agent", "mbb/g", "Net chips", "Hands", *(
        f"mbb/g in seat {seat}" for seat in seats)], rows)


def _name(name: str) -> str:
    return f"<bdi>{_text(name)}</bdi>"


def _pairs(match: Match) -> Iterator[str]:
    if not match.is_duplicate:
        return
    yield "<h2>Duplicate pairs</h2>"
    rows = []
    for name in match.agents:
        own = match.of_pairs(name)
        if own.count:
            rows.append([_name(name), _mean(own, match.blind), spaced(own.total),
                         spaced(own.count)])
    if rows:
        yield _table(["Agent", "mbb/g", "Net chips", "Pairs"], rows)
    unpaired = match.hands.unpaired
    yield "".join(f"<p>Not paired: {counted(number, 'hand')} of <bdi>{_text(match.logs[file].name)}"
                  f"</bdi>: {why} (first: hand {unpaired.first[file, why]}).</p>"
                  for (file, why), number in sorted(unpaired.counts.items()))


def _against(match: Match) -> Iterator[str]:
    if len({tuple(sorted(names)) for names in match.seatings}) < 2:
        return
    if all(len(names) == 2 for names in match.seatings):
        yield "<h2>mbb/g of the agent of the row against that of the column</h2>"
        yield _table(["", *map(_name, match.agents)], [
            [_name(name), *(_mean(cell(match, name, other), match.blind)
                            for other in match.agents)] for name in match.agents])
        return
    yield "<h2>Who played against whom</h2>"
    rows = []
    for name in match.agents:
        for others in match.others(name):
            own = match.of_agent(name, others=others)
            rows.append([_name(name), _name(listed(others)), _mean(own, match.blind),
                         spaced(own.total), spaced(own.count)])
    yield _table(["Agent", "Against", "mbb/g", "Net chips", "Hands"], rows, 2)


def _logs(match: Match) -> Iterator[str]:
    yield "<h2>Logs</h2>"
    yield _table(["Log", "SCORE", "Hands", "Left out"], [
        [_name(log.name), _score(log), spaced(log.hands), spaced(log.left_out)]
        for log in match.logs], 2)


def _score(log: Log) -> str:
    bad = ' class="bad"' if log.wrong else ""
    return f"<span{bad}>{_text(of_scores(log)[1])}</span>"


# Charts.

def _charts(match: Match) -> Iterator[str]:
    """A chart of each group of agents that played against one another."""
    lines = list(match.paired.values()) if match.is_duplicate else list(match.running.values())
    unit = "pair" if match.is_duplicate else "hand"
    lines = [each for each in lines if each.sums[0].count > 1]
    if lines:
        yield '<section class="chart"><h2>How it went</h2>'
        for number, running in enumerate(lines[:_MOST_CHARTS]):
            yield from _chart(running, number, unit)
        if len(lines) > _MOST_CHARTS:
            yield f"<p>{len(lines) - _MOST_CHARTS} other charts are left out.</p>"
        yield "</section>"


def _chart(running: Running, number: int, unit: str) -> Iterator[str]:
    """How the chips of agents went. Of two the one is shown that is ahead: the other has lost what
    it has won."""
    lines = running.lines()
    names = sorted(lines, key=lambda name: -lines[name][-1].total)[:len(colours.LIGHT)]
    others = names[1:] if len(lines) == 2 else []
    names = names[:1] if others else names
    last = lines[names[0]][-1]
    if others:
        head = f"{_name(names[0])} against {_name(others[0])}"
        is_sure = abs(last.total) > last.spread
        said = (f"{_name(names[0])} is {spaced(last.total)} chips ahead after {spaced(last.count)} "
                f"{unit}s, \u00b1 {spaced(round(last.spread))}: with 95 % "
                + ("this is no chance." if is_sure else "it may be chance."))
    else:
        head, said = ", ".join(map(_name, names)), ""
    yield f"<h3>{head}</h3>" + (f"<p>{said}</p>" if said else "")
    yield _drawn({name: lines[name] for name in names}, number, unit)


def _drawn(lines: "dict[str, list[Point]]", number: int, unit: str) -> str:
    ends = [line[-1] for line in lines.values()]
    # The band is as wide as it likes where there are few values: there it is cut.
    drawn = [point if point.count > ends[0].count / 20 else replace(point, spread=0.0)
             for line in lines.values() for point in line]
    low = min(0, *(int(point.total - point.spread) for point in drawn))
    high = max(0, *(int(point.total + point.spread) + 1 for point in drawn))
    ticks = ticks_of(low, high)
    low, high, count = min(low, ticks[0]), max(high, ticks[-1]), ends[0].count

    def across(place: int) -> float:
        return round(_LEFT + (_WIDE - _RIGHT - _LEFT) * place / count, 1)

    def down(net: float) -> float:
        inside = min(max(net, low), high)
        return round(_TOP + (_HIGH - _TOP - _BELOW) * (high - inside) / ((high - low) or 1), 1)

    described = "; ".join(f"{short(shown(name), 30)} {line[-1].total:+} \u00b1 "
                          f"{line[-1].spread:.0f}" for name, line in lines.items())
    parts = [f'<div class="cut"><svg class="plot" viewBox="0 0 {_WIDE} {_HIGH}" role="img" '
             f'aria-labelledby="t{number} d{number}"><title id="t{number}">Net chips over '
             f'{count} {unit}s, with the band of 95 %</title><desc id="d{number}">At the end: '
             f"{html.escape(described)}</desc>", *_axes(ticks, count, across, down)]
    for place, line in enumerate(lines.values()):
        upper = " ".join(f"{across(point.count)},{down(point.total + point.spread)}"
                         for point in line)
        lower = " ".join(f"{across(point.count)},{down(point.total - point.spread)}"
                         for point in reversed(line))
        parts.append(f'<polygon class="band b{place}" points="{upper} {lower}"/>')
    labels = []
    for place, (name, line) in enumerate(lines.items()):
        path = f"M{across(0)} {down(0)}" + "".join(
            f"L{across(point.count)} {down(point.total)}" for point in line)
        parts.append(f'<path class="line c{place}" d="{path}"><title>{_text(name)}</title></path>')
        labels.append([down(line[-1].total) + 4, name])
    for height, name in apart(labels):
        parts.append(f'<text class="at-end" x="{_WIDE - _RIGHT + 6}" y="{height}">'
                     f"{html.escape(short(shown(name)))}</text>")
    return "".join(parts) + "</svg></div>"


def _axes(ticks: Sequence[int], count: int, across: Callable[[int], float],
          down: Callable[[float], float]) -> Iterator[str]:
    for tick in ticks:
        kind = "axis" if tick == 0 else "grid"
        yield (f'<path class="{kind}" d="M{_LEFT} {down(tick)}H{_WIDE - _RIGHT}"/><text '
               f'x="{_LEFT - 8}" y="{down(tick) + 4}" text-anchor="end">{rounded(tick)}</text>')
    for place in ticks_of(0, count):
        if place <= count:
            yield (f'<text x="{across(place)}" y="{_HIGH - 12}" text-anchor="middle">'
                   f"{rounded(place)}</text>")
