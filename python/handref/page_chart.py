"""The net chips of each name of a page: a chart, and the rows of `session`."""
import html
from dataclasses import astuple
from typing import Any, Iterable, Optional, Sequence

import handref
from handref import colours
from handref.page_played import Page
from handref.event_words import spaced
from handref.results import SessionSum
from handref.texts import short, shown

_WIDE, _HIGH, _COLUMNS, _LEFT, _RIGHT = 760, 340, 900, 76, 140


def session_part(made: Page) -> str:
    played = [hand for hand in made.hands if hand.net]
    if len(played) < 2:
        return ""
    lines: dict[str, list[tuple[int, int]]] = {}
    for place, hand in enumerate(played, 1):
        for name, net in hand.net:
            line = lines.setdefault(name, [(0, 0)])
            if line[-1][0] == place:
                line[-1] = (place, line[-1][1] + net)
            else:
                line.append((place, line[-1][1] + net))
    most = sorted(lines, key=lambda name: -len(lines[name]))[:len(colours.LIGHT)]
    parts = ['<section class="chart"><h2>Net chips</h2>', _chart(lines, most, len(played)),
             _rows_of(made, lines, most), "</section>"]
    return "\n".join(parts)


def _chart(lines: dict[str, list[tuple[int, int]]], most: Sequence[str], count: int) -> str:
    low = min(net for name in most for _, net in lines[name])
    high = max(net for name in most for _, net in lines[name])
    ticks = ticks_of(low, high)
    low, high = min(low, ticks[0]), max(high, ticks[-1])
    left, right, top = _LEFT, _WIDE - _RIGHT, 15

    def across(place: int) -> float:
        return round(left + (right - left) * place / count, 1)

    def down(net: int) -> float:
        return round(top + (_HIGH - top - 40) * (high - net) / ((high - low) or 1), 1)

    described = "; ".join(f"{short(shown(name), 30)} {lines[name][-1][1]:+}" for name in most)
    parts = [f'<div class="cut"><svg class="plot" viewBox="0 0 {_WIDE} {_HIGH}" role="img" '
             'aria-labelledby="net-title net-text"><title id="net-title">Net chips over '
             f'{count} hands</title><desc id="net-text">At the end: {html.escape(described)}'
             "</desc>"]
    for tick in ticks:
        kind = "axis" if tick == 0 else "grid"
        parts.append(f'<path class="{kind}" d="M{left} {down(tick)}H{right}"/><text x="{left - 8}" '
                     f'y="{down(tick) + 4}" text-anchor="end">{rounded(tick)}</text>')
    for place in ticks_of(0, count):
        parts.append(f'<text x="{across(min(place, count))}" y="{_HIGH - 12}" '
                     f'text-anchor="middle">{rounded(place) if place <= count else ""}</text>')
    ends = []
    for number, name in enumerate(most):
        points = _thinned(lines[name], count)
        path = f"M{across(points[0][0])} {down(points[0][1])}" + "".join(
            f"H{across(place)}V{down(net)}" for place, net in points[1:]) + f"H{right}"
        parts.append(f'<path class="line c{number}" d="{path}">'
                     f"<title>{html.escape(shown(name))}</title></path>")
        ends.append([down(lines[name][-1][1]) + 4, name])
    for height, name in apart(ends):
        parts.append(f'<text class="at-end" x="{right + 6}" y="{height}">'
                     f"{html.escape(short(shown(name)))}</text>")
    return "".join(parts) + "</svg></div>"


def rounded(number: int) -> str:
    """A number in thousands or millions where it is a multiple of these."""
    for size, sign in ((1_000_000, "M"), (1_000, "k")):
        if number and number % size == 0:
            return f"{spaced(number // size)}\u202f{sign}"
    return spaced(number)


def ticks_of(low: int, high: int) -> list[int]:
    """Round numbers that go from below the least to above the greatest."""
    step = 1
    while (high - low) // step > 6:
        step = step * 5 // 2 if str(step)[0] == "2" else step * 2
    return list(range(low // step * step, high + step, step))


def _thinned(line: list[tuple[int, int]], count: int) -> list[tuple[int, int]]:
    """Of each column of a long line the first, the least, the greatest and the last."""
    if count <= _COLUMNS:
        return line
    columns: dict[int, list[tuple[int, int]]] = {}
    for point in line:
        columns.setdefault(point[0] * _COLUMNS // count, []).append(point)
    found: list[tuple[int, int]] = []
    for points in columns.values():
        ends = {points[0], points[-1], min(points, key=lambda point: point[1]),
                max(points, key=lambda point: point[1])}
        found += sorted(ends)
    return found


def apart(ends: list[list[Any]], least: int = 15) -> Iterable[tuple[float, str]]:
    """Labels at heights that do not lie on one another."""
    height = -1000.0
    for wanted, name in sorted(ends):
        height = max(wanted, height + least)
        yield round(min(height, _HIGH), 1), name


def _sessions(sessions: Sequence[Optional[handref.Session]]) -> dict[str, list[int]]:
    """The rows of `session` of each piece as those of all; none where one was not asked."""
    sums = SessionSum()
    for each in sessions:
        if each is None:
            return {}
        sums.add([*map(astuple, each.rows), ("rake", each.rake)])
    return sums.found


def _rows_of(made: Page, lines: dict[str, list[tuple[int, int]]], most: Sequence[str]) -> str:
    """The rows of `session`; or the net chips alone, where it was not asked."""
    heads = ["Name", "Net"]
    rows: list[tuple[str, list[int]]] = [(name, [lines[name][-1][1]]) for name in lines]
    found = _sessions(made.sessions)
    if found:
        heads += "First,Gaps,Last,Hands,Entered,Raised,Shown,Won".split(",")
        rows = [(name, [net, first, gaps, *others])
                for name, (first, gaps, net, *others) in found.items()]
    parts = ['<table class="rows names"><thead><tr><td></td>'] + [
        f'<th scope="col"{" class=number" if count else ""}>{head}</th>'
        for count, head in enumerate(heads)] + ["</tr></thead><tbody>"]
    for name, numbers in sorted(rows, key=lambda row: -row[1][0])[:200]:
        swatch = f'<svg class="swatch" viewBox="0 0 36 12" aria-hidden="true"><path class="c' \
            f'{most.index(name)}" d="M0 6H36"/></svg>' if name in most else ""
        cells = "".join(f'<td class="number" data-name="{head}">{spaced(each)}</td>'
                        for head, each in zip(heads[1:], numbers))
        parts.append(f'<tr><td>{swatch}</td><th scope="row"><bdi>{html.escape(shown(name))}</bdi>'
                     f"</th>{cells}</tr>")
    left_out = f"<p>{len(rows) - 200} other names are left out.</p>" if len(rows) > 200 else ""
    return "".join(parts) + f"</tbody></table>{left_out}"
