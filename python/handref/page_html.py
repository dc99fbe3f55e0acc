"""The HTML of a page: its head, the list to read, and the data for its script."""
import base64
import hashlib
import html
import json
import re
import zlib
from dataclasses import replace
from importlib import resources
from typing import Any, Iterator, Optional, Sequence

import handref
from handref import HandrefError, colours, messages
from handref.formats import GAMES
from handref.single_hands import MOST_UNREAD
from handref.texts import counted, short, shown
from handref.explain_play import due_there
from handref.page_chart import session_part
from handref.page_played import Hand, Page
from handref.event_words import Part, in_words

# Who has made a page: a sum of all its bytes, with zeros in place of the sum itself.
MARK = '<meta name="generator" content="handref page, sha256 %s">'
_NO_SUM = "0" * 64
MOST_LISTED = 100  # hands that are there without JavaScript, event by event
_BLOCK = 256  # hands that are packed together

def _told_of(error: HandrefError) -> str:
    """What was said of a hand, without its number, which the page has beside it."""
    return re.sub(r"^(refused|bad input): (hand \d+(, |: ))?", r"\1: ", str(replace(
        error, file=None)))


def _reason(error: HandrefError) -> str:
    """What is wrong in a word, or with the numbers that differ."""
    if error.reason and error.place is None:
        return error.reason
    return re.sub(r"^(refused|bad input): (hand \d+(, |: ))?", "", error.line)


def document(made: Page, title: str) -> str:
    """The whole page."""
    css, *scripts = (resources.files("handref").joinpath(name).read_text("utf-8")
                     for name in ("page.css", "page_hand.js", "page_table.js", "page.js"))
    css, js = css + colours.styles(), "\n".join(scripts)
    where = '<th scope="col">File</th>' if len(made.files) > 1 else ""
    parts = [
        "<!DOCTYPE html>", '<html lang="en">', "<head>", '<meta charset="utf-8">',
        '<meta http-equiv="Content-Security-Policy" content="default-src \'none\'; base-uri '
        f"'none'; form-action 'none'; style-src {hash_of(css)}; script-src {hash_of(js)}\">",
        MARK % _NO_SUM, '<meta name="viewport" content="width=device-width, initial-scale=1">',
        f"<title>{_text(title)}</title>", f"<style>{css}</style>", "</head>", "<body>",
        f"<header><h1>{_text(title)}</h1>", _summary(made), "</header>", "<main>",
        _VIEWER.replace("{file}", where), _listed(made), session_part(made), "</main>",
        *_data(made), f"<script>{js}</script>", "</body>", "</html>", ""]
    text = "\n".join(part for part in parts if part)
    return text.replace(MARK % _NO_SUM, MARK % hashlib.sha256(text.encode()).hexdigest(), 1)


def is_page(text: bytes) -> bool:
    """Whether these are the bytes of a page as it was made here, and nobody has changed them."""
    found = re.search((MARK % "([0-9a-f]{64})").encode(), text)
    if not found:
        return False
    bare = text.replace(found[1], _NO_SUM.encode(), 1)
    return hashlib.sha256(bare).hexdigest().encode() == found[1]


def _text(text: str) -> str:
    return html.escape(shown(text))


def hash_of(text: str) -> str:
    """What the policy of a page names a style or a script by."""
    return f"'sha256-{base64.b64encode(hashlib.sha256(text.encode()).digest()).decode()}'"


def _summary(made: Page) -> str:
    count, first = made.legal + made.refused, made.files[0]
    text = f"<p>{counted(count, 'hand')} of "
    text += f"<bdi>{_text(first.name)}</bdi>, read as {first.notation}" if len(made.files) == 1 \
        else counted(len(made.files), "file")
    text += f": {made.legal} legal"
    text += f', <span class="refused">{made.refused} refused</span>' if made.refused else ""
    text += f"; of them {len(made.hands)} here" if len(made.hands) < count else ""
    text += ".</p>"
    if len([hand for hand in made.hands if "o" in hand.summary]) < len(made.hands) - made.refused:
        text += ('<p class="soft">This page has too many hands for the legal moves and the equity '
                 "of each: choose hands by --hand.</p>")
    if made.left:
        text += (f'<p class="refused">{made.left} more hands are not shown: {MOST_UNREAD} hands '
                 "before them in their file do not read.</p>")
    listed = "".join(f"<li>{_text(line)}</li>" for line in made.not_shown)
    return text + (f"<details><summary>{counted(len(made.not_shown), 'line')} about what is not "
                   f"shown</summary><ul>{listed}</ul></details>" if listed else "")


_VIEWER = """<section id="viewer" aria-label="a hand">
<div class="bar" id="top"><h2 id="hand-head"></h2><span id="others"><button type="button"
id="before">previous hand</button> <button type="button" id="after">next hand</button></span></div>
<p id="lead"></p>
<div id="played"><div id="stage"><div class="bar"><button type="button" id="first">first</button>
<button type="button" id="back">back</button>
<input id="range" type="range" min="0" value="0" aria-label="event">
<button type="button" id="on">next</button><button type="button" id="last">last</button></div>
<p id="said" aria-live="polite"></p><div id="table"></div><p id="now"></p>
<p id="own" class="soft"></p>
<p id="made-up" class="soft">What follows it in the file is not played.</p></div>
<div id="side"><h3>Events</h3>
<div id="events" role="region" tabindex="0" aria-label="the list of events"><table>
<tbody id="steps"></tbody></table></div>
<p class="soft keys">Keys: \u2190 and \u2192 go through the events, Home and End go to the first and
the last; Shift with \u2190 or \u2192 goes to another hand.</p></div></div>
<div id="verdict"></div><div id="facts" class="soft"></div>
<section id="equity"><h3>Equity by street</h3>
<p class="soft">With the cards that are known at the end of the hand.</p>
<table class="rows"><thead><tr>
<th scope="col">Street</th><th scope="col">Seat</th><th class="number" scope="col">Wins</th>
<th class="number" scope="col">Boards</th><th class="number" scope="col">Of</th></tr></thead>
<tbody id="equity-rows"></tbody></table></section>
<section id="choice"><h2>Hands</h2>
<div class="bar"><label>Show <select id="which"><option value="all">all hands</option>
<option value="refused">refused hands</option><option value="legal">legal hands</option></select>
</label><label>Find <input id="find" type="search" placeholder="a name, number or reason"></label>
<button type="button" id="rows-before">earlier</button>
<span id="count" role="status"></span><button type="button" id="rows-after">later</button></div>
<div id="chosen" role="region" tabindex="0" aria-label="the list of hands"><table><thead><tr>
<th class="number" scope="col">Hand</th>{file}<th scope="col">Game</th><th scope="col">Names</th>
<th class="number" scope="col">Pots</th><th scope="col">Verdict</th></tr></thead>
<tbody id="rows"></tbody></table></div></section></section>"""


def _listed(made: Page) -> str:
    """The hands as a list to read, where there is no JavaScript."""
    parts = ['<section id="listed"><h2>Hands</h2>']
    if len(made.hands) > MOST_LISTED:
        parts.append(f"<p>The first {MOST_LISTED} are here event by event, the others with their "
                     "verdicts. With JavaScript the page shows each of them.</p>")
    for hand in made.hands[:MOST_LISTED]:
        parts.append(_hand_listed(hand, len(made.files) > 1))
    parts += [f"<p>{line}</p>" for line in _runs(made.hands[MOST_LISTED:])]
    return "\n".join([*parts, "</section>"])


def _hand_listed(hand: Hand, has_files: bool) -> str:
    summary, refused = hand.summary, hand.refused
    game = GAMES.get(summary.get("g", ""), "")
    parts = [f"<h3>Hand {hand.number}{': ' + html.escape(game) if game else ''}</h3>"]
    if has_files:
        parts.append(f"<p><bdi>{_text(hand.file.name)}</bdi>, hand {hand.own}</p>")
    names = " ".join(f'<span class="names">p{seat} <bdi>{_text(name)}</bdi></span>'
                     for seat, name in enumerate(hand.names, 1) if name != f"p{seat}")
    if names:
        parts.append(f"<p>{names}</p>")
    if summary.get("m"):
        parts.append(f'<p class="soft"><bdi>{html.escape(summary["m"])}</bdi></p>')
    parts += [f'<p><strong class="fact">{_text(fact)}</strong></p>' for fact in hand.facts]
    if refused:
        if summary.get("o") and refused.reason not in ("stated", "rake too big"):
            due, *moves = max(summary["o"].items())[1].split(";")
            parts.append(f"<p>{due_there(due, moves)}</p>")
        parts.append(f'<p class="bad">{_text(_told_of(refused))}</p>')
        parts.append(f'<p class="plain">{_text(messages.meaning(refused, hand.file.notation))}</p>')
        if hand.text and not refused.event:
            parts.append(f"<pre>{_lines_of(hand.text)}</pre>")
    if summary:
        parts += ['<table class="rows events"><thead><tr><th class="number" scope="col">Event</th>'
                  '<th scope="col"></th><th scope="col">Stacks</th><th scope="col">In</th></tr>'
                  "</thead><tbody>", *_events(hand), "</tbody></table>"]
    return "\n".join(parts)


def _events(hand: Hand) -> Iterator[str]:
    """The rows of the events of a hand, its end, and what is refused."""
    said = [_said(words, hand.names) for words in in_words(hand.summary)]
    own = hand.summary.get("w")
    for (event, words, stacks, put), sentence in zip(expanded(hand.summary), said):
        words = words if not own and event else own[event - 1] if own and event else ""
        yield _row(str(event), sentence, words, stacks, put)
    refused = hand.refused
    if refused and refused.event and refused.action is not None:
        yield _row(str(refused.event), f"refused: {_text(_reason(refused))}", hand.text,
                   kind="refused")
    if "f" in hand.summary:
        yield _row("end", said[-1], "\n".join(ends(hand.summary)))


def _said(words: Sequence[Part], names: Sequence[str]) -> str:
    return "".join((f"<bdi>{html.escape(short(shown(names[seat - 1])))}</bdi>" if seat else "")
                   + html.escape(said) for seat, said in words)


def _lines_of(text: str) -> str:
    return "\n".join(map(_text, text.split("\n")))


def _row(event: str, said: str, own: str, stacks: str = "", put: str = "", kind: str = "") -> str:
    chips = "".join(f'<td class="words" data-name="{name}">{chips}</td>' for name, chips in
                    (("Stacks", stacks), ("In", put))) if stacks else "<td></td><td></td>"
    return (f'<tr{f" class={kind}" if kind else ""}><td class="number">{event}</td><td>{said} '
            f'<span class="own">{_lines_of(own)}</span></td>{chips}</tr>')


def expanded(summary: dict[str, Any]) -> Iterator[tuple[int, str, str, str]]:
    """The events of a hand as `replay` says them."""
    put = list(summary["i"])
    left = [start - paid for start, paid in zip(summary["s"], put)]
    yield 0, "posts", " ".join(map(str, left)), " ".join(map(str, put))
    for event, packed in enumerate(summary["e"].split(";") if summary["e"] else [], 1):
        words, _, added = packed.partition("+")
        if added:
            seat = int(words[1:words.index(" ")]) - 1
            put[seat] += int(added)
            left[seat] -= int(added)
        yield event, words, " ".join(map(str, left)), " ".join(map(str, put))


def ends(summary: dict[str, Any]) -> Iterator[str]:
    """The last lines of a hand as `replay` says them."""
    if "f" not in summary:
        return
    yield from (f"return p{seat} {chips}" for seat, chips in summary["r"].items())
    for number, (chips, shares, rake) in enumerate(summary["t"], 1):
        entries = [f"p{seat} {share}" for seat, share in shares.items()] + [f"rake {rake}"] * bool(
            rake)
        yield f"pot {number} {chips}: {', '.join(entries)}"
    yield "finish " + " ".join(map(str, summary["f"]))


def _runs(hands: Sequence[Hand]) -> Iterator[str]:
    """How hands went: a line for each that is refused, and one for those between."""
    first: Optional[int] = None
    for place, hand in enumerate(hands):
        if hand.refused:
            yield f'Hand {hand.number}: <span class="bad">{_text(_told_of(hand.refused))}</span>'
            first = None
            continue
        first = hand.number if first is None else first
        if place + 1 == len(hands) or hands[place + 1].refused:
            yield f"Hand {first}: legal" if first == hand.number else \
                f"Hands {first} to {hand.number}: legal"


def _data(made: Page) -> Iterator[str]:
    """What the script shows: a list of all hands, and the hands in blocks, packed if many."""
    names: dict[str, int] = {}
    index: list[list[Any]] = []
    summaries: list[dict[str, Any]] = []
    places = {id(file): place for place, file in enumerate(made.files)}
    for hand in made.hands:
        seats = [names.setdefault(name, len(names)) for name in hand.names]
        pot = sum(chips for chips, _, _ in hand.summary["t"]) if "t" in hand.summary else None
        index.append([hand.number, hand.summary.get("g", ""),
                      _reason(hand.refused) if hand.refused else "", seats, pot])
        row: dict[str, Any] = {"n": hand.number, **hand.summary, "p": seats}
        if len(made.files) > 1:
            index[-1].append(places[id(hand.file)])
            row["d"] = [places[id(hand.file)], hand.own]
        if hand.refused:
            row["v"] = _verdict(hand, hand.refused)
        summaries.append(row)
    listed: list[Any] = []
    for name in names:
        whole = shown(name)
        listed.append(whole if short(whole) == whole else [whole, short(whole)])
    is_packed = len(summaries) > _BLOCK
    yield _part('id="index"', {"names": listed, "games": GAMES, "hands": index, "files": [
        shown(file.name) for file in made.files]}, is_packed)
    for start in range(0, len(summaries), _BLOCK):
        yield _part('class="hands"', summaries[start:start + _BLOCK], is_packed)


def _verdict(hand: Hand, refused: HandrefError) -> dict[str, Any]:
    """What is wrong with a hand, for the script."""
    event = refused.event if refused.action is not None else None
    return {"line": shown(_told_of(refused)), "reason": shown(_reason(refused)),
            "plain": messages.meaning(refused, hand.file.notation), "event": event,
            "text": "\n".join(map(shown, hand.text.split("\n"))), "seat": hand.seat,
            "facts": [shown(fact) for fact in hand.facts]}


def _part(attribute: str, value: Any, is_packed: bool) -> str:
    text = json.dumps(value, ensure_ascii=False, separators=(",", ":"))
    if is_packed:
        packed = base64.b64encode(zlib.compress(text.encode(), 9)).decode()
        return f'<script type="text/plain" {attribute}>{packed}</script>'
    for sign in "<>&\u2028\u2029":
        text = text.replace(sign, f"\\u{ord(sign):04x}")
    return f'<script type="application/json" {attribute}>{text}</script>'
