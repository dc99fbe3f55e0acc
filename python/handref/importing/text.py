"""Reads a hand as a site prints it: seats, posts, moves, shows, what is collected, a summary.

What differs between sites is a table (`Site`). Everything that a text says twice is compared: what a
raise adds and to what it goes, the board, who is all-in, the uncalled bet, what was collected, the
total pot and the rake. A line that is not known leaves its hand out."""
import re
from dataclasses import dataclass, field
from decimal import Decimal
from functools import lru_cache
from typing import Callable, Optional, Sequence

from handref.importing import play
from handref.importing.amounts import Amount
from handref.importing.record import Hand, LeftOut
from handref.importing.rules import Rules

SYMBOLS = {"$": "USD", "€": "EUR", "£": "GBP", "¥": "CNY", "₹": "INR"}
M = r"[$€£¥₹]?([0-9]+(?:,[0-9]{3})*(?:\.[0-9]+)?)€?"  # an amount, in or without a currency
ALL_IN = r"( and is all-in)?"
CARDS = r"\[([^\]]*)\]"
_CARD = re.compile(r"[2-9TJQKA][cdhs]\Z")
_STREETS = {"before Flop": 1, "on the Flop": 2, "on the Turn": 3, "on the River": 4}
_BRACKETS = re.compile(CARDS)
_HELD = re.compile(rf"(?: {CARDS})*")


@dataclass(frozen=True)
class Site:
    """What is special about the texts of a site. The patterns are for whole lines."""
    name: str
    head: Callable[["Reader", str], None]
    table: "re.Pattern[str]"  # the table, how many seats it has, the button
    seat: "re.Pattern[str]"  # the seat, the name, the stack
    sign: str = ": "  # between the name and what a player does
    is_collected: "re.Pattern[str]" = re.compile(
        rf"(.+?) collected {M} from (?:the )?((?:main |side )?pot(?:[ -]?[0-9]+)?)")
    ignored: "Sequence[re.Pattern[str]]" = ()
    may_be_net: bool = False  # whether the total pot of the summary may be what was collected


@dataclass
class Reader:
    """A hand while it is read: what was said so far, and what has to be compared at the end."""
    site: Site
    hand: Hand
    rules: Rules
    own: play.Play = field(default_factory=play.Play)
    names: dict[str, int] = field(default_factory=dict)
    part: str = "head"  # head, posts, moves, summary
    line: int = 0
    is_dealt: set[int] = field(default_factory=set)
    total: Optional[Amount] = None
    taken: Amount = 0  # by the house
    pots: dict[str, Amount] = field(default_factory=dict)  # what was collected from each
    named: dict[str, Amount] = field(default_factory=dict)  # the pots of the summary
    ended: dict[int, str] = field(default_factory=dict)  # what the summary says of each seat


def named(name: str) -> str:
    """The pattern of an amount whose group has a name."""
    return M.replace("(", f"(?P<{name}>", 1)


@lru_cache(1 << 16)
def number(text: str) -> Amount:
    """The number of an amount."""
    plain = text.replace(",", "")
    return Decimal(plain) if "." in plain else int(plain)


def natural(name: str) -> list[int]:
    """Puts side pot-2 before side pot-10."""
    return [int(digits) for digits in re.findall("[0-9]+", name)]


def cards(text: str) -> str:
    """Cards without the signs between them. LeftOut: one is no card."""
    found = text.replace(",", " ").split()
    if not all(map(_CARD.match, found)):
        raise LeftOut("a card that does not read", text)
    return "".join(found)


# Who does what. Each takes the reader, the seat and the match of the line.

def _post(reader: Reader, seat: int, found: "re.Match[str]") -> None:
    own, word, chips = reader.own, found[1], number(found[2])
    if reader.part != "posts":
        raise LeftOut("a late post", found[0])
    if word.endswith("ante"):
        own.ante(seat, chips)
    elif word in ("small blind", "big blind"):
        is_small = word == "small blind"
        if (own.small_blind_of if is_small else own.big_blind_of) is not None or seat in own.blinds:
            raise LeftOut("a dead blind" if is_small else "a late post", found[0])
        own.blind(seat, chips, own.small_blind if is_small else own.big_blind)
        if is_small:
            own.small_blind_of = seat
        else:
            own.big_blind_of = seat
    else:
        own.blind(seat, chips, chips)


def _raise(reader: Reader, seat: int, found: "re.Match[str]") -> None:
    by, total = number(found[1]), number(found[2])
    if total - by != reader.own.bet:
        raise LeftOut("a raise that does not add up", found[0])
    reader.own.raise_to(seat, total)


def _bet(reader: Reader, seat: int, found: "re.Match[str]") -> None:
    if reader.own.bet:
        raise LeftOut("a bet after a bet", found[0])
    reader.own.raise_by(seat, number(found[1]))


def _fold(reader: Reader, seat: int, found: "re.Match[str]") -> None:
    reader.own.fold(seat)
    if found[1]:
        reader.own.know(seat, cards(found[1]))


def _call(reader: Reader, seat: int, found: "re.Match[str]") -> None:
    own = reader.own
    own.call(seat, number(found[1]))
    if own.on[seat] != own.bet and not (own.on[seat] < own.bet and own.left(seat) == 0):
        raise LeftOut("a call that does not add up", found[0])


def _check(reader: Reader, seat: int, found: "re.Match[str]") -> None:
    reader.own.call(seat, 0)


def _show(reader: Reader, seat: int, found: "re.Match[str]") -> None:
    reader.own.show(seat, cards(found[1]))


def _muck(reader: Reader, seat: int, found: "re.Match[str]") -> None:
    if seat not in reader.own.folded:
        reader.own.muck(seat)


def _nothing(reader: Reader, seat: int, found: "re.Match[str]") -> None:
    pass


Does = Callable[[Reader, int, "re.Match[str]"], None]
MOVES = {"posts", "folds", "checks", "calls", "bets", "raises", "straddle", "straddles"}
# The first word of what a player does, the whole of it, and what that means.
WORDS: dict[str, tuple["re.Pattern[str]", Does]] = {word: (re.compile(pattern), does) for
                                                    word, pattern, does in (
    ("posts", rf"posts (?:the )?(ante|small blind|big blind|straddle) {M}{ALL_IN}", _post),
    ("straddle", rf"(straddle) {M}{ALL_IN}", _post),
    ("straddles", rf"(straddles) {M}{ALL_IN}", _post),
    ("folds", rf"folds(?: {CARDS})?", _fold), ("checks", "checks", _check),
    ("calls", rf"calls {M}{ALL_IN}", _call), ("bets", rf"bets {M}{ALL_IN}", _bet),
    ("raises", rf"raises {M} to {M}{ALL_IN}", _raise),
    ("shows", rf"shows {CARDS}(?: \(.*\))?", _show), ("mucks", r"mucks(?: hand)?", _muck),
    ("doesn't", r"doesn't show hand", _nothing), ("is", "is sitting out", _nothing),
    ("sits", "sits out", _nothing))}
# What no form of PHH can say: the hand is left out.
CAUSES = [(re.compile(pattern), cause) for pattern, cause in (
    (r"\*\*\* (?:FIRST|SECOND|THIRD|1ST|2ND|3RD) .*", "a board that is run several times"),
    (r"Hand was run .*|.*\brun it (?:twice|three times).*", "a board that is run several times"),
    (r".*\bposts small & big blinds? .*|.*\bposts (?:a )?dead\b.*|.*\bposts (?:the )?missed\b.*",
     "a dead blind"),
    (r".*\bposts .*", "a post that is not known"),
    (r".*\b(?:cash(?:ed|es)? ?out|Cashout|Cash Out)\b.*|.*\bpot not awarded\b.*", "a cash-out"),
    (r".*\b[Ii]nsurance\b.*", "insurance"), (r".* has reached the .* cap", "a betting cap"))]
# What says nothing of the play.
IGNORED = [re.compile(pattern) for pattern in (
    r'.+ said, ".*"', r".+ has timed out(?: while (?:being )?disconnected)?",
    r".+ is (?:dis)?connected", r".+ has (?:returned|reconnected)", r".+ (?:leaves|left) the table",
    r".+ joins the table at seat #[0-9]+", r".+ will be allowed to play after the button",
    r".+ was removed from the table for failing to post", r".+:? (?:is sitting|sits) out",
    r".+ finished the tournament(?: in [0-9]+(?:st|nd|rd|th) place)?(?: and received .+)?\.?",
    r".+ wins the tournament(?: and receives .+)?(?: - congratulations!)?",
    r".+ wins (?:the |a )?.* ?(?:bounty )?for (?:eliminating|splitting the elimination of) .+",
    rf".+ wins the {M} bounty",
    r".+ re-?buys and receives .+", r".+ takes the add-on and receives .+",
    r".+ receives? .* ticket.*", r".+ wins an entry to tournament .+", r"Betting is capped",
    r"\*{5,} # [0-9]+ \*{5,}")]
_TOTAL = re.compile(rf"Total pot {M}((?: (?:Main|Side) pot(?:-[0-9]+)? {M}\.)*)((?: ?\| .*)?)")
_POT = re.compile(rf"(Main|Side) pot(-[0-9]+)? {M}\.")
_TAKEN = re.compile(rf"(?:Rake|Jackpot|Jackpot [Ff]ee|Bingo|Fortune|Tax|Splash|Fee) {M}")
_PLACES = r"(?: \((?:button|small blind|big blind)\))*"
_ENDS = [(re.compile(pattern), does) for pattern, does in (
    (r"folded (before Flop|on the Flop|on the Turn|on the River)(?: \(didn't bet\))?", "folded"),
    (rf"showed {CARDS} and won \(?{M}\)?(?: with (?:(?!pot not awarded).)*)?", "won"),
    (rf"showed {CARDS} and lost(?: with .*)?", "lost"), (rf"showed {CARDS}", "lost"),
    (rf"mucked(?: {CARDS})?", "mucked"), (rf"(?:collected|won) \(?{M}\)?", "collected"),
    (r"didn't bet|is sitting out|sitting out", "nothing"))]


# Reading.

def read(site: Site, hand: Hand, lines: Sequence[str], rules: Rules) -> play.Play:
    """Reads the lines of a hand. LeftOut: a line is not known, or two of them do not agree."""
    reader = Reader(site, hand, rules)
    for place, line in enumerate(lines):
        reader.line = hand.line + place
        line = line.rstrip()
        if not line:
            continue
        try:
            _line(reader, line, place)
        except LeftOut as why:
            why.line = why.line or reader.line
            raise
    return _end(reader)


def _line(reader: Reader, line: str, place: int) -> None:
    if place == 0:
        reader.site.head(reader, line)
    elif reader.part == "summary":
        _summary(reader, line)
    elif line.startswith("***"):
        _section(reader, line)
    elif reader.part == "head" or reader.part == "posts" and line.startswith("Seat "):
        _table(reader, line)
    elif line.startswith("Dealt to "):
        _dealt(reader, line)
    elif not (_does(reader, line) or _gets(reader, line)):
        _ignore(reader, line)


def _table(reader: Reader, line: str) -> None:
    """A line before the posts: the table, or a seat."""
    own = reader.own
    found = reader.site.table.fullmatch(line)
    if found:
        own.notes.update(table=found["table"], seat_count=int(found["seats"] or 0) or None)
        own.button = int(found["button"])
        return
    found = reader.site.seat.fullmatch(line)
    if found:
        seat, name = int(found["seat"]), found["name"]
        if seat in own.players or name in reader.names:
            raise LeftOut("two players of one seat or name", line)
        own.players[seat] = play.Player(seat, name, number(found["stack"]))
        reader.names[name] = seat
        return
    if reader.part == "posts" or not own.button or not own.players:
        raise _unknown(line)
    reader.part = "posts"
    _line(reader, line, 1)


def _section(reader: Reader, line: str) -> None:
    """A line that begins a part of the hand."""
    name = line[3:].partition("***")[0].strip()
    if name in ("ANTE/BLINDS",):
        reader.part = "posts"
    elif name in ("HOLE CARDS", "PRE-FLOP", "PREFLOP"):
        reader.part = "moves"
    elif name in ("FLOP", "TURN", "RIVER"):
        reader.part = "moves"
        found = cards(" ".join(_BRACKETS.findall(line)))
        before = "".join(reader.own.board)
        count = ("FLOP", "TURN", "RIVER").index(name)
        if not found.startswith(before) or len(before) != (0, 6, 8)[count] or \
                len(found) != (6, 8, 10)[count]:
            raise LeftOut("a board that does not go on", line)
        reader.own.next_street(found[len(before):])
    elif name in ("SHOW DOWN", "SHOWDOWN"):
        reader.part = "moves"
    elif name == "SUMMARY":
        reader.part = "summary"
    else:
        raise _unknown(line)


def _dealt(reader: Reader, line: str) -> None:
    """Cards of a player; some sites name each player, with cards or without."""
    rest = line[len("Dealt to "):]
    found = [(seat, rest[len(name):]) for name, seat in reader.names.items()
             if rest.startswith(name) and _HELD.fullmatch(rest, len(name))]
    if len(found) != 1:
        raise LeftOut("a line that is not known", line)
    reader.part = "moves"
    seat, held = found[0]
    reader.is_dealt.add(seat)
    if held:
        reader.own.know(seat, cards(" ".join(_BRACKETS.findall(held))))


def _does(reader: Reader, line: str) -> bool:
    """Takes a line that says what a player does. LeftOut: two players can be meant."""
    sign, taken = reader.site.sign, []
    at = line.find(sign)
    while at >= 0:
        seat = reader.names.get(line[:at])
        if seat is not None:
            said = line[at + len(sign):]
            word = WORDS.get(said.partition(" ")[0])
            found = word[0].fullmatch(said) if word else None
            if word and found:
                taken.append((seat, found, word[1]))
        at = line.find(sign, at + 1)
    if not taken:
        return False
    if len(taken) > 1:
        raise LeftOut("a line that can be read in two ways", line)
    seat, found, does = taken[0]
    if found[0].partition(" ")[0] in MOVES:
        reader.is_dealt.add(seat)
    does(reader, seat, found)
    if found[0].endswith(" and is all-in") and reader.own.left(seat) != 0:
        raise LeftOut("an all-in that is not one", f"{line}: {reader.own.left(seat)} are left")
    return True


def _gets(reader: Reader, line: str) -> bool:
    """Takes a line that says what a player gets."""
    found = re.fullmatch(rf"Uncalled bet \({M}\) returned to (.+)", line)
    if found and found[2] in reader.names:
        seat = reader.names[found[2]]
        reader.own.back[seat] = reader.own.back.get(seat, 0) + number(found[1])
        return True
    found = reader.site.is_collected.fullmatch(line)
    if found and found[1] in reader.names:
        chips = number(found[2])
        reader.own.collect(reader.names[found[1]], chips)
        reader.pots[found[3]] = reader.pots.get(found[3], 0) + chips
        return True
    return False


def _unknown(line: str) -> LeftOut:
    """The cause of a line that no rule covers."""
    return LeftOut(next((cause for pattern, cause in CAUSES if pattern.fullmatch(line)),
                        "a line that is not known"), line)


def _ignore(reader: Reader, line: str) -> None:
    """Ignores a line that says nothing of the play. LeftOut: it is another one."""
    cause = _unknown(line)
    is_plain = any(pattern.fullmatch(line) for pattern in (*IGNORED, *reader.site.ignored))
    is_chat = re.fullmatch(r'.+ said, ".*"', line)
    if not is_plain or cause.cause != "a line that is not known" and not is_chat:
        raise cause
    if not reader.rules.has("other-lines"):
        raise LeftOut("a line that says nothing of the play", line)


# The summary, and the end.

def _summary(reader: Reader, line: str) -> None:
    own = reader.own
    found = _TOTAL.fullmatch(line)
    if found and reader.total is None:
        reader.total = number(found[1])
        reader.named = {f"{name.lower()} pot{end}": number(chips) for name, end, chips in
                        _POT.findall(found[2])}
        for part in filter(None, (part.strip() for part in found[found.re.groups].split("|"))):
            taken = _TAKEN.fullmatch(part)
            if taken:
                reader.taken += number(taken[1])
            elif part != "No rake":
                raise LeftOut("a line that is not known", line)
        return
    found = re.fullmatch(rf"Board:? {CARDS}", line)
    if found:
        if cards(found[1]) != "".join(own.board):
            raise LeftOut("a board that differs from the summary", line)
        return
    found = re.match(r"Seat ([0-9]+): ", line)
    player = own.players.get(int(found[1])) if found else None
    if not found or not player or not line.startswith(player.name, found.end()):
        return _ignore(reader, line)
    rest = re.sub(rf"\A{_PLACES} ?", "", line[found.end() + len(player.name):])
    for pattern, kind in _ENDS:
        match = pattern.fullmatch(rest)
        if match:
            return _ended(reader, player.seat, kind, match)
    raise _unknown(line)


def _ended(reader: Reader, seat: int, kind: str, found: "re.Match[str]") -> None:
    """Compares what the summary says of a player."""
    own = reader.own
    reader.ended[seat] = kind
    if kind == "folded":
        is_so = own.folded.get(seat) == _STREETS[found[1]] or seat not in reader.is_dealt
    elif kind in ("won", "lost"):
        own.know(seat, cards(found[1]))
        is_so = seat not in own.folded and own.won.get(seat, 0) == (
            number(found[2]) if kind == "won" else 0)
    elif kind == "mucked":
        is_so = not own.won.get(seat)
        if found[1]:
            own.know(seat, cards(found[1]))
    else:
        is_so = kind == "nothing" or own.won.get(seat, 0) == number(found[1])
    if not is_so:
        raise LeftOut("a summary that differs from the hand", f"{own.players[seat].name}: {found[0]}")


def _end(reader: Reader) -> play.Play:
    """The hand as a whole: who was dealt in, and whether the sums are right."""
    own, hand = reader.own, reader.hand
    if reader.total is None:
        raise LeftOut("a text that has no end")
    for seat, player in list(own.players.items()):
        if seat not in reader.is_dealt and seat not in own.ends:
            if not reader.rules.has("not-dealt-in") or reader.ended.get(seat, "nothing") != "nothing":
                raise LeftOut("a player who does nothing", player.name)
            del own.players[seat]
            hand.change("not-dealt-in", f"{player.name} is not dealt in: left out of the hand",
                        player.name)
    if own.big_blind_of is None:
        raise LeftOut("a big blind that nobody posts")
    ante = max([*own.antes.values(), own.ante_named])
    for seat, chips in own.antes.items():
        if chips != ante and chips != own.players[seat].stack:
            raise LeftOut("antes of different sizes", f"{own.players[seat].name}: {chips} and not {ante}")
    collected = sum(own.won.values(), 0)
    if reader.site.may_be_net and collected == reader.total:
        reader.total += reader.taken
    is_said = bool(own.back)
    extra = own.give_back(reader.total)
    if extra and not is_said:
        if not reader.rules.has("returned-bet"):
            raise LeftOut("a bet that is not said to come back", str(extra))
        hand.change("returned-bet", f"{extra} that nobody called, and that is not in the pot: returned")
    if collected + reader.taken != reader.total:
        raise LeftOut("a pot that is not what was collected and the rake",
                      f"{collected} and {reader.taken} of {reader.total}")
    _compare_pots(reader)
    own.rakes = [reader.taken]
    own.pots = list(reader.pots.items())
    return own


def _compare_pots(reader: Reader) -> None:
    """The pots of the summary are together the total pot, with the rake or without it; without it,
    each of them is what was collected from it."""
    named, collected, total = reader.named, reader.pots, reader.total or 0
    if not named:
        return
    added = sum(named.values(), 0)
    is_net = added == total - reader.taken
    if not is_net and added != total or is_net and set(collected) == set(named) and collected != named:
        raise LeftOut("pots of the summary that are not those of the hand", ", ".join(
            f"{name} {chips}" for name, chips in named.items()))
