"""What was legal where a hand is refused, and the chips there, as the program says them."""
import json
import re
from dataclasses import dataclass
from typing import Any, Optional, Sequence

import handref
from handref import Game, HandrefError, Step, single_hands, toml
from handref.places import seats_of

_WANTED = {"phh": "cbr", "acpc": "r"}  # what a raise is called, before its amount


@dataclass
class _Hand:
    """A refused hand, with its steps before what is refused."""
    data: bytes
    notation: handref.Notation
    game: Game
    refused: HandrefError
    steps: Sequence[Step]

    @property
    def now(self) -> Step:
        return self.steps[-1]


def facts(data: bytes, notation: handref.Notation, game: Game, refused: HandrefError,
          said: Any = None) -> list[str]:
    """Sentences about a refused hand, which is the only one of its file: what was said, what would
    have been legal, the chips before it. `said` is what the source says there."""
    try:
        played = handref.replay(data, notation, game, each=True)[0]
    except handref.NoProgram:
        raise
    except HandrefError as error:
        return [f"Asked now, the program says of this hand: {error.line}."]
    if played.refused is None or _verdict(played.refused) != _verdict(refused):
        now = _verdict(played.refused) if played.refused else "legal"
        found = [f"Asked now, the program says of this hand: {now}."]
        event = refused.event if refused.action is not None else None
        if event is None or event > len(played.steps):
            return found
        hand = _Hand(data, notation, game, refused, played.steps[:event])
        return [*found, _due(hand), _chips(hand)]
    hand = _Hand(data, notation, game, refused, played.steps)
    found = _of_reason(hand, said)
    if refused.reason in ("stated", "rake too big"):
        return found
    return [*found, _due(hand), _chips(hand)]


def _verdict(error: HandrefError) -> str:
    """What is wrong with a hand, without its number in the file."""
    return re.sub(r"^refused: hand \d+: ", "", error.line)


def reasons(data: bytes, notation: handref.Notation, game: Game, refused: HandrefError,
            steps: Sequence[Step], said: Any = None) -> list[str]:
    """The sentences about what is wrong alone, where the steps before it are known already."""
    return _of_reason(_Hand(data, notation, game, refused, steps), said)


def _of_stated(hand: _Hand) -> list[str]:
    error = hand.refused
    stated, replayed = error.stated or 0, error.replayed or 0
    return [f"The source states {stated}; the replay comes to {replayed}, which is "
            f"{abs(stated - replayed)} {'less' if replayed < stated else 'more'}."]


def _of_rake(hand: _Hand) -> list[str]:
    number = int((hand.refused.place or "pot 1").split(" ")[1])
    try:
        pots = handref.replay(_without_rakes(hand), hand.notation, hand.game)[0].pots
    except handref.NoProgram:
        raise
    except (HandrefError, ValueError, LookupError):
        return []
    return [f"Pot {number} has {pots[number - 1].chips} chips before its rake."
            if number <= len(pots) else f"There is no pot {number}."]


def _without_rakes(hand: _Hand) -> bytes:
    """The hand without its rakes, and without what it states of its end."""
    if hand.notation == "phh":
        table = toml.read(hand.data.decode("utf-8-sig"))
        return single_hands.document({key: table[key] for key in table
                             if key not in ("_rakes", "finishing_stacks")})
    source = json.loads(hand.data)["ohh"]
    source.pop("pots", None)
    return json.dumps({"ohh": source}).encode()


def _due(hand: _Hand) -> str:
    """What was to come before what is refused."""
    words = ["options", "--from", hand.notation, "--hand=1", f"--after={hand.now.event}", "--each"]
    words += ["--game", str(hand.game)] if hand.game else []
    head, *moves = handref.run(words, hand.data).decode().split("\n")[:-1]
    return due_there(head.partition(": ")[2], moves)


def due_there(due: str, moves: Sequence[str]) -> str:
    """A point of `options` as a sentence."""
    if due == "over":
        return "The hand is over there."
    if due.endswith("?"):
        return "No move is legal there: an unknown up-card decides whose turn it is."
    return f"Legal there: {due}" + (f": {', '.join(moves)}" if moves else "")


def _chips(hand: _Hand) -> str:
    rows = [f"p{seat} {left} ({put} in)"
            for seat, (left, put) in enumerate(zip(hand.now.stacks, hand.now.put), 1)]
    when = f"after event {hand.now.event}" if hand.now.event else "after the posts"
    return f"Chips {when}: {', '.join(rows)}; {sum(hand.now.put)} in all"


def _of_reason(hand: _Hand, said: Any) -> list[str]:
    """What a reason is about, with the numbers and cards of the hand."""
    reason = hand.refused.reason or ""
    if reason == "stated":
        return _of_stated(hand)
    if reason == "rake too big":
        return _of_rake(hand)
    if reason in ("RaiseTooSmall", "RaiseTooBig", "RaiseClosed"):
        return _of_raise(hand) + _other_dialect(hand)
    if reason == "AmountDiffers":
        return [f"The call states {hand.refused.stated}, and adds {hand.refused.replayed}.",
                *_other_dialect(hand)]
    if reason in ("CardTaken", "NotHeld", "WrongCount"):
        words = json.dumps(said) if isinstance(said, (dict, list)) else str(said or "")
        return _of_cards(hand, words)
    return []


# Raises, in the amounts of the notation.

def _of_raise(hand: _Hand) -> list[str]:
    found = handref.options(hand.data, hand.notation, 1, hand.now.event, hand.game, each=True)
    if found.seat is None or not found.raises:
        return ["No raise is legal there."]
    seat = found.seat - 1
    more = _offset(hand, seat)
    amounts = [(low + more, high + more) for low, high in found.raises]
    word = _WANTED.get(hand.notation, "amount")
    gap = "" if hand.notation == "acpc" else " "
    if hand.notation == "acpc" and _is_limit(hand.game):
        return ["In this game each raise has one amount, so r is written without a number."]
    least, greatest = (f"{word}{gap}{amount}" for amount in (amounts[0][0], amounts[-1][1]))
    meaning = _meaning(hand.notation)
    if least == greatest:
        return [f"The only legal raise of p{found.seat} is {least} ({meaning})."]
    return [f"The least legal raise of p{found.seat} is {least}, the greatest {greatest} "
            f"({meaning})."]


def _is_limit(game: Game) -> bool:
    return game is not None and bool(re.search(rb"(?im)^limit\r?$", handref.read(game)))


def _meaning(notation: handref.Notation) -> str:
    return {"acpc": "the chips of the hand to which it goes", "ohh": "the chips that it adds"}.get(
        notation, "the chips of the street to which it goes")


def _offset(hand: _Hand, seat: int) -> int:
    """By how much an amount of the notation is above the chips of the street."""
    earlier = _antes(hand)
    moved = False
    for step in hand.steps[1:]:
        if re.match(r"p\d+ (f|cc|cbr|pb)", step.text):
            moved = True
        elif moved:
            earlier, moved = list(step.put), False
    if hand.notation == "acpc":
        return earlier[seat]
    return earlier[seat] - hand.now.put[seat] if hand.notation == "ohh" else 0


def _antes(hand: _Hand) -> list[int]:
    """The antes, which are no chips of the first street."""
    found = [0] * len(hand.now.put)
    if hand.notation in ("ohh", "ohh-to"):
        source = json.loads(hand.data)["ohh"]
        ids = seats_of(source)
        for said in source["rounds"][0]["actions"]:
            if said["action"] == "Post Ante":
                found[ids.index(said["player_id"])] = int(said["amount"])
    return found


def _other_dialect(hand: _Hand) -> list[str]:
    """Whether the hand is legal where its raises are read in the other way."""
    others: dict[str, handref.Notation] = {"ohh": "ohh-to", "ohh-to": "ohh"}
    other = others.get(hand.notation)
    if other is None:
        return []
    try:
        if handref.judge(hand.data, other)[0].refused is None:
            return [f"Read as {other} the hand is legal: try --from {other}."]
    except HandrefError:
        pass
    return []


# Cards.

def _of_cards(hand: _Hand, words: str) -> list[str]:
    bare = re.sub(r'"player_id":[^,}]*|p\d+ |d[hb] ', "", words)
    cards = re.findall(r"[2-9TJQKA][cdhs]|\?\?", bare)
    said: list[str] = []
    events = hand.steps[1:]
    if hand.refused.reason == "CardTaken":
        for card in sorted(set(cards) - {"??"}):
            where = next((step for step in events if card in step.text.split(" ")[-1]), None)
            if where:
                said.append(f"{card} came at event {where.event} already: {where.text}")
            elif cards.count(card) > 1:
                said.append(f"{card} is there twice.")
        return said
    seat = re.search(r"p\d+", words)
    number = seat[0] if seat else _actor(hand)
    held = _held(events, number) if number else []
    if hand.refused.reason == "WrongCount":
        return [f"It names {len(cards)} card{'s' * (len(cards) != 1)}"
                + (f"; {number} holds {' '.join(held)} then." if held else ".")]
    return [f"{number} holds {' '.join(held) or 'no cards'} there."]


def _actor(hand: _Hand) -> Optional[str]:
    """The seat that a source of OHH names at the refused action."""
    if hand.notation not in ("ohh", "ohh-to") or not hand.refused.action:
        return None
    source = json.loads(hand.data)["ohh"]
    said = [each for part in source["rounds"] for each in part["actions"]][hand.refused.action - 1]
    return f"p{seats_of(source).index(said['player_id']) + 1}"


def _held(events: Sequence[Step], seat: str) -> list[str]:
    """The cards of a seat after some events."""
    found: list[str] = []
    for step in events:
        words = step.text.split(" ")
        cards = re.findall("..", words[-1])
        if words[:3] == ["d", "dh", seat]:
            found += cards
        elif words[:2] == [seat, "sd"] and len(words) > 2:
            for card in cards:
                found.remove(card if card in found else "??" if "??" in found else found[-1])
    return found
