"""Hands of PHH as they are written: in whole chips, with rakes for winnings, and judged."""
from typing import Optional

from handref import HandrefError
from handref.importing import amounts, judging, phh, rakes
from handref.importing.record import Hand, LeftOut, Written
from handref.importing.rules import Rules


def finish(hands: list[Hand], units: "amounts.Units", rules: Rules) -> list[Written]:
    """Writes hands, and asks for the verdict on each. What does not read, or stops early, is left
    out."""
    found = []
    for hand in hands:
        written = Written(hand)
        found.append(written)
        if hand.cause:
            continue
        try:
            if rules.has("unit"):
                phh.in_chips(hand, units.of(hand))
        except LeftOut as why:
            hand.leave_out(why)
            continue
        written.data = hand.value.edited().encode()
        if rules.has("other-keys"):
            written.kept = phh.kept_keys(phh.Table(written.data.decode()))
    wanted = [written for written in found if not written.hand.cause]
    _judge(wanted)
    if rules.has("winnings"):
        changed = _with_rakes([written for written in wanted if not written.hand.cause])
        _judge(changed)
    return found


def _judge(wanted: list[Written]) -> None:
    for written, refused in zip(wanted, judging.verdicts(
            [judging.body(written.data) for written in wanted], "phh")):
        settle(written, refused)


def settle(written: Written, refused: Optional[HandrefError]) -> None:
    """Notes a verdict: a hand that is not judged is left out."""
    cause = judging.cause_of(refused) if refused else None
    if cause:
        written.hand.leave_out(LeftOut(*cause))
    written.refused = refused


def _with_rakes(wanted: list[Written]) -> list[Written]:
    """The hands that got rakes and finishing stacks from their winnings."""
    some = [(written, won) for written in wanted
            if (won := phh.winnings(written.hand.value.table)) is not None and (
                written.refused is None or getattr(written.refused, "reason", "") == "stated")]
    replays = judging.replays([judging.body(written.data) for written, _ in some], "phh")
    found = []
    for (written, won), replay in zip(some, replays):
        table = written.hand.value
        stacks = table.table["starting_stacks"]
        taken = rakes.of_winnings(replay, stacks, won) if replay.finish else None
        if taken is None:
            written.hand.leave_out(LeftOut(
                "winnings that are not those of the pots",
                f"winnings {sum(won)}, pots {', '.join(str(pot.chips) for pot in replay.pots)}"))
            continue
        before = table.edited()
        if any(taken.rakes):
            table.add("_rakes", str(taken.rakes))
        if "finishing_stacks" not in table.table:
            table.add("finishing_stacks", str(taken.finish))
        written.hand.change("winnings", taken.said, f"winnings = {won}", after(table, before))
        written.data = table.edited().encode()
        found.append(written)
    return found


def after(table: phh.Table, before: str) -> str:
    """The lines that a rule has added."""
    old = set(before.split("\n"))
    return "\n".join(line for line in table.edited().split("\n") if line not in old)

