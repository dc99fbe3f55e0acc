"""What the house took from each pot, by the replay of a hand and by what its players got."""
from dataclasses import dataclass
from typing import Optional, Sequence

from handref import Pot, Replay


@dataclass
class Taken:
    """The rakes of the pots, what each player ends with, and what is said of it."""
    rakes: list[int]
    finish: list[int]
    said: str


def of_pots(replay: Replay, won: Sequence[int]) -> Optional[list[int]]:
    """The rake of each pot if the players won these chips, p1 first. None: the pots have fewer
    chips, or more than one division of the rake is possible."""
    pots = replay.pots
    missing = sum(pot.chips for pot in pots) - sum(won)
    if missing <= 0:
        return [] if missing == 0 else None
    if len(pots) == 1:
        return [missing]
    winners = [set(pot.shares) for pot in pots]
    if all(own == winners[0] for own in winners) and len(winners[0]) == 1:
        return _from_the_first(pots, missing)
    found = []
    for place, own in enumerate(winners):
        if any(own & other for other in winners[:place] + winners[place + 1:]):
            return None
        found.append(pots[place].chips - sum(won[seat - 1] for seat in own))
    return found if all(0 <= rake for rake in found) and sum(found) == missing else None


def _from_the_first(pots: Sequence[Pot], missing: int) -> list[int]:
    """One player has won all pots, so it does not matter from which the rake is taken."""
    found = []
    for pot in pots:
        found.append(min(missing, pot.chips))
        missing -= found[-1]
    return found


def of_winnings(replay: Replay, stacks: Sequence[int], won: Sequence[int]) -> Optional[Taken]:
    """The rakes of a hand of which only the winnings are known; None if they cannot be the
    winnings of its pots, or leave the rakes open. Winnings above the pots count the chips that
    came back."""
    pot, total = sum(pot.chips for pot in replay.pots), sum(won)
    back = [replay.returned.get(seat, 0) for seat in range(1, len(stacks) + 1)]
    came_back = sum(back)
    said = f"winnings {total} of {pot}"
    if total > pot and came_back:
        won = [chips - returned for chips, returned in zip(won, back)]
        said += f" and {came_back} that came back"
    if min(won) < 0 or len(replay.steps[-1].put) != len(stacks):
        return None
    found = of_pots(replay, won)
    if found is None:
        return None
    finish = [stack - put + returned + chips for stack, put, returned, chips in
              zip(stacks, replay.steps[-1].put, back, won)]
    return Taken(found, finish, f"{said}: rake {sum(found)}")
