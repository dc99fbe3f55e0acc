"""Makes hands for tests: random play of hold'em and Omaha, judged by the proved program, with all that
it says of them."""
import random
import sys
from dataclasses import dataclass, field
from pathlib import Path

sys.path.insert(0, str(Path(__file__).resolve().parent.parent))
import handref  # noqa: E402
from handref import single_hands  # noqa: E402

DECK = [rank + suit for rank in "23456789TJQKA" for suit in "cdhs"]
NAMES = ["Hero", "villain 3", "zoé", "a: b", "(x)", "O'Neil", "日本", "p.q", "Ms [K]", "x-1", "folds", "Z"]


@dataclass
class Made:
    """A hand: its table in PHH, its replay, and what it is besides."""
    table: dict
    replay: handref.Replay = None
    is_tournament: bool = False
    symbol: str = "$"
    mucks: set = field(default_factory=set)
    extra: list = field(default_factory=list)  # seats that are not dealt in


def hands(seed, count, variants=("NT", "NT", "NT", "PO", "FT"), players=(2, 9), with_rake=True,
          match=None):
    """Legal hands, made from a seed: players p1 to pn, whole chips. With `match`, a stack, all of them
    are no-limit hold'em with these stacks and blinds of 100 and 200, and all chips are even."""
    rnd, found, number = random.Random(seed), [], 0
    while len(found) < count:
        some = []
        for _ in range(min(2000, 2 * (count - len(found)) + 20)):
            number += 1
            some.append(_one(rnd, number, variants, players, with_rake, match))
        data = [single_hands.document(made.table) for made in some]
        verdicts = handref.judge(single_hands.together(data, "phh"), "phh")
        legal = [made for made, verdict in zip(some, verdicts) if verdict.refused is None]
        documents = [single_hands.document(made.table) for made in legal]
        for made, replay in zip(legal, handref.replay(single_hands.together(documents, "phh"), "phh",
                                                      each=True)):
            made.replay = replay
            made.table["finishing_stacks"] = list(replay.finish)
        found += legal
    return found[:count]


def _one(rnd, number, variants, players, with_rake, match):
    variant, n = rnd.choice(variants), rnd.randint(*players)
    is_tournament = not match and variant == "NT" and rnd.random() < 0.3
    big = 200 if match else rnd.choice((2, 10, 50, 100, 200))
    small = big // 2
    ante = rnd.choice((0, big // 10)) if is_tournament else 0
    game = _Game(rnd, variant, n, small, big, ante, match)
    seats = sorted(rnd.sample(range(1, 11), n))
    turn = rnd.randrange(n)
    table = {"variant": variant, "ante_trimming_status": True, "antes": [ante] * n,
             "blinds_or_straddles": ([big, small] if n == 2 else [small, big] + [0] * (n - 2)),
             "starting_stacks": game.stacks, "actions": [], "hand": 7_000_000 + number,
             "table": rnd.choice(("Halley", "Aludra III", "O'Brien 2")), "seat_count": 10,
             "players": rnd.sample(NAMES, n), "seats": seats[turn:] + seats[:turn],
             "year": 2024, "month": rnd.randint(1, 12), "day": rnd.randint(1, 28)}
    table.update({"small_bet": big, "big_bet": 2 * big} if variant == "FT" else {"min_bet": big})
    made = Made(table, is_tournament=is_tournament)
    game.play()
    made.mucks = game.mucks
    table["actions"] = game.actions()
    if with_rake and not is_tournament and rnd.random() < 0.6:
        table["_rakes"] = [rnd.randint(0, max(1, game.pot() // 20))]
    return made


class _Game:
    """Random betting, which need not be legal: what is not is dropped."""

    def __init__(self, rnd, variant, n, small, big, ante, match):
        self.rnd, self.variant, self.n, self.big, self.match = rnd, variant, n, big, match
        self.stacks = [rnd.choice((big * rnd.randint(2, 12), big * rnd.randint(20, 200),
                                   rnd.randint(big + ante + 1, 150 * big))) for _ in range(n)]
        if match:
            self.stacks = [match] * n
        self.left = [stack - min(ante, stack) for stack in self.stacks]
        self.dead = [min(ante, stack) for stack in self.stacks]
        self.on = [0] * n
        blinds = [big, small] if n == 2 else [small, big] + [0] * (n - 2)
        for seat, blind in enumerate(blinds):
            self.put(seat, blind)
        self.before = sum(self.dead)
        self.live = [True] * n
        self.moves, self.mucks = [], set()
        deck = rnd.sample(DECK, 52)
        if match and rnd.random() < 0.3:  # all who show have the straight flush of the board
            best = [rank + "s" for rank in "TJQKA"]
            deck = [card for card in deck if card not in best] + best
        count = 4 if variant == "PO" else 2
        self.hole = ["".join(deck[count * seat:count * seat + count]) for seat in range(n)]
        self.board = deck[-5:]
        self.hero = rnd.choice([None, *range(n)])

    def put(self, seat, chips):
        chips = min(chips, self.left[seat])
        self.left[seat] -= chips
        self.on[seat] += chips

    def pot(self):
        return sum(self.stacks) - sum(self.left)

    def play(self):
        for street in range(4):
            if street:
                self.before += sum(self.on)
                self.on = [0] * self.n
                cards = self.board[:3] if street == 1 else self.board[street + 1:street + 2]
                self.moves.append("d db " + "".join(cards))
            self.bet(street)
            if sum(self.live) == 1:
                return
        live = [seat for seat in range(self.n) if self.live[seat]]
        self.mucks = {seat for seat in live[1:] if self.rnd.random() < 0.15 and seat != self.hero}

    def bet(self, street):
        first = (1 if self.n == 2 else 2 % self.n) if street == 0 else 0
        order = [(first + step) % self.n for step in range(self.n)]
        todo = [seat for seat in order if self.live[seat] and self.left[seat]]
        raised, size = 0, self.big
        if len(todo) < 2 and not any(max(self.on) > self.on[seat] for seat in todo):
            return
        while todo and sum(self.live) > 1:
            seat = todo.pop(0)
            owed = max(self.on) - self.on[seat]
            others = [other for other in range(self.n) if other != seat and self.live[other]
                      and self.left[other]]
            if not owed and not others:
                continue
            way = self.rnd.random()
            if owed and way < 0.35:
                self.live[seat] = False
                self.moves.append(f"p{seat + 1} f")
                continue
            to = self.target(seat, street, size) if way > 0.7 and others and raised < 4 else None
            if to is None:
                self.put(seat, owed)
                self.moves.append(f"p{seat + 1} cc")
                continue
            size, raised = max(size, to - max(max(self.on), 0)), raised + 1
            self.put(seat, to - self.on[seat])
            self.moves.append(f"p{seat + 1} cbr {to}")
            todo = [(seat + step) % self.n for step in range(1, self.n)
                    if self.live[(seat + step) % self.n] and self.left[(seat + step) % self.n]]

    def target(self, seat, street, size):
        """A total to which a player may bet or raise, or nothing."""
        bet, all_in = max(self.on), self.on[seat] + self.left[seat]
        if all_in <= bet:
            return None
        if self.variant == "FT":
            unit = self.big if street < 2 else 2 * self.big
            return min(all_in, unit if bet < unit else bet + unit)
        least = bet + size
        if self.variant == "PO":
            most = min(all_in, max(least, bet + self.before + sum(self.on) + bet - self.on[seat]))
        else:
            most = all_in
        if most <= least:
            return most if most == all_in else None
        found = most if self.rnd.random() < 0.2 else self.rnd.randint(least, most)
        return found - found % 2 if self.match and found < most else found

    def actions(self):
        """The script: cards that nobody shows are not known, but for those of the hero."""
        is_shown = [self.live[seat] and sum(self.live) > 1 and seat not in self.mucks
                    for seat in range(self.n)]
        unknown = "??" * (len(self.hole[0]) // 2)
        found = [f"d dh p{seat + 1} {self.hole[seat] if is_shown[seat] or seat == self.hero else unknown}"
                 for seat in range(self.n)] + self.moves
        for seat in range(self.n):
            if self.live[seat] and sum(self.live) > 1:
                found.append(f"p{seat + 1} sm {self.hole[seat]}" if is_shown[seat] else
                             f"p{seat + 1} sm")
        return found
