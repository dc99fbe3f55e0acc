"""Writes hands of tests as sites print them: PokerStars, GGPoker and Winamax."""
import re

GAMES = {"NT": "Hold'em No Limit", "FT": "Hold'em Limit", "PO": "Omaha Pot Limit"}
STREETS = ("Flop", "Turn", "River")


def money(made, chips, site):
    """An amount: cents of a cash game, or chips of a tournament."""
    if made.is_tournament:
        return f"{chips:,}" if site == "ggpoker" else str(chips)
    whole, cents = divmod(chips, 100)
    text = str(whole) if not cents else f"{whole}.{cents:02}"
    if site == "ggpoker" and cents and cents % 10 == 0:
        text = text[:-1]
    return f"{text}€" if site == "winamax" else f"${text}"


def spaced(cards):
    """Cards as sites print them."""
    return "[" + " ".join(re.findall("..", cards)) + "]"


class Text:
    """The text of a hand, line by line."""

    def __init__(self, made, site):
        self.made, self.site = made, site
        self.table, self.replay = made.table, made.replay
        self.n = len(self.table["players"])
        self.sign = " " if site == "winamax" else ": "
        self.lines = []
        self.folded = {}

    def money(self, chips):
        return money(self.made, chips, self.site)

    def name(self, seat):
        return self.table["players"][seat]

    def does(self, seat, what):
        left = self.table["starting_stacks"][seat] - self.put[seat]
        moves = what.split(" ")[0] in ("posts", "calls", "bets", "raises")
        self.lines.append(self.name(seat) + self.sign + what + (" and is all-in" if moves and left == 0
                                                               else ""))

    def document(self):
        """The whole text."""
        self.head()
        for seat in sorted(range(self.n), key=lambda seat: self.table["seats"][seat]):
            stack = self.money(self.table["starting_stacks"][seat])
            self.lines.append(f"Seat {self.table['seats'][seat]}: {self.name(seat)} ({stack}"
                              + (")" if self.site == "winamax" else " in chips)"))
        self.posts()
        self.moves()
        self.end()
        return "\n".join(self.lines) + "\n\n\n"

    def head(self):
        table, small, big = self.table, *sorted(self.table["blinds_or_straddles"])[-2:]
        if table["variant"] == "FT":
            small, big = table["small_bet"], table["big_bet"]
        when = f"{table['year']}/{table['month']:02}/{table['day']:02} 20:14:05"
        game, stakes = GAMES[table["variant"]], f"{self.money(small)}/{self.money(big)}"
        seats = table["seats"]
        button, ante = seats[-1], table["antes"][0]
        if self.site == "winamax":
            kind = 'Tournament "KILL THE FISH" buyIn: 4.50€ + 0.50€ level: 3' if \
                self.made.is_tournament else "CashGame"
            stakes = f"{self.money(ante)}/{stakes}" if ante else stakes
            game = {"NT": "Holdem no limit", "PO": "Omaha pot limit", "FT": "Holdem limit"}[table["variant"]]
            self.lines += [f"Winamax Poker - {kind} - HandId: #{table['hand']} - {game} ({stakes}) - "
                           f"{when} UTC",
                           f"Table: '{table['table']}' 10-max (real money) Seat #{button} is the button"]
            return
        if self.site == "ggpoker":
            level = f"Tournament #77, Daily $5.40 {game} - Level8({stakes}) - {when}"
            cash = f"{game}  ({stakes}) - {when}"
            self.lines.append(f"Poker Hand #{table['hand']}: "
                              + (level if self.made.is_tournament else cash))
        else:
            level = f"Tournament #77, $1.00+$0.10 USD {game} - Level IV ({stakes}) - {when} ET"
            cash = f" {game} ({stakes} USD) - {when} ET"
            self.lines.append(f"PokerStars Hand #{table['hand']}: "
                              + (level if self.made.is_tournament else cash))
        self.lines.append(f"Table '{table['table']}' 10-max Seat #{button} is the button")

    def posts(self):
        self.put, self.on = [0] * self.n, [0] * self.n
        antes, blinds, stacks = (self.table[key] for key in (
            "antes", "blinds_or_straddles", "starting_stacks"))
        if self.site == "winamax":
            self.lines.append("*** ANTE/BLINDS ***")
        for seat in range(self.n):
            if antes[seat]:
                self.put[seat] += min(antes[seat], stacks[seat])
                the = "" if self.site == "winamax" else "the "
                self.does(seat, f"posts {the}ante {self.money(self.put[seat])}")
        order = sorted((seat for seat in range(self.n) if blinds[seat]), key=lambda seat: blinds[seat])
        for seat, kind in zip(order, ("small", "big")):
            chips = min(blinds[seat], stacks[seat] - self.put[seat])
            self.put[seat] += chips
            self.on[seat] = chips
            self.does(seat, f"posts {kind} blind {self.money(chips)}")
        if self.site != "winamax":
            self.lines.append("*** HOLE CARDS ***")
        holes = dict(re.findall(r"d dh (p\d+) (\S+)", "\n".join(self.table["actions"])))
        live = {action.split(" ")[0] for action in self.table["actions"] if " sm " in action}
        for seat in range(self.n):
            cards = holes[f"p{seat + 1}"]
            is_hero = "?" not in cards and f"p{seat + 1}" not in live
            if is_hero or self.site == "ggpoker":
                self.lines.append(f"Dealt to {self.name(seat)}" + (f" {spaced(cards)}" if is_hero else " "))
        if self.site == "winamax":
            self.lines.append("*** PRE-FLOP *** ")

    def moves(self):
        board, steps = "", [step for step in self.replay.steps if not step.text.startswith("d dh")]
        street = 0
        for step in steps[1:] if steps[0].event == 0 else steps:
            words = step.text.split(" ")
            if words[:2] == ["d", "db"]:
                self.board(words[2], board, street)
                board, street, self.on = board + words[2], street + 1, [0] * self.n
                continue
            seat = int(words[0][1:]) - 1
            added = step.put[seat] - self.put[seat]
            self.put[seat] = step.put[seat]
            bet = max(self.on)
            if words[1] == "f":
                self.folded[seat] = street
                self.does(seat, "folds")
            elif words[1] == "cc":
                self.on[seat] += added
                self.does(seat, f"calls {self.money(added)}" if added else "checks")
            elif words[1] == "cbr":
                self.on[seat] += added
                to = self.on[seat]
                self.does(seat, f"raises {self.money(to - bet)} to {self.money(to)}" if bet else
                          f"bets {self.money(to)}")
        self.all_cards = board

    def board(self, cards, before, street):
        joint = "" if self.site == "winamax" else " "
        shown = (spaced(before) + joint if before else "") + spaced(cards)
        self.lines.append(f"*** {STREETS[street].upper()} *** {shown}")

    def end(self):
        for seat, chips in self.replay.returned.items():
            if self.site != "winamax":
                self.lines.append(f"Uncalled bet ({self.money(chips)}) returned to {self.name(seat - 1)}")
        ends = [action.split(" ") for action in self.table["actions"] if " sm" in action]
        if ends:
            self.lines.append({"ggpoker": "*** SHOWDOWN ***"}.get(self.site, "*** SHOW DOWN ***"))
        for words in ends:
            seat = int(words[0][1:]) - 1
            if len(words) == 3:
                self.does(seat, f"shows {spaced(words[2])} (a hand)")
            else:
                self.does(seat, "mucks hand")
        pots = self.replay.pots
        won = {}
        for number, pot in enumerate(pots):
            label = "pot" if len(pots) == 1 else "main pot" if number == 0 else \
                "side pot" if len(pots) == 2 else f"side pot-{number}"
            label = "pot" if self.site == "ggpoker" else label
            for seat, chips in pot.shares.items():
                won[seat - 1] = won.get(seat - 1, 0) + chips
                self.lines.append(f"{self.name(seat - 1)} collected {self.money(chips)} from {label}")
        self.summary(won, ends)

    def summary(self, won, ends):
        pots = self.replay.pots
        total, rake = sum(pot.chips for pot in pots), sum(pot.rake for pot in pots)
        sides = "".join(f" {'Main' if number == 0 else 'Side'} pot{f'-{number}' if number and len(pots) > 2 else ''}"
                        f" {self.money(pot.chips - pot.rake)}." for number, pot in enumerate(pots))
        sides = sides if len(pots) > 1 and self.site == "pokerstars" else ""
        end = f"Rake {self.money(rake)}"
        if self.site == "winamax" and not rake:
            end = "No rake"
        if self.site == "ggpoker":
            part = rake // 3
            end = f"Rake {self.money(rake - part)} | Jackpot {self.money(part)} | Bingo $0 | Fortune $0 | Tax $0"
        self.lines += ["*** SUMMARY ***", f"Total pot {self.money(total)}{sides} | {end}"]
        if self.all_cards:
            self.lines.append(("Board: " if self.site == "winamax" else "Board ") + spaced(self.all_cards))
        shown = {int(words[0][1:]) - 1: words[2] for words in ends if len(words) == 3}
        for seat in sorted(range(self.n), key=lambda seat: self.table["seats"][seat]):
            front = f"Seat {self.table['seats'][seat]}: {self.name(seat)}" + (
                " (button)" if seat == self.n - 1 else "")
            got = self.money(won.get(seat, 0))
            if self.site == "winamax":
                if won.get(seat):
                    self.lines.append(f"{front} showed {spaced(shown[seat])} and won {got} with a hand"
                                      if seat in shown else f"{front} won {got}")
            elif seat in self.folded:
                where = "before Flop" if not self.folded[seat] else f"on the {STREETS[self.folded[seat] - 1]}"
                self.lines.append(f"{front} folded {where}")
            elif seat in shown:
                self.lines.append(f"{front} showed {spaced(shown[seat])} and " + (
                    f"won ({got}) with a hand" if won.get(seat) else "lost with a hand"))
            elif won.get(seat):
                self.lines.append(f"{front} collected ({got})")
            else:
                self.lines.append(f"{front} mucked")


def base_of(made, site):
    """The table that a text of a hand has to become."""
    table = dict(made.table)
    table.update(venue={"pokerstars": "PokerStars", "ggpoker": "GGPoker", "winamax": "Winamax"}[site],
                 time="20:14:05")
    zone = {"pokerstars": "ET", "winamax": "UTC"}.get(site)
    if zone:
        table["time_zone"] = zone
    return table
