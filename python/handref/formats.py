"""What the notations are called, the ends of the names of their files, the games, and the keys of
PHH and OHH."""
import re
from typing import Optional

import handref

NOTATIONS: dict[str, handref.Notation] = {
    ".phh": "phh", ".phhs": "phh", ".ohh": "ohh", ".ohh-to": "ohh-to", ".acpc": "acpc",
    ".log": "acpc"}
GAMES = {
    "FT": "fixed-limit Texas hold'em", "NT": "no-limit Texas hold'em",
    "NS": "no-limit short-deck hold'em", "PO": "pot-limit Omaha",
    "FO/8": "fixed-limit Omaha eight-or-better", "F7S": "fixed-limit seven card stud",
    "F7S/8": "fixed-limit stud eight-or-better", "FR": "fixed-limit razz",
    "N2L1D": "no-limit deuce-to-seven single draw",
    "F2L3D": "fixed-limit deuce-to-seven triple draw", "FB": "fixed-limit badugi"}
# In the order in which `convert` writes them.
PHH_KEYS: tuple[str, ...] = (
    "variant", "starting_stacks", "antes", "ante_trimming_status", "blinds_or_straddles",
    "bring_in", "small_bet", "big_bet", "min_bet", "actions", "finishing_stacks", "_rakes",
    "players", "seats", "seat_count", "hand", "table", "venue", "currency", "year", "month",
    "day", "time", "time_zone")

PHH_NOTES: tuple[str, ...] = PHH_KEYS[PHH_KEYS.index("players"):]
PHH_AMOUNTS = ("bring_in", "small_bet", "big_bet", "min_bet")
PHH_AMOUNT_LISTS = ("starting_stacks", "antes", "blinds_or_straddles", "finishing_stacks", "_rakes")

PHH_NAMES = "players"  # the key of the names of the players
# Of OHH: the members of `ohh` that say the same as a key of PHH, and that of a player with its name.
OHH_NOTES = {"venue": "site_name", "hand": "game_number", "table": "table_name",
             "seat_count": "table_size", "seats": "players", "players": "players",
             "currency": "currency"}
OHH_PLAYERS, OHH_NAME = "players", "name"
# The keys of PHH and the members of OHH that a fact without a spelling comes from.
FACT_KEYS = {"Variant": ("variant", "game_type"), "SeatCount": ("starting_stacks", "players"),
             "Stacks": ("starting_stacks", "players"), "BetSizes": ("min_bet", "bet_limit"),
             "Antes": ("antes", "ante_amount"), "Rake": ("_rakes", "pots"),
             "Blinds": ("blinds_or_straddles", "small_blind_amount")}


def notation_of(path: str) -> Optional[handref.Notation]:
    """The notation of a file by the end of its name, before .gz."""
    name = re.sub(r"\.gz\Z", "", path)
    return next((NOTATIONS[end] for end in NOTATIONS if name.endswith(end)), None)
