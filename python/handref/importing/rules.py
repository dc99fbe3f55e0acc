"""The rules of `handref import`: what each sees, what it writes, and why the hand stays the same."""
from dataclasses import dataclass, field


@dataclass(frozen=True)
class Rule:
    """A rule: its name, the sources that it is for, what it sees, what it writes, why the hand is
    the same afterwards, and how it is said of many hands."""
    name: str
    sources: str
    sees: str
    writes: str
    why: str
    many: str = ""


RULES = (
    Rule("unit", "PHH, OHH, logs, texts", "amounts with a fraction",
         "all amounts of the file times the first of 1, 2, 4, 10, 100 .. that makes all of them whole;"
         " amounts in a currency times 1, 100, 1000 ..; a log times the least number; the unit in"
         " `currency`", "every amount is the same number of the smaller unit, and none is rounded"),
    Rule("winnings", "PHH", "`winnings`, and no `_rakes`",
         "the chips of the pots that nobody won as `_rakes`; as `finishing_stacks` the starting"
         " stack, less what was put in, plus what came back and the winnings",
         "the replay compares the stacks, so winnings of another player or of another sum are refused",
         "winnings written as rakes and finishing stacks"),
    Rule("muck-dash", "PHH", "`pN sm -`", "`pN sm`", "both say that the player mucks",
         "sm - written as sm"),
    Rule("other-keys", "PHH", "keys that handref does not keep, as `event` and `city`",
         "the same keys, also in other-keys.jsonl, for `many convert --restore`",
         "they say nothing of the play"),
    Rule("documents", "OHH", "JSON lists, hands without an empty line between them, a byte order mark",
         "a hand a line, with an empty line between two", "JSON says where a hand ends"),
    Rule("nulls", "OHH", "members that are null", "nothing for them",
         "null says that there is nothing", "members that are null left out"),
    Rule("not-dealt-in", "OHH, texts", "players without an action, a post, a card or a win",
         "the hand without them", "whoever is dealt in acts, posts or wins in every hand that is legal",
         "players who are not dealt in left out of the hand"),
    Rule("jackpot", "OHH, texts", "a jackpot or another fee that is taken from a pot, beside the rake",
         "a rake with it, if the pot is only whole so", "all of it goes to the house",
         "jackpots written as rakes"),
    Rule("dead-button", "OHH", "`dealer_seat` is a seat without a player",
         "PHH, whose first player is the next one after the button; what the pots state as finishing "
         "stacks and `_rakes`", "PHH says who acts first, and names no button",
         "nobody has the button: written as PHH"),
    Rule("dead-small-blind", "OHH", "nobody posts the small blind",
         "PHH, with 0 in `blinds_or_straddles`; what the pots state as finishing stacks and `_rakes`",
         "PHH says what each player posts", "nobody posts the small blind: written as PHH"),
    Rule("dialect", "OHH", "files that do not say whether a raise adds its amount or goes to it",
         "OHH, named .ohh or .ohh-to, if every hand that is legal in either dialect is legal in one, "
         "and some hand only in that one", "in the other dialect a hand would not be legal"),
    Rule("game-file", "logs", "comments at the ends of lines, tabs, and spaces around lines",
         "the game file without them, beside the log and with its name",
         "they say nothing of the game"),
    Rule("seats-exchanged", "logs", "a game of two with `firstPlayer = 1 2 2 2`, the smaller blind "
         "first", "both seats exchanged, in the game file and in each hand",
         "who posts, who acts first and who wins stay the same", "the seats are exchanged"),
    Rule("dealer-output", "logs", "lines with MATCHSTATE, as a dealer prints or a player gets them",
         "the last state of each hand as a line of a log, with the cards that any seat saw; the names "
         "of the SCORE line; the values of the replay; or the line of the log where it follows",
         "each state goes on from the one before; the values are compared with SCORE",
         "the final state of what the dealer sent"),
    Rule("score", "logs", "SCORE lines", "nothing: the sum of the values before it is compared, and "
         "a difference is said and makes the status 1", "it is only read"),
    Rule("text", "texts", "hands of PokerStars, GGPoker and Winamax as the sites print them",
         "PHH: what each player puts in by the text, gets back and collects as `finishing_stacks`, what "
         "the house takes as `_rakes`; shows after the last move",
         "every move, card and sum of the text is compared with another line of it, or with the replay"),
    Rule("returned-bet", "texts", "a text whose pot is less than what was put in, and that names no "
         "uncalled bet", "the difference as chips that come back to the player who has put in most",
         "the pot and what was collected are compared", "bets that nobody called returned"),
    Rule("other-lines", "texts", "lines that say nothing of the play: chat, players who come, go or are "
         "disconnected, bounties, places in a tournament", "nothing", "no chip of the hand is in them"),
)
NAMES = tuple(rule.name for rule in RULES)


@dataclass
class Rules:
    """Which rules are on."""
    off: frozenset[str] = field(default_factory=frozenset)

    def has(self, name: str) -> bool:
        """Whether a rule is on."""
        assert name in NAMES
        return name not in self.off


def named(names: "list[str]") -> Rules:
    """All rules but these. ValueError: there is no such rule."""
    for name in names:
        if name not in NAMES:
            raise ValueError(f"--not {name}: there is no such rule; handref import --rules lists "
                             "them")
    return Rules(frozenset(names))


def by_name(name: str) -> Rule:
    """The rule with a name."""
    return RULES[NAMES.index(name)]


def listed() -> str:
    """The table of the rules, for a terminal."""
    found = []
    for rule in RULES:
        found.append(f"{rule.name} ({rule.sources})\n  sees    {rule.sees}\n  writes  {rule.writes}\n"
                     f"  same    {rule.why}\n")
    return "\n".join(found)
