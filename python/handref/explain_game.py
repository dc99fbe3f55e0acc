"""What is wrong with a line of a game file, which the program calls `GameShape`: which key, and
why."""
import re
from difflib import get_close_matches
from typing import Optional

from handref.texts import counted, shown
from handref.places import Spot, spot

# The keys of docs/FORMATS.md, in its spelling, with how many numbers each has: 0 is one for each
# player.
_KEYS = {"numPlayers": 1, "numRounds": 1, "numSuits": 1, "numRanks": 1, "numHoleCards": 1,
         "numBoardCards": 4, "blind": 0, "stack": 0, "firstPlayer": 4, "raiseSize": 4,
         "maxRaises": 4}
_NEEDED = ("numPlayers", "numRounds", "numSuits", "numRanks", "numHoleCards", "numBoardCards",
           "blind", "firstPlayer")
_SPELLED = {key.lower(): key for key in _KEYS}


def why(data: bytes, number: int, reason: str) -> tuple[Optional[Spot], list[str]]:
    """The spot of a line of a game file, and what is wrong there, sentence by sentence."""
    text = data.decode("utf-8", "replace")
    lines = text.split("\n")
    lines = [line[:-1] if line.endswith("\r") else line for line in lines]
    line = lines[number - 1] if number <= len(lines) else ""
    start = sum(len(each) + 1 for each in text.split("\n")[:number - 1])
    said = _of_line(lines, number, line) if reason == "GameShape" else []
    if reason == "GameShape" and not said and "END GAMEDEF" not in lines:
        said = [("The file ends without END GAMEDEF.", 0, len(line))]
    column, length = said[0][1:] if said else (0, len(line))
    if said or reason == "UnsupportedGame":
        said += [(text, column, length) for text in _other_game(lines)]
    found = spot(text, start + column, start + column + max(1, length))
    return found, [each[0] for each in said]


def _other_game(lines: list[str]) -> list[str]:
    """Whether the file is of another game than hold'em, as Kuhn or Leduc, or has two players in
    the other order."""
    for key, wanted in (("numRounds", 4), ("numSuits", 4), ("numRanks", 13), ("numHoleCards", 2)):
        line = next((each for each in lines if _key_of(each) == key), "")
        found = re.search(r"= *(\d+) *\Z", line)
        if found and int(found[1]) != wanted:
            return [f"{key} is {found[1]}, and {wanted} in hold'em: handref reads no other game."]
    first = next((each for each in lines if _key_of(each) == "firstPlayer"), "")
    if re.search(r"= *1 +2 +2 +2 *\Z", first):
        return ["firstPlayer is 1 2 2 2: of two players the one with the button is first here, and "
                "second in what handref reads."]
    return []


Fault = tuple[str, int, int]  # what is said, of which signs of the line


def _of_line(lines: list[str], number: int, line: str) -> list[Fault]:
    before = [each for each in lines[:number - 1] if each.strip() and not each.startswith("#")]
    whole = (0, len(line))
    if re.match(r"STATE:|MATCHSTATE:", line):
        return [("This is a log, and no game file: --game names the file from GAMEDEF to "
                 "END GAMEDEF.", *whole)]
    if "\t" in line:
        return [("The line has a tab: only spaces may stand between words.", line.index("\t"), 1)]
    if line != line.strip(" "):
        at = 0 if line.startswith(" ") else len(line.rstrip(" "))
        return [("The line begins or ends with a space.", at, 1)]
    if not before:
        return [] if line == "GAMEDEF" else [
            ("The first line of a game file is GAMEDEF.", *whole)]
    if before[-1] == "END GAMEDEF":
        return [("Something follows END GAMEDEF.", *whole)]
    if line == "END GAMEDEF":
        return [(text, *whole) for text in _missing(before)]
    return _of_key(before, line)


def _of_key(before: list[str], line: str) -> list[Fault]:
    """What is wrong with a line of a key and its numbers."""
    key, equals, numbers = (part.strip(" ") for part in line.partition("="))
    name = _SPELLED.get(key.lower())
    if not equals and key.lower() in ("limit", "nolimit"):
        return [("The file says limit or nolimit a second time.", 0, len(line))]
    if name is None:
        near = get_close_matches(key.lower(), [*_SPELLED, "limit", "nolimit"], 1)
        hint = f" Perhaps {_SPELLED.get(near[0], near[0])} is meant." if near else ""
        return [(f"{shown(key)} is no key of a game file.{hint}", 0, max(1, len(key)))]
    if any(_key_of(each) == name for each in before):
        return [(f"The key {name} is here a second time.", 0, len(key))]
    if not equals:
        return [(f"The key {name} has no = and no numbers.", 0, len(key))]
    at = line.index("=") + 1
    for word in re.finditer("[^ ]+", line[at:]):
        if not re.fullmatch("[0-9]+", word[0]):
            return [(f"{shown(word[0])} is no number: numbers have digits alone, and spaces "
                     "between them.", at + word.start(), len(word[0]))]
    count, wanted = len(numbers.split()), _KEYS[name]
    if not count or wanted and count != wanted:
        needed = wanted or "one for each player"
        return [(f"{name} has {counted(count, 'number')}, and needs {needed}.", at,
                 len(line) - at)]
    return []


def _key_of(line: str) -> Optional[str]:
    return _SPELLED.get(line.partition("=")[0].strip(" ").lower())


def _players(lines: list[str]) -> Optional[int]:
    """How many players a game file says."""
    said = next((each for each in lines if _key_of(each) == "numPlayers"), "")
    found = re.search(r"=\s*(\d+)", said)
    return int(found[1]) if found else None


def _missing(before: list[str]) -> list[str]:
    """What the whole of a game file is without."""
    keys = {_key_of(line): line for line in before}
    words = {line.strip().lower() for line in before}
    kind = next((word for word in ("limit", "nolimit") if word in words), None)
    said = [] if kind else ["The file says neither limit nor nolimit."]
    needed = (*_NEEDED, *{"limit": ["raiseSize"], "nolimit": ["stack"]}.get(kind or "", []))
    missing = [key for key in needed if key not in keys]
    if missing:
        said.append(f"The file is without the key{'s' * (len(missing) > 1)} {', '.join(missing)}.")
    players = _players(before)
    for key in ("blind", "stack"):
        count = len(keys.get(key, "").partition("=")[2].split())
        if key in keys and players is not None and count != players:
            said.append(f"{key} has {counted(count, 'number')}, and numPlayers says "
                        f"{counted(players, 'player')}.")
    return said
