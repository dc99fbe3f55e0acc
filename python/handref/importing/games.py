"""Game files of logs: which one is of a log, and as handref reads it."""
import os
import re
from dataclasses import dataclass, field
from decimal import Decimal
from typing import Optional

from handref import texts
from handref.importing import amounts
from handref.importing.record import LeftOut

_NAMED = re.compile(r"^#\s*name/game/hands/seed\s+\S+\s+(\S+\.game)\b", re.M)
_LINE = re.compile(r"([A-Za-z]+)\s*=\s*([0-9. \t]+)")
_CHIPS = {"blind": "blind", "stack": "stack", "raisesize": "raiseSize"}
# Games that handref does not have, by their rounds, suits, ranks and hole cards.
_OTHERS = {(1, 1, 1): "Kuhn poker", (2, 2, 1): "Leduc hold'em"}


@dataclass
class GameFile:
    """A game file: its lines without comments, the numbers of its keys, and what was changed."""
    lines: list[str] = field(default_factory=list)
    numbers: dict[str, list[str]] = field(default_factory=dict)
    is_changed: bool = False

    def one(self, key: str) -> int:
        """The number of a key that has one, else 0."""
        found = self.numbers.get(key.lower(), [])
        return int(found[0]) if len(found) == 1 and found[0].isdecimal() else 0

    def other_game(self) -> str:
        """The game, if it is one that handref does not have."""
        shape = (self.one("numRounds"), self.one("numSuits"), self.one("numHoleCards"))
        if shape in _OTHERS:
            return _OTHERS[shape]
        return "" if shape == (4, 4, 2) else "a game that is no hold'em"

    def exchanges_seats(self) -> bool:
        """Whether it is a game of two whose first seat posts the small blind: handref reads such a
        game with the seats exchanged."""
        blinds = self.numbers.get("blind", [])
        return (self.one("numPlayers") == 2 and len(blinds) == 2
                and Decimal(blinds[0]) < Decimal(blinds[1])
                and self.numbers.get("firstplayer") == ["1", "2", "2", "2"])

    def text(self, times: int, is_exchanged: bool) -> bytes:
        """The file as handref reads it, with chips that are multiplied."""
        found = []
        for line in self.lines:
            match = _LINE.fullmatch(line)
            if match:
                key, numbers = match[1], match[2].split()
                if key.lower() in _CHIPS:
                    numbers = [str(amounts.whole(Decimal(each), times, key)) for each in numbers]
                if is_exchanged and key.lower() in ("blind", "stack"):
                    numbers.reverse()
                if is_exchanged and key.lower() == "firstplayer":
                    numbers = ["2", "1", "1", "1"]
                line = f"{key} = {' '.join(numbers)}"
            found.append(line)
        return ("\n".join(found) + "\n").encode()


def read(path: str) -> GameFile:
    """Reads a game file, with comments at the ends of lines, spaces and tabs. LeftOut: it does not
    read."""
    try:
        with open(path, "rb") as file:
            data = file.read(1 << 20).removeprefix(b"\xef\xbb\xbf").decode()
    except OSError as why:
        raise LeftOut("a game file that cannot be read", texts.shown(path)) from why
    except UnicodeDecodeError as why:
        raise LeftOut("a game file that does not read", texts.shown(path)) from why
    game = GameFile()
    for line in data.replace("\r\n", "\n").split("\n"):
        bare = line.partition("#")[0].strip()
        if not bare:
            continue
        # Comments and empty lines, spaces around a line and tabs: handref reads only the first two.
        game.is_changed = game.is_changed or bare != line
        game.lines.append(bare)
        match = _LINE.fullmatch(bare)
        if match:
            game.numbers[match[1].lower()] = match[2].split()
            game.is_changed = game.is_changed or "\t" in bare
    return game


def of_log(path: str, folder: str, front: str, given: Optional[str]) -> tuple[str, str]:
    """The game file of a log, and how it was found; "" if there is none for sure."""
    if given:
        return given, ""
    stem = re.sub(r"(\.[^./]+)?(\.gz)?\Z", "", path)
    if os.path.isfile(stem + ".game"):
        return stem + ".game", ""
    named = _NAMED.search(front)
    if named and os.path.basename(named[1]) == named[1] and os.path.isfile(
            os.path.join(folder, named[1])):
        return os.path.join(folder, named[1]), "which it names"
    listed = sorted(name for name in os.listdir(folder or ".") if name.endswith(".game"))
    if len(listed) == 1:
        return os.path.join(folder, listed[0]), "the only one of the folder"
    return "", ""
