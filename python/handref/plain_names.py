"""Hands with other names, for output whose lines a name with a line end would make unclear."""
import json
from typing import Any

from handref import Notation, single_hands, toml
from handref.formats import OHH_NAME, OHH_PLAYERS, PHH_NAMES


def renamed(text: bytes, notation: Notation) -> tuple[bytes, dict[str, str]]:
    """Hands, as `convert` writes them, in which a word stands for each name with a line end; and
    which name each word stands for."""
    words: dict[str, str] = {}
    free = _free(text)

    def word_of(name: Any) -> Any:
        if not isinstance(name, str) or "\n" not in name:
            return name
        return words.setdefault(name, f"{free}{len(words) + 1}")

    if notation == "phh":
        data = _phh(text, word_of)
    else:
        data = _ohh(text, word_of)
    return data, {word: name for name, word in words.items()}


def _free(text: bytes) -> str:
    """The front of a word that is nowhere in a text."""
    number = 1
    while f"name-{number}-".encode() in text:
        number += 1
    return f"name-{number}-"


def _phh(text: bytes, word_of: Any) -> bytes:
    document = toml.read(text.decode())
    tables = [document] if "variant" in document else [document[key] for key in
                                                       sorted(document, key=int)]
    found = []
    for number, table in enumerate(tables, 1):
        if PHH_NAMES in table:
            table[PHH_NAMES] = [word_of(name) for name in table[PHH_NAMES]]
        head = f"[{number}]\n" if len(tables) > 1 else ""
        found.append(head.encode() + single_hands.document(table))
    return b"".join(found)


def _ohh(text: bytes, word_of: Any) -> bytes:
    found = []
    for line in text.split(b"\n"):
        if line:
            hand = json.loads(line)
            for player in hand["ohh"][OHH_PLAYERS]:
                if OHH_NAME in player:
                    player[OHH_NAME] = word_of(player[OHH_NAME])
            found.append(json.dumps(hand, ensure_ascii=False).encode() + b"\n")
    return b"\n".join(found)
