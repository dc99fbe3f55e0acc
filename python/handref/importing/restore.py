"""Puts the keys of PHH that handref does not keep back into hands that were converted."""
import json
import os
import re
from typing import Any

from handref import outputs, phhs, toml

_BARE = re.compile(r"[A-Za-z0-9_-]+")
_END = re.compile(r"(\.[^./]+)?(\.gz)?\Z")


def kept(path: str) -> dict[str, dict[int, dict[str, str]]]:
    """The keys of each hand of each file, as an import has listed them: by the name of the file
    without its end, and by the place of the hand in it, from 1. ValueError: it is no such list."""
    found: dict[str, dict[int, dict[str, str]]] = {}
    with open(path, encoding="utf-8") as file:
        for number, line in enumerate(file, 1):
            try:
                row: Any = json.loads(line)
                stem = _END.sub("", row["file"], count=1)
                keys = {str(key): str(text) for key, text in row["keys"].items()}
                found.setdefault(stem, {})[int(row["hand"])] = keys
            except (ValueError, KeyError, TypeError, AttributeError) as why:
                raise ValueError(f"{path}: line {number} is no line of other-keys.jsonl") from why
    return found


def restore(path: str, out: str, source: str) -> tuple[int, int]:
    """Puts the keys of a list into the files of a folder, or into one file that was made of a
    source. Gives how many hands have their keys again, and of how many there is no file."""
    done = missing = 0
    for stem, hands in kept(path).items():
        if os.path.isdir(out):
            place = os.path.join(out, stem + ".phh")
        elif os.path.basename(stem) == _END.sub("", os.path.basename(source), count=1):
            place = out
        else:
            continue
        if not os.path.isfile(place):
            missing += len(hands)
            continue
        with open(place, "rb") as file:
            data = file.read()
        with outputs.written(place) as new:
            new.write(_with_keys(data, hands, place))
        done += len(hands)
    return done, missing


def _with_keys(data: bytes, hands: dict[int, dict[str, str]], place: str) -> bytes:
    """A file of PHH with more keys in its hands."""
    found = phhs.Hands(data)
    blocks = [data[slice(*found.span(number))] for number in range(len(found))] if found.is_cut \
        else [data]
    if max(hands, default=0) > len(blocks):
        raise ValueError(f"{place}: it has {len(blocks)} hands, and keys are listed for hand "
                         f"{max(hands)}")
    for number, keys in hands.items():
        own = blocks[number - 1].rstrip(b"\n")
        end = blocks[number - 1][len(own):]
        lines = "".join(f"\n{key if _BARE.fullmatch(key) else json.dumps(key)} = {text}"
                        for key, text in keys.items())
        blocks[number - 1] = own + lines.encode() + (end or b"\n")
    text = b"".join(blocks)
    toml.read(text.decode())
    return text
