"""The files that are made of a wild file."""
import os
import re
from typing import BinaryIO, Iterator, Sequence

from handref.importing import phh, work
from handref.importing.record import Written
from handref.importing.wild import Wild

ENDS = {"phh": ".phhs", "ohh": ".ohh", "ohh-to": ".ohh-to", "acpc": ".log"}


def name_of(one: Wild) -> str:
    """The name of what is made of a file, below OUT."""
    plain = re.sub(r"\.gz\Z", "", one.out)
    if one.kind == "phh":
        return plain if plain.endswith((".phh", ".phhs")) else plain + ".phhs"
    end = {"text": ".phhs", "log": ".log"}.get(one.kind, ".ohh")
    return os.path.splitext(plain)[0] + end


def files(one: Wild, done: work.Done, twice: "set[str]") -> Iterator[tuple[str, list[Written]]]:
    """The names of the files of a file, and the hands of each."""
    first = name_of(one)
    if first in twice:  # two files would have this name
        first = one.out + os.path.splitext(first)[1]
    stem, end = os.path.splitext(first)
    by_notation: dict[str, list[Written]] = {}
    for each in done.written:
        if not each.hand.cause:
            by_notation.setdefault(each.hand.notation, []).append(each)
    own = {"phh": "phh", "text": "phh", "log": "acpc"}.get(one.kind, "ohh")
    for notation in dict.fromkeys([own, *by_notation]):
        name = first if notation == own else stem + ENDS[notation] if notation != "phh" else \
            f"{stem}{end}.phhs"
        written = by_notation.get(notation, [])
        yield name, written if any(each.hand.number for each in written) else []


def beside(one: Wild, end: str, twice: "set[str]") -> str:
    """The name of a file beside what is made of a file."""
    first = name_of(one)
    return (one.out if first in twice else os.path.splitext(first)[0]) + end


def write(file: BinaryIO, one: Wild, name: str, written: Sequence[Written]) -> None:
    """Writes hands as one file."""
    notation = written[-1].hand.notation
    if notation == "phh" and one.kind == "phh":
        _write_tables(file, one, written)
    elif notation == "phh":
        for place, each in enumerate(written, 1):
            file.write(b"\n" * (place > 1) + b"[%d]\n" % place + each.data)
    else:
        between = b"\n" if notation != "acpc" else b""
        for place, each in enumerate(written):
            file.write(between * (place > 0) + each.data + b"\n")


def _write_tables(file: BinaryIO, one: Wild, written: Sequence[Written]) -> None:
    """Hands of PHH, as they were. Where hands before one are left out, it gets the number that it
    had by its place."""
    start = min(each.hand.start for each in written)
    if start:
        with open(one.path, "rb") as source:
            front = source.read(start) if written[0].hand.number == 1 else b""
        file.write(front)
    for place, each in enumerate(written, 1):
        data = each.data
        if each.hand.number > place:
            data = _numbered(data, each.hand.number - 1)
        file.write(data if data.endswith(b"\n") or place == len(written) else data + b"\n")


def _numbered(data: bytes, number: int) -> bytes:
    """A hand of PHH with the key `hand`: its own, or else this number."""
    table = phh.Table(data.decode())
    if table.table.get("hand", "") == "":
        table.add("hand", str(number))
    return table.edited().encode()
