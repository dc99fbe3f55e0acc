"""Writes each hand once: `handref duplicates --remove --out FOLDER`.

The files are written again without the hands that were seen before, byte for byte as they were, and
below the folder with the names that they had. What is left out is in FOLDER/left-out.csv. A hand
that is refused has no id, and is kept; a file that could not be read is not written.
"""
import gzip
import os
import re
import shutil
from collections import Counter
from typing import BinaryIO, Iterator, Sequence, Union

import handref
from handref import outputs, phhs, tables, texts
from handref.duplicates import COLUMNS, Seen, name_of
from handref.sources import Source

LIST = "left-out.csv"
_FRONT = re.compile(rb"(?:\xef\xbb\xbf)?(?:[ \t]*(?:#[^\n]*)?\r?\n)*")  # of a file of tables


def places(found: Sequence[Source], is_folder: bool) -> list[str]:
    """The names of files below the folder that is written: those that they have in the one folder
    that was given, or else below the folder that all of them are in. ValueError: a file is there
    twice, or two have one name."""
    paths = [os.path.realpath(source.path) for source in found]
    twice = next((path for path, count in Counter(paths).items() if count > 1), None)
    if twice:
        raise ValueError(f"{texts.shown(twice)}: it is there twice; --remove writes a file once")
    top = os.path.commonpath([os.path.dirname(path) for path in paths]) if paths else ""
    names = [(source.out if is_folder else os.path.relpath(path, top)).removesuffix(".gz")
             for source, path in zip(found, paths)]
    twice = next((name for name, count in Counter(names).items() if count > 1), None)
    if twice:
        raise ValueError(f"{texts.shown(twice)}: two files would have this name, as none is packed")
    return names


def write(seen: Seen, out: str, is_folder: bool, force: bool) -> str:
    """Writes the files and the list, and gives the line about them."""
    names = places(seen.sources, is_folder)
    seen.index()
    os.makedirs(out, exist_ok=True)
    files = hands = left = 0
    with outputs.written(os.path.join(out, LIST), force) as listed:
        listed.write(tables.csv_line(COLUMNS).encode())
        for place, (source, name) in enumerate(zip(seen.sources, names)):
            path = os.path.join(out, name)
            os.makedirs(os.path.dirname(path) or ".", exist_ok=True)
            lost = _write_file(source, path, _listed(listed, seen, place), force)
            left += lost
            hands += seen.counts[place] - lost
            files += os.path.exists(path)
            if os.path.exists(path) and source.game:
                _copy_game(source, os.path.dirname(path), force)
    return f"written: {texts.counted(hands, 'hand')} in {texts.counted(files, 'file')}; " \
        f"left out: {texts.counted(left, 'hand')} ({texts.shown(os.path.join(out, LIST))})"


def _listed(listed: BinaryIO, seen: Seen, place: int) -> Iterator[int]:
    """The hands of a file that are left out, each of which is put on the list."""
    for hand, as_file, as_hand, kind in seen.left(place):
        row = (name_of(seen.sources[place]), hand, name_of(seen.sources[as_file]), as_hand, kind)
        listed.write(tables.csv_line(row).encode("utf-8", "surrogateescape"))
        yield hand


def _write_file(source: Source, out: str, dropped: Iterator[int], force: bool) -> int:
    """Writes a file without some of its hands, and gives how many these are. Where none is left
    out it is copied as it is; where none is kept it is not written."""
    following = next(dropped, None)
    is_copied = following is None
    kept = lost = place = 0
    try:
        with outputs.written(out, force) as file:
            for text, is_hand in _whole(source) if is_copied else _parts(source):
                place += is_hand
                if is_hand and place == following:
                    lost += 1
                    following = next(dropped, None)
                elif is_copied or not text.startswith(b"SCORE:"):  # of all hands that were there
                    kept += is_hand
                    file.write(text)
            if following is not None or source.is_changed():
                raise OSError(0, "it was changed while it was read", source.path)
            if not kept:
                raise _Empty
    except _Empty:
        if os.path.exists(out):  # of an earlier call
            os.remove(out)
    return lost


def _whole(source: Source) -> Iterator[tuple[bytes, bool]]:
    """A file as it is, unpacked."""
    with open(source.path, "rb") as read:
        file: Union[BinaryIO, gzip.GzipFile] = gzip.open(read) if source.path.endswith(".gz") else read
        while block := file.read(1 << 20):
            yield block, True


class _Empty(Exception):
    """No hand of a file is kept."""


def _parts(source: Source) -> Iterator[tuple[bytes, bool]]:
    """A file in parts, in the order in which its hands are counted: its bytes, and whether there is
    a hand in them."""
    if source.notation != "phh":
        for unit, count, _ in handref._units(source.path, source.notation):
            yield unit, bool(count)
        return
    with phhs.plain_file(source.path) as file:
        is_cut = False
        front = _FRONT.match(file.read(1 << 16))
        try:
            for block in phhs.tables(file):
                if not is_cut and front:
                    yield front[0], False
                is_cut = True
                yield block if block.endswith(b"\n") else block + b"\n", True
        except phhs.NotSure as why:
            raise ValueError(f"{source.shown}: not cut at its hands: {why}") from why
        if not is_cut:
            file.seek(0)
            yield file.read(), True


def _copy_game(source: Source, folder: str, force: bool) -> None:
    """Puts the game file of a log beside it again."""
    out = os.path.join(folder, os.path.basename(source.game))
    if not os.path.exists(out):
        with open(source.game, "rb") as file, outputs.written(out, force) as new:
            shutil.copyfileobj(file, new)
