"""Imports files: reads them in pieces on all processors, writes what is made of them, and says what
was changed."""
import os
import shutil
import tempfile
from collections import deque
from concurrent.futures import Future, ProcessPoolExecutor
from concurrent.futures.process import BrokenProcessPool
from dataclasses import dataclass, field, replace
from typing import Any, Callable, Deque, Iterator, Optional, Sequence, TextIO

import handref
from handref import faults, sources
from handref.importing import amounts, games, report, taking, wild, work
from handref.importing.made import OutFolder
from handref.importing.record import LeftOut
from handref.importing.taking import Imported


@dataclass
class Asked:
    """How an import is to be done: where its files go (None: nothing is written), processes at a
    time, the file of its changes, and where its lines go."""
    out: Optional[OutFolder] = None
    jobs: Optional[int] = None
    journal: Optional[TextIO] = None
    tell: Callable[[str], None] = print
    kind: Optional[str] = None


class Now:
    """Does at once what a pool of processes would do."""

    def submit(self, call: Callable[..., Any], *given: Any) -> "Future[Any]":
        """Does a call."""
        found: "Future[Any]" = Future()
        try:
            found.set_result(call(*given))
        except Exception as fault:  # it is raised where the result is asked for
            found.set_exception(fault)
        return found

    def shutdown(self, wait: bool = True, cancel_futures: bool = False) -> None:
        """There is nothing to end."""


@dataclass
class Running:
    """The processes of an import, its folder for what waits, and how files are read."""
    pool: Any
    jobs: int
    folder: str
    call: work.Call
    waiting: Deque[Any] = field(default_factory=deque)


def run(paths: Sequence[str], call: work.Call, asked: Asked) -> report.Counts:
    """Imports all files. ValueError: there are none, or one would take the place of another's."""
    folder = tempfile.mkdtemp(prefix="handref-import.")
    jobs = asked.jobs or len(os.sched_getaffinity(0))
    pool: Any = None
    try:
        passed = asked.out.folder if asked.out else ""
        found, others = wild.find(paths, folder, asked.kind, passed)
        found = [with_game(one, call.game) for one in found if one.kind != "game"]
        if not found:
            raise ValueError("there are no files of hands")
        is_small = jobs == 1 or len(found) == 1 and found[0].size <= work.PIECE
        pool = Now() if is_small else ProcessPoolExecutor(jobs)
        taken = taking.Taken(asked.out, asked.journal, asked.tell, found)
        for imported in each(found, Running(pool, jobs, folder, call)):
            taken.take(imported)
        taken.finish(others)
        return taken.counts
    finally:
        if pool:
            pool.shutdown(wait=True, cancel_futures=True)
        shutil.rmtree(folder, ignore_errors=True)


def with_game(one: wild.Wild, given: Optional[str]) -> wild.Wild:
    """A log with its game file, or with the fault that it has none."""
    if one.kind != "log" or one.fault:
        return one
    with open(one.path, "rb") as file:
        front = file.read(1 << 16).decode("utf-8", "replace")
    path, said = games.of_log(one.name, one.folder, front, given)
    return replace(one, game=path, game_said=said, fault="" if path else
                   "a log needs a game file, and there is none of its name; --game says which")


def each(found: Sequence[wild.Wild], running: Running) -> Iterator[Imported]:
    """What comes of each file, in order. Short files run ahead of the one that is waited for."""
    waiting: Deque[tuple[wild.Wild, Optional["Future[Any]"]]] = deque()
    for one in found:
        is_short = not one.fault and one.size <= work.PIECE
        waiting.append((one, running.pool.submit(work.whole, one, running.call) if is_short else None))
        while len(waiting) > 4 * running.jobs:
            yield _first(waiting, running)
    while waiting:
        yield _first(waiting, running)


def _first(waiting: "Deque[tuple[wild.Wild, Optional[Future[Any]]]]", running: Running) -> Imported:
    one, future = waiting.popleft()
    imported = _tried(one, future, running)
    if one.is_changed():  # whatever was read of it is no file
        return Imported(one, fault=LeftOut(sources.CHANGED), status=5)
    return imported


def _tried(one: wild.Wild, future: "Optional[Future[Any]]", running: Running) -> Imported:
    try:
        if one.fault:
            raise LeftOut(one.fault)
        done = future.result() if future else _long(one, running)
        return Imported(one, done)
    except LeftOut as why:
        return Imported(one, fault=why)
    except OSError as why:
        if why.filename not in (None, one.path):
            raise
        return Imported(one, fault=LeftOut(wild.said(why)), status=5)
    except (handref.HandrefError, BrokenProcessPool, MemoryError):
        raise
    except Exception as why:  # a bug ends its file, and not the others
        return Imported(one, fault=LeftOut(faults.bug(why)), status=70)


def _long(one: wild.Wild, running: Running) -> work.Done:
    """A long file: all of it is read before the first hand is written, since all amounts have one
    unit."""
    call = running.call
    reads = list(_ahead(work.pieces(one, call), running, lambda number, piece: (
        work.read_to, piece, call, os.path.join(running.folder, f"piece-{number}"))))
    units = amounts.units(work.need_of(reads), call.times, one.kind == "log")
    written = []
    for part in _ahead(reads, running, lambda number, read: (
            work.write_from, read.kept, one, units, call)):
        written += part
    return work.ended(one, units, written, call)


def _ahead(items: Any, running: Running, call_of: Callable[[int, Any], tuple[Any, ...]]) \
        -> Iterator[Any]:
    """The results of calls, in order. Some run ahead of the one that is waited for."""
    waiting: "Deque[Future[Any]]" = deque()
    for number, item in enumerate(items):
        waiting.append(running.pool.submit(*call_of(number, item)))
        while len(waiting) > 3 * running.jobs:
            yield waiting.popleft().result()
    while waiting:
        yield waiting.popleft().result()
