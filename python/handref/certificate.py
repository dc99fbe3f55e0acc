"""Certificates of conversions: which files were converted, by what, and to which files.

`handref many convert --certificate C.json ..` writes one. It is a JSON object with the sums (SHA-256)
of the inputs, the game files, the outputs and the program, the words of the call, the counts, and a
sum over the ids of the hands of each side. Paths are relative to the folder of the certificate, so
that all can be given away together. `handref verify C.json` makes the conversion again, and compares
each file byte by byte: nothing that the certificate says is believed.
"""
import hashlib
import json
import os
import shutil
import tempfile
from dataclasses import asdict, dataclass, field, replace
from typing import Any, Iterator, Optional, Sequence

import handref
from handref import duplicates, journal, many, outputs, sources, texts
from handref.journal import Call
from handref.results import Done, Rows
from handref.sources import Source

KIND = "a conversion by handref"
FORM = 1  # a later form has another number
DIFFERS, MISSING, BAD = 14, 15, 3  # statuses


class Unreadable(Exception):
    """A certificate does not read, for this reason."""


@dataclass
class Digest:
    """Takes the ids of the hands of files: how many there are, and the sum of all of them."""
    is_play: bool = False
    columns: Sequence[str] = ()
    hands: int = 0
    sum: Any = field(default_factory=hashlib.sha256)

    def put(self, rows: Rows, done: Done) -> None:
        """Adds the ids of a file."""
        for part in done.parts:
            with open(part.path, "rb") as file:
                while own := file.read(duplicates.SIZE):
                    self.sum.update(duplicates.play_of(own) if self.is_play else
                                    duplicates.record_of(own))
                    self.hands += 1

    def finish(self, rows: Rows) -> None:
        """Nothing is written of them."""


def write(path: str, result: many.Result, call: Call, asked: many.Asked, words: Sequence[str],
          import_journal: Optional[str] = None) -> None:
    """Writes the certificate of a conversion. ValueError: its place has another file."""
    top = os.path.dirname(os.path.abspath(path))
    found = [done.source for done in result.converted]
    made = {
        "kind": KIND, "form": FORM, "handref": handref.__version__,
        "program": _sum(journal.program()), "words": list(words), "call": _of_call(call, top),
        "single": result.is_single,
        "inputs": [_of_input(done, top) for done in result.converted],
        "outputs": [{**_of_file(output, top), "place": place} for output, place in result.outputs],
        "import": _of_file(import_journal, top) if import_journal else None,
        "hands": _hands(result), "ids": _both_ids(found, result, call, asked),
    }
    with outputs.written(path, asked.force) as file:
        file.write((json.dumps(made, ensure_ascii=False, indent=1) + "\n").encode(
            "utf-8", "surrogateescape"))


_WORDS = ("command", "to", "drop_notes", "keep_going", "layout", "each")  # of a call


def _of_call(call: Call, top: str) -> dict[str, Any]:
    said = asdict(call)
    return {**{key: said[key] for key in _WORDS},
            "game": _of_file(str(call.game), top) if call.game else None}


def _hands(result: many.Result) -> dict[str, int]:
    return {"read": result.hands, "written": sum(done.written for done in result.converted)}


def _of_input(done: many.Converted, top: str) -> dict[str, Any]:
    source = done.source
    return {**_of_file(source.path, top), "name": source.name or source.path,
            "notation": source.notation, "place": done.place,
            "game": _of_file(source.game, top) if source.game else None, "hands": done.hands,
            "written": done.written}


def _of_file(path: str, top: str) -> dict[str, Any]:
    return {"path": os.path.relpath(path, top), "sha256": _sum(path)}


def _sum(path: str) -> str:
    found = hashlib.sha256()
    with open(path, "rb") as file:
        while block := file.read(1 << 20):
            found.update(block)
    return found.hexdigest()


def _both_ids(found: list[Source], result: many.Result, call: Call,
              asked: many.Asked) -> dict[str, Any]:
    """The sums of the ids of the hands that were read and of those that are written: with their
    notes, or, where notes were dropped, of the play alone."""
    made = [sources.sources([path], call.to)[0][0] for path, _ in result.outputs
            if not path.endswith(".left-out")]
    return {"of": "play" if call.drop_notes else "record", "inputs": _ids(found, call, asked),
            "outputs": _ids(made, call, asked)}


def _ids(found: list[Source], call: Call, asked: many.Asked) -> dict[str, Any]:
    """How many hands files have that are legal, and the sum of their ids, in order."""
    digest = Digest(call.drop_notes)
    own = replace(call, command="duplicates", to="phh", keep_going=True, layout="each", each=False)
    with open(os.devnull, "wb") as nothing:
        quiet = many.Asked(asked.jobs, tell=_quiet, stdout=nothing, seconds=asked.seconds,
                           gathered=digest)
        if found:
            many.run_over(found, own, quiet)
    return {"hands": digest.hands, "sha256": digest.sum.hexdigest()}


def _quiet(text: str) -> None:
    """What is wrong with the hands was said by the conversion."""


# Looking at one.

def verify(path: str, jobs: Optional[int] = None, seconds: int = 60) -> tuple[str, int]:
    """The line about a certificate, and the status: 0 if its outputs are the conversions of its
    inputs, 14 if something differs, 15 if a file is missing, 3 if it is no certificate."""
    top = os.path.dirname(os.path.abspath(path))
    try:
        said = _read(path)
        missing = next((each["path"] for each in _files(said)
                        if not os.path.isfile(os.path.join(top, each["path"]))), None)
        if missing is not None:
            return f"{texts.shown(missing)}: there is no such file", MISSING
        other = next((each["path"] for each in _files(said)
                      if _sum(os.path.join(top, each["path"])) != each["sha256"]), None)
        if other is not None:
            return f"differs: {texts.shown(other)} is not the file of the certificate", DIFFERS
        return _again(said, top, many.Asked(jobs, tell=_quiet, seconds=seconds))
    except (Unreadable, KeyError, TypeError, AttributeError, ValueError) as why:
        said_why = f": {why}" if isinstance(why, Unreadable) else ""
        return f"{texts.shown(path)}: it is no certificate of handref{said_why}", BAD


def _read(path: str) -> dict[str, Any]:
    with open(path, "rb") as file:
        said = json.loads(file.read().decode("utf-8", "surrogateescape"))
    if said["kind"] != KIND:
        raise Unreadable("it is of another kind")
    if said["form"] != FORM:
        raise Unreadable(f"its form is {said['form']}, and this version reads {FORM}")
    return dict(said)


def _files(said: dict[str, Any]) -> Iterator[dict[str, Any]]:
    """The files that a certificate names."""
    yield from said["inputs"]
    games = [said["call"]["game"], *(each["game"] for each in said["inputs"])]
    yield from (each for each in (*games, said["import"]) if each)
    yield from said["outputs"]


def _again(said: dict[str, Any], top: str, asked: many.Asked) -> tuple[str, int]:
    """Converts the inputs again, and compares what comes of it with the outputs."""
    game = said["call"]["game"]
    call = Call(**{key: said["call"][key] for key in _WORDS},
                game=os.path.join(top, game["path"]) if game else None)
    if call.command != "convert":
        raise Unreadable("it is of another command")
    found = [_source(each, top) for each in said["inputs"]]
    given = {each["place"]: each for each in said["outputs"]}
    folder = tempfile.mkdtemp(prefix="handref-")
    try:
        out = os.path.join(folder, "out")
        result = many.run_over(found, call, asked, out, said["single"])
        made = {place: _sum(path) for path, place in result.outputs}
        for place in {**given, **made}:
            own = given.get(place, {"path": f"another file, {place},", "sha256": ""})
            if made.get(place) != own["sha256"]:
                return f"differs: {texts.shown(own['path'])} is not what the inputs convert to", \
                    DIFFERS
        for name, now in (("hands", _hands(result)),
                          ("ids", _both_ids(found, result, call, asked))):
            if said[name] != now:
                return f"differs: the {name} of the certificate are not those of the files", DIFFERS
    finally:
        shutil.rmtree(folder, ignore_errors=True)
    program = "" if _sum(journal.program()) == said["program"] else \
        f"; by another program than that of version {said['handref']}"
    hand_files = [place for place in given if not place.endswith(".left-out")]
    hands = texts.counted(said["hands"]["written"], "hand")
    return (f"verified: {texts.counted(len(hand_files), 'file')} of {hands} "
            f"{'is' if len(hand_files) == 1 else 'are'} the conversion of "
            f"{texts.counted(len(found), 'file')}{program}"), 0


def _source(said: dict[str, Any], top: str) -> Source:
    if os.path.isabs(said["place"]) or ".." in said["place"].split(os.sep):
        raise Unreadable("a file is to be written outside of the folder")
    found = sources.sources([os.path.join(top, said["path"])], said["notation"])[0][0]
    game = os.path.join(top, said["game"]["path"]) if said["game"] else ""
    return replace(found, out=said["place"], name=said["name"], game=game)


def of_words(given: Sequence[str]) -> list[str]:
    """The words of a call without the name of the certificate, which may be anywhere."""
    found, is_next = [], False
    for word in given:
        is_name, is_next = is_next, word == "--certificate"
        if not is_name and not word.startswith("--certificate"):
            found.append(word)
    return found
