"""Why bytes are no text of their notation, which the program calls `Text`: other signs than UTF-8,
a packed file, one that was cut, or a fault of TOML or JSON with its line and column."""
import json
import re
from typing import Optional

import handref
from handref import site_texts, toml
from handref.places import Spot, blocks, spot
from handref.texts import shown

Found = tuple[Optional[Spot], list[str]]

_PACKED = ((b"\x1f\x8b", "gzip", "gzip -dc"), (b"PK\x03\x04", "zip", "unzip -p"),
           (b"BZh", "bzip2", "bzip2 -dc"), (b"\xfd7zXZ\0", "xz", "xz -dc"),
           (b"(\xb5/\xfd", "zstd", "zstd -dc"), (b"7z\xbc\xaf", "7-Zip", "7z x -so"))
_MARKS = ((b"\xff\xfe\0\0", "UTF-32"), (b"\0\0\xfe\xff", "UTF-32"), (b"\xff\xfe", "UTF-16"),
          (b"\xfe\xff", "UTF-16"))
_OTHERS = (("phh", re.compile(r"\s*(#[^\n]*\s*)*(\[\d+\]\s*)?[a-z_]+ *= *['\"\[\d]"), "a PHH file"),
           ("ohh", re.compile(r'\s*\[?\s*\{\s*"'), "an OHH file"),
           ("acpc", re.compile(r"(#[^\n]*\n|\s)*STATE:"), "a log of the competition"),
           ("", re.compile(r"\s*<"), "HTML or XML"))
_WORDS = {
    "Expecting value": "a value is expected here",
    "Expecting property name enclosed in double quotes": "a name in double quotes is expected here",
    "Illegal trailing comma before end of object": "a comma is here and no member follows it",
    "Illegal trailing comma before end of array": "a comma is here and no item follows it",
    "Expecting ',' delimiter": "a comma, or the end of the list or object, is expected here",
    "Expecting ':' delimiter": "a colon is expected here",
    "Unterminated string starting at": "the text that begins here has no closing quote",
    "Invalid control character at": "a control character is inside a text: a line end is \\n there",
    "Extra data": "something follows the object: an empty line has to divide two hands. Divide "
                  "them: jq -c . FILE | sed G > NEW"}

# One half of a character that JSON writes as two; whole characters are skipped.
_LONE = re.compile(r"\\\\|\\u[dD][89abAB]..\\u[dD][c-fC-F]..|(\\u[dD][89a-fA-F]..)")


def why(data: bytes, notation: handref.Notation, hand: Optional[int] = None) -> Found:
    """Where such bytes are wrong, and what is wrong and can be done, sentence by sentence."""
    packed = next((row for row in _PACKED if data.startswith(row[0])), None)
    if packed:
        return None, [f"The file is packed by {packed[1]}. Unpack it first: {packed[2]} FILE > NEW"]
    wide = _wide(data)
    if wide:
        return None, [f"The file is {wide}, and not UTF-8. Write it as UTF-8: "
                      f"iconv -f {wide} -t UTF-8 FILE > NEW"]
    try:
        text = data.decode()
    except UnicodeDecodeError as fault:
        return _not_utf8(data, fault)
    site = site_texts.site_of(data[:1 << 16])
    if site:
        return None, [f"This is {site_texts.said(*site)}."]
    other = _other(text, notation)
    if notation == "phh":
        found = _of_toml(text.removeprefix("\ufeff"))
    else:
        found = _of_json(text, hand)
    return found[0], other + found[1]


def _wide(data: bytes) -> Optional[str]:
    """The name of an encoding with several bytes for each sign."""
    marked = next((name for mark, name in _MARKS if data.startswith(mark)), None)
    if marked or b"\0" not in data[:4000]:
        return marked
    odd, even = data[1:4000:2].count(0), data[:4000:2].count(0)
    half = len(data[:4000]) // 4
    return "UTF-16LE" if odd > half > even else "UTF-16BE" if even > half > odd else None


def _not_utf8(data: bytes, fault: UnicodeDecodeError) -> Found:
    """The first byte that is no UTF-8, and the encoding that is likely."""
    start = fault.start
    begin, byte = data.rfind(b"\n", 0, start) + 1, data[start]
    line = data[begin:].split(b"\n", 1)[0]
    said = [f"Byte {start + 1} of the file (byte {start - begin + 1} of this line) is "
            f"{byte:#04x}, which is no UTF-8 here."]
    high = {each for each in data if each > 0x7f}
    if fault.end >= len(data) and fault.reason == "unexpected end of data":
        said.append("The file ends inside a sign: it was cut off. Get it again.")
    elif high & set(range(0x80, 0xa0)):
        said.append("It is likely Windows-1252. Write it as UTF-8: "
                    "iconv -f WINDOWS-1252 -t UTF-8 FILE > NEW")
    else:
        said.append("It is likely Latin-1. Write it as UTF-8: iconv -f LATIN1 -t UTF-8 FILE > NEW")
    text = line.decode("cp1252", "replace").rstrip("\r")
    return Spot(data.count(b"\n", 0, start) + 1, start - begin + 1, text, 1), said


def _other(text: str, notation: handref.Notation) -> list[str]:
    """Whether a text looks like one of another notation."""
    own = "ohh" if notation == "ohh-to" else notation
    kind = next((row for row in _OTHERS if row[1].match(text)), None)
    if kind is None or kind[0] == own:
        return []
    return [f"This looks like {kind[2]}" + (f": --from {kind[0]}." if kind[0] else ".")]


def _of_toml(text: str) -> Found:
    try:
        toml.read(text)
    except toml.TomlError as fault:
        said = [fault.what[:1].upper() + shown(fault.what[1:]) + "."]
        if fault.kind == "twice":
            first = toml.places_before(text).get(fault.key)
            if first:
                line = text.count("\n", 0, first.key or first.start) + 1
                said[0] = said[0][:-1] + f"; the first one is on line {line}."
                said.append("Leave one of them out.")
        elif fault.kind == "backslash":
            said.append("Write each backslash twice, or put the text between single quotes, where "
                        "a backslash stands for itself.")
        elif fault.kind == "cut":
            said.append("The file was cut off, or a closing quote or bracket is missing.")
        at = min(fault.at, max(len(text.rstrip()) - 1, 0))
        return spot(text, at, at + 1), said
    return None, ["As TOML 1.1 nothing is found to be wrong with it."]


def _of_json(text: str, hand: Optional[int]) -> Found:
    listed = blocks(text)
    for number, (start, block) in enumerate(listed, 1):
        if hand is not None and number != hand:
            continue
        found = fault_of_json(block)
        if found is None:
            continue
        at, said = found
        if at >= len(block.rstrip()) and number < len(listed):
            said.append("An empty line ends a hand: take empty lines out of the hand.")
        return spot(text, start + at, start + at + 1), said
    return None, ["As JSON nothing is found to be wrong with it."]


def fault_of_json(block: str) -> Optional[tuple[int, list[str]]]:
    """At which sign a text is no JSON, and why; None where it is."""
    if block.startswith("\ufeff"):
        return 0, ["The file begins with a byte order mark, which JSON may not have. Take it out: "
                   "tail -c +4 FILE > NEW"]
    try:
        json.loads(block, parse_constant=_refuse, parse_float=_finite, parse_int=_finite)
    except json.JSONDecodeError as fault:
        return _said_of(block, fault)
    except RecursionError:
        return 0, ["Lists or objects are more than 127 deep in one another."]
    except ValueError as fault:
        return block.find(str(fault)), [f"{str(fault)[:40]} is no number that can be read."]
    lone = next((found for found in _LONE.finditer(block) if found[1]), None)
    return (lone.start(), ["This is one half of a sign that needs two."]) if lone else None


def _refuse(word: str) -> None:
    raise ValueError(word)


def _finite(word: str) -> float:
    if abs(float(word)) == float("inf"):
        _refuse(word)
    return 0


def _said_of(block: str, fault: json.JSONDecodeError) -> tuple[int, list[str]]:
    at, said = fault.pos, [_WORDS.get(fault.msg, fault.msg)]
    if fault.msg.startswith("Invalid \\"):
        said = [f"{block[at:at + 2]} is no escape of JSON. Write each backslash twice."]
    if block[at:at + 1] == "'":
        said.append("JSON has double quotes, and no single ones.")
    if at >= len(block.rstrip()) or fault.msg.startswith("Unterminated") and \
            "\n" not in block[at:].rstrip("\n"):
        said.append("The text ends here too early: the file was cut off, or a closing quote, "
                    "bracket or brace is missing.")
    return at, [text[:1].upper() + text[1:] + "." * (not text.endswith("."))
                if not text.endswith(("NEW", ".")) else text for text in said]
