"""Reads TOML 1.1, and says where each value is and where a text is no TOML.

    table = toml.read(text)
    places = toml.places(text)            # of each key and item: where it begins and ends
    toml.read("a = 1\\na = 2")             # TomlError: the key a is here a second time; .at is 6

Python reads TOML from 3.11 on, in its version 1.0, and without places. Numbers with a fraction are
`Decimal`. Places are numbers of signs in the text, from 0.
"""
import datetime
import re
from dataclasses import dataclass
from decimal import Decimal, InvalidOperation
from typing import Any, Callable, NoReturn, Optional, Union

MOST_DEEP = 80  # lists and inline tables in one another; parts of a key; parts of a header

Step = Union[str, int]
Key = tuple[Step, ...]  # the keys and the items, from 0, that lead to a value

_BLANK = re.compile(r"[ \t]*")
_GAP = re.compile(r"(?:[ \t\n]|\r\n|#[^\x00-\x08\x0a-\x1f\x7f]*)*")  # with lines and comments
_COMMENT = re.compile(r"[ \t]*(?:#[^\x00-\x08\x0a-\x1f\x7f]*)?")
_LINE_END = re.compile(r"\r?\n|\Z")
_BARE = re.compile(r"[A-Za-z0-9_-]+")
_TEXT = re.compile(r'"([^"\\\x00-\x08\x0a-\x1f\x7f]*)"(?!")')
_LITERAL = re.compile(r"'([^'\x00-\x08\x0a-\x1f\x7f]*)'(?!')")
_PLAIN = re.compile(r'[^"\\\x00-\x08\x0a-\x1f\x7f]+')
_PLAIN_LITERAL = re.compile(r"[^'\x00-\x08\x0a-\x1f\x7f]+")
_WORD = re.compile(r"\d{4}-\d\d-\d\d \d\d:[0-9A-Za-z:.+-]*|[A-Za-z0-9+._:-]+")
_INTEGER = re.compile(r"[+-]?(?:0|[1-9](?:_?[0-9])*)\Z")
_BASED = re.compile(r"0(?:x[0-9A-Fa-f](?:_?[0-9A-Fa-f])*|o[0-7](?:_?[0-7])*|b[01](?:_?[01])*)\Z")
_FLOAT = re.compile(r"[+-]?(?:0|[1-9](?:_?[0-9])*)(?:\.[0-9](?:_?[0-9])*)?"
                    r"(?:[eE][+-]?[0-9](?:_?[0-9])*)?\Z")
_DAY = r"(\d{4})-(\d\d)-(\d\d)"
_TIME = r"(\d\d):(\d\d)(?::(\d\d)(?:\.(\d+))?)?"
_MOMENT = re.compile(rf"{_DAY}(?:[Tt ]{_TIME}([Zz]|[+-]\d\d:\d\d)?)?\Z")
_CLOCK = re.compile(rf"{_TIME}\Z")
_ESCAPE = re.compile(r"\\(?:([btnfre\"\\])|x([0-9A-Fa-f]{2})|u([0-9A-Fa-f]{4})|U([0-9A-Fa-f]{8}))")
_FOLD = re.compile(r"\\[ \t]*\r?\n(?:[ \t\n]|\r\n)*")
# Lists of nothing but numbers, or of nothing but texts, are read at once.
_NUMBERS = re.compile(r"\[[ \t\n]*(?:0|[1-9][0-9]{0,17})"
                      r"(?:[ \t\n]*,[ \t\n]*(?:0|[1-9][0-9]{0,17}))*[ \t\n]*\]")
_TEXTS = re.compile(r'\[[ \t\n]*(?:"[^"\\\x00-\x1f\x7f]*"[ \t\n]*,[ \t\n]*)*'
                    r'(?:"[^"\\\x00-\x1f\x7f]*"[ \t\n]*)?\]')
_SIGNS = {"b": "\b", "t": "\t", "n": "\n", "f": "\f", "r": "\r", "e": "\x1b", '"': '"', "\\": "\\"}


class TomlError(ValueError):
    """A text that is no TOML: what is wrong, at which sign, and of which kind it is: `twice`,
    `backslash`, `cut` (the text ends too early), `deep` or `form`. `key` is what is doubled."""

    def __init__(self, what: str, at: int, kind: str = "form", key: Key = ()) -> None:
        super().__init__(what)
        self.what, self.at, self.kind, self.key = what, at, kind, key


@dataclass(frozen=True)
class Place:
    """Where a key begins (None of an item of a list), and where its value begins and ends."""
    key: Optional[int]
    start: int
    end: int


def read(text: str) -> dict[str, Any]:
    """What a document says. TomlError: it is not a document."""
    return _Reader(text, None).document()


def places(text: str, top: Optional[str] = None) -> dict[Key, Place]:
    """The places of the values of a document, or of its table `top`. TomlError: not one."""
    found: dict[Key, Place] = {}
    _Reader(text, lambda key: top is None or key[0] == top, found).document()
    return found


def read_with_places(text: str) -> tuple[dict[str, Any], dict[Key, Place]]:
    """What a document says, and the places of its values. TomlError: it is not a document."""
    found: dict[Key, Place] = {}
    return _Reader(text, lambda key: True, found).document(), found


def places_before(text: str) -> dict[Key, Place]:
    """The places of the values before what is wrong in a text."""
    found: dict[Key, Place] = {}
    try:
        _Reader(text, lambda key: True, found).document()
    except TomlError:
        pass
    return found


class _Reader:
    """A text, and how far it has been read."""

    def __init__(self, text: str, is_wanted: Optional[Callable[[Key], bool]],
                 found: Optional[dict[Key, Place]] = None) -> None:
        self.text, self.at = text, 1 if text.startswith("\ufeff") else 0
        self.is_wanted, self.found = is_wanted, {} if found is None else found
        self.root: dict[str, Any] = {}
        self.table = self.root
        self.path: Key = ()
        self.deep = 0  # lists and inline tables that are open
        # How a table came about: by a header, on the way to one, by dots, or between braces.
        self.kinds: dict[int, str] = {id(self.root): "header"}
        self.listed: set[int] = set()  # lists that are made by [[headers]]

    def fail(self, what: str, at: Optional[int] = None, kind: str = "form", key: Key = ()) \
            -> NoReturn:
        at = self.at if at is None else at
        if at >= len(self.text) and kind == "form":
            kind, what = "cut", f"the text ends here: {what}"
        raise TomlError(what, at, kind, key)

    def skip(self, pattern: "re.Pattern[str]") -> None:
        found = pattern.match(self.text, self.at)
        self.at = found.end() if found else self.at

    def take(self, sign: str) -> bool:
        if self.text.startswith(sign, self.at):
            self.at += len(sign)
            return True
        return False

    # The lines of a document.

    def document(self) -> dict[str, Any]:
        while True:
            self.skip(_GAP)
            if self.at == len(self.text):
                return self.root
            if self.take("["):
                self.header()
            else:
                self.pair(self.table, self.path)
            self.end_line()

    def end_line(self) -> None:
        self.skip(_COMMENT)
        if not _LINE_END.match(self.text, self.at):
            sign = self.text[self.at]
            if sign < " " or sign == "\x7f":
                self.fail(f"the sign {ord(sign):#04x} may not be here")
            self.fail("something follows where the line has to end")
        self.skip(_LINE_END)

    def header(self) -> None:
        begin, is_list = self.at - 1, self.take("[")
        keys = self.keys()
        if not self.take("]]" if is_list else "]"):
            self.fail("the header of a table has no closing bracket")
        table, path = self.root, ()  # type: tuple[dict[str, Any], Key]
        for key in keys[:-1]:
            table, path = self.passed(table, (*path, key), begin)
        key = keys[-1]
        path = (*path, key)
        found = table.get(key)
        if is_list:
            self.table, self.path = self.appended(table, key, path, begin)
            return
        if found is None:
            found = table[key] = {}
        elif not isinstance(found, dict) or self.kinds[id(found)] != "way":
            self.fail(f"the table {named(path)} is here a second time", begin, "twice", path)
        self.kinds[id(found)] = "header"
        self.table, self.path = found, path
        self.note(path, begin, begin, self.at)

    def passed(self, table: dict[str, Any], path: Key, begin: int) -> tuple[dict[str, Any], Key]:
        """The table to which one more key of a header leads."""
        found = table.get(str(path[-1]))
        if found is None:
            found = table[str(path[-1])] = {}
            self.kinds[id(found)] = "way"
        if isinstance(found, list) and id(found) in self.listed:
            path = (*path, len(found) - 1)
            found = found[-1]
        if not isinstance(found, dict) or self.kinds[id(found)] == "braces":
            self.fail(f"{named(path)} is already a value, and no table", begin, "twice", path)
        return found, path

    def appended(self, table: dict[str, Any], key: str, path: Key,
                 begin: int) -> tuple[dict[str, Any], Key]:
        """A new table of a list of tables."""
        found = table.setdefault(key, [])
        if not found and isinstance(found, list):
            self.listed.add(id(found))
        if not isinstance(found, list) or id(found) not in self.listed:
            self.fail(f"{named(path)} is here a second time", begin, "twice", path)
        found.append({})
        self.kinds[id(found[-1])] = "header"
        return found[-1], (*path, len(found) - 1)

    def pair(self, table: dict[str, Any], path: Key) -> None:
        """A key and its value."""
        begin = self.at
        keys = self.keys()
        if not self.take("="):
            self.fail("a key is here without = and a value")
        for key in keys[:-1]:
            path = (*path, key)
            found = table.get(key)
            if found is None:
                found = table[key] = {}
                self.kinds[id(found)] = "dots"
            elif not isinstance(found, dict) or self.kinds[id(found)] != "dots":
                self.fail(f"{named(path)} is here a second time", begin, "twice", path)
            table = found
        path = (*path, keys[-1])
        if keys[-1] in table:
            self.fail(f"the key {named(path)} is here a second time", begin, "twice", path)
        self.skip(_BLANK)
        start = self.at
        table[keys[-1]] = self.value(path)
        self.note(path, begin, start, self.at)

    def note(self, path: Key, begin: Optional[int], start: int, end: int) -> None:
        if self.is_wanted and self.is_wanted(path):
            self.found.setdefault(path, Place(begin, start, end))

    def keys(self) -> list[str]:
        """A key, or several with points between, and the spaces around them."""
        found: list[str] = []
        while True:
            self.skip(_BLANK)
            bare = _BARE.match(self.text, self.at)
            if bare:
                found.append(bare[0])
                self.at = bare.end()
            elif self.text.startswith(('"', "'"), self.at):
                if self.text.startswith(('"""', "'''"), self.at):
                    self.fail("a key may not have three quotes")
                found.append(self.string())
            else:
                self.fail("a key is expected here")
            self.skip(_BLANK)
            if len(found) > MOST_DEEP:
                self.fail(f"a key has more than {MOST_DEEP} parts", kind="deep")
            if not self.take("."):
                return found

    # Values.

    def value(self, path: Key) -> Any:
        sign = self.text[self.at:self.at + 1]
        if sign in ('"', "'") and sign:
            return self.string()
        if sign in ("[", "{"):
            return self.nested(sign, path)
        word = _WORD.match(self.text, self.at)
        if not word:
            self.fail("a value is expected here")
        found = _of_word(word[0])
        if found is None:
            self.fail(f"{word[0][:40]} is no value of TOML: a text needs quotes")
        self.at = word.end()
        return found

    def nested(self, sign: str, path: Key) -> Any:
        """A list or an inline table."""
        self.deep += 1
        if self.deep > MOST_DEEP:
            self.fail(f"lists and inline tables are more than {MOST_DEEP} deep in one another",
                      kind="deep")
        short = self.short_list() if sign == "[" and not self.is_wanted else None
        found: Any = short if short is not None else \
            self.items(path) if sign == "[" else self.braces(path)
        self.deep -= 1
        return found

    def items(self, path: Key) -> list[Any]:
        found: list[Any] = []
        begin = self.at
        self.at += 1
        while True:
            self.skip(_GAP)
            if self.take("]"):
                return found
            start = self.at
            if start == len(self.text):
                self.fail("the text ends inside a list", begin, "cut")
            own = (*path, len(found)) if self.is_wanted else path
            found.append(self.value(own))
            if self.is_wanted:
                self.note(own, None, start, self.at)
            self.skip(_GAP)
            if not self.take(",") and not self.text.startswith("]", self.at):
                self.fail("a comma or the end of the list is expected here")

    def short_list(self) -> Optional[list[Any]]:
        """A list of nothing but numbers or texts; None of another one."""
        numbers = _NUMBERS.match(self.text, self.at)
        texts = None if numbers else _TEXTS.match(self.text, self.at)
        found = numbers or texts
        if not found:
            return None
        self.at = found.end()
        if numbers:
            return [int(each) for each in found[0][1:-1].split(",")]
        return re.findall('"([^"]*)"', found[0])

    def braces(self, path: Key) -> dict[str, Any]:
        found: dict[str, Any] = {}
        self.kinds[id(found)] = "dots"
        self.at += 1
        while True:
            self.skip(_GAP)
            if self.take("}"):
                break
            self.pair(found, path)
            self.skip(_GAP)
            if not self.take(",") and not self.text.startswith("}", self.at):
                self.fail("a comma or the end of the table is expected here")
        self.kinds[id(found)] = "braces"
        return found

    def string(self) -> str:
        """A text in one of the four kinds of quotes."""
        is_basic = self.text[self.at] == '"'
        simple = (_TEXT if is_basic else _LITERAL).match(self.text, self.at)
        if simple:
            self.at = simple.end()
            return simple[1]
        quote = '"' if is_basic else "'"
        if self.text.startswith(quote * 3, self.at):
            return self.long_string(quote)
        begin = self.at
        self.at += 1
        found: list[str] = []
        while not self.take(quote):
            found.append(self.part(_PLAIN if is_basic else _PLAIN_LITERAL, begin))
        return "".join(found)

    def long_string(self, quote: str) -> str:
        begin, found = self.at, []  # type: tuple[int, list[str]]
        self.at += 3
        self.skip(re.compile(r"(?:\r?\n)?"))
        while True:
            ending = re.compile(quote + "+").match(self.text, self.at)
            if ending:
                count = len(ending[0])
                self.at += min(count, 5) if count > 2 else count
                found.append(quote * (min(count, 5) - 3 if count > 2 else count))
                if count > 2:
                    return "".join(found)
            elif line_end := re.compile(r"\r?\n").match(self.text, self.at):
                self.skip(_LINE_END)
                found.append(line_end[0])  # as it is
            elif quote == '"' and _FOLD.match(self.text, self.at):
                self.skip(_FOLD)
            else:
                found.append(self.part(_PLAIN if quote == '"' else _PLAIN_LITERAL, begin))

    def part(self, plain: "re.Pattern[str]", begin: int) -> str:
        """Signs of a text that are as they are, or one that is escaped."""
        found = plain.match(self.text, self.at)
        if found:
            self.at = found.end()
            return found[0]
        if self.at == len(self.text):
            self.fail("the text ends inside quotes", begin, "cut")
        sign = self.text[self.at]
        if sign in "\r\n":
            self.fail("the closing quote is missing on this line", begin)
        if sign != "\\":
            self.fail(f"the sign {ord(sign):#04x} may not be in a text")
        escape = _ESCAPE.match(self.text, self.at)
        code = int(next(filter(None, escape.groups()[1:]), "0"), 16) if escape else 0
        if not escape or 0xd800 <= code < 0xe000 or code > 0x10ffff:
            self.fail(f"{self.text[self.at:self.at + 2]} is no escape of TOML", kind="backslash")
        self.at = escape.end()
        return _SIGNS[escape[1]] if escape[1] else chr(code)


def named(path: Key) -> str:
    """A key as it is said."""
    return ".".join(map(str, path))


def _of_word(word: str) -> Any:
    """A number, a truth or a time, or None."""
    if word in ("true", "false"):
        return word == "true"
    if _INTEGER.match(word):
        return int(word.replace("_", "")[:1000])  # a longer one is out of every range as well
    if _BASED.match(word):
        return int(word.replace("_", ""), 0)
    if _FLOAT.match(word):
        return _decimal(word.replace("_", ""))
    if word.lstrip("+-") in ("inf", "nan") and len(word) < 5:
        return float(word)
    try:
        return _of_time(word)
    except ValueError:
        return None


def _decimal(word: str) -> Union[Decimal, float]:
    """A number with a fraction or an exponent; inf where it is out of every range as well. One that
    is too near to 0 for a Decimal is another one near to it."""
    try:
        value = Decimal(word)
    except InvalidOperation:
        mantissa, _, exponent = word.lower().partition("e")
        value = Decimal(mantissa)
        value = value and value.scaleb(-1000 if exponent.startswith("-") else 1000)
    if value and value.adjusted() > 900:
        return float("-inf" if value < 0 else "inf")
    return value


def _of_time(word: str) -> Any:
    """A day, a time of a day, or both; a second 60 is kept as a text, as Python has none."""
    clock = _CLOCK.match(word)
    if clock:
        return word if clock[3] == "60" else _clock(*clock.groups())
    moment = _MOMENT.match(word)
    if not moment:
        return None
    day = datetime.date(int(moment[1]), int(moment[2]), int(moment[3]))
    if moment[4] is None:
        return day
    if moment[6] == "60":
        return word
    zone: Optional[datetime.tzinfo] = None
    if moment[8]:
        sign = -1 if moment[8][0] == "-" else 1
        hours, minutes = (0, 0) if moment[8] in "Zz" else map(int, moment[8][1:].split(":"))
        zone = datetime.timezone(sign * datetime.timedelta(hours=hours, minutes=minutes))
    return datetime.datetime.combine(day, _clock(*moment.groups()[3:7]), zone)


def _clock(hour: str, minute: str, second: Optional[str], part: Optional[str]) -> datetime.time:
    return datetime.time(int(hour), int(minute), int(second or 0),
                         int(((part or "") + "000000")[:6]))
