"""Texts as they can be shown: signs that are not seen, numbers of things, fronts of names."""
import unicodedata

_UNSEEN = {"Cc", "Cf", "Zl", "Zp", "Cs", "Co", "Cn"}


def shown(text: str) -> str:
    """A text in which signs that are not seen, or that turn the text round them, are written as
    their numbers; and so are more than two marks on one letter."""
    found, marks = [], 0
    for place, sign in enumerate(text):
        kind = unicodedata.category(sign)
        marks = marks + 1 if kind in ("Mn", "Me") else 0
        is_odd = kind in _UNSEEN or kind == "Zs" and sign != " " or marks > 2
        if sign in "\u200c\u200d" and "\u0600" < min(text[place - 1:place] or " ",
                                                     text[place + 1:place + 2] or " "):
            is_odd = False  # it joins letters of Persian or Hindi, or the parts of a picture
        if sign == "\\" and text.startswith("u{", place + 1):
            is_odd = True
        found.append(f"\\u{{{ord(sign):x}}}" if is_odd else sign)
    return "".join(found)


def counted(number: int, word: str) -> str:
    """A number of things: 1 hand, 2 hands."""
    return f"{number} {word}{'s' * (number != 1)}"


def short(text: str, most: int = 13) -> str:
    """The front of a text that takes this number of columns."""
    width = 0
    for place, sign in enumerate(text):
        width += 2 if unicodedata.east_asian_width(sign) in "WF" else \
            unicodedata.category(sign) not in ("Mn", "Me")
        if width > most:
            return text[:place] + "…"
    return text
