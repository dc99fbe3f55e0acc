"""Twelve colours for lines that are told apart, also by those who do not see red, green or blue.

    colours.LIGHT[0], colours.DASHES[0]     # for a light background; DARK is for a dark one

Any two of a row differ by 25 units or more of the colour space CIELAB, as everybody sees them and
as those with each of the three kinds of colour blindness do; the contrast of each to its background is
3 or more.
"""

LIGHT = (
    "#5f00ff", "#ff5212", "#058d86", "#923100", "#be57ff", "#06455f",
    "#c97e5b", "#560093", "#7f65b4", "#6a3f37", "#050240", "#260002")
DARK = (
    "#93b2fb", "#ff79a1", "#22c600", "#c6b373", "#7cffff", "#901cfb",
    "#adff08", "#9d554a", "#fffbd2", "#6265c3", "#746d01", "#c4007a")
DASHES = ((), (8, 3), (2, 3), (10, 3, 2, 3))  # lengths of strokes and gaps; one row per line


def styles() -> str:
    """The rules of CSS for lines of the classes c0 to c11."""
    light = [f".c{place} {{ stroke: {colour};{_dash(place)} }}"
             for place, colour in enumerate(LIGHT)]
    dark = [f"  .c{place} {{ stroke: {colour}; }}" for place, colour in enumerate(DARK)]
    return "\n".join([*light, "@media screen and (prefers-color-scheme: dark) {", *dark, "}", ""])


def _dash(place: int) -> str:
    dash = DASHES[place % len(DASHES)]
    return f" stroke-dasharray: {' '.join(map(str, dash))};" if dash else ""
