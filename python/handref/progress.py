"""What is shown at a terminal while files are worked at."""
import shutil
import time
from typing import Callable, Optional, TextIO


class Progress:
    """A line at a terminal: how far it is, how fast, and how much longer it takes."""

    def __init__(self, size: int, out: Optional[TextIO]) -> None:
        self.size, self.out = max(size, 1), out if out and out.isatty() else None
        self.bytes = self.before = self.hands = self.bad = 0
        self.start = self.shown = time.monotonic()

    def done(self, size: int, hands: int, is_known: bool = False) -> None:
        """These bytes and hands are done: now, or an earlier call has done them. The rates are of
        what is done now."""
        self.bytes += size
        self.before += size if is_known else 0
        self.hands += 0 if is_known else hands
        self.show()

    def tell(self, text: str, tell: Callable[[str], None]) -> None:
        """Says a line, in the place of the bar."""
        self.bad += 1
        self.clear()
        tell(text)

    def show(self) -> None:
        """Shows the line, if it was shown a while ago."""
        now = time.monotonic()
        if self.out and now - self.shown >= 0.1:
            self.shown = now
            self.out.write("\r" + self.line(now, shutil.get_terminal_size().columns) + "\x1b[K")
            self.out.flush()

    def line(self, now: float, columns: int) -> str:
        """The line, within the columns of the terminal."""
        part = min(1.0, self.bytes / self.size)
        seconds = max(now - self.start, 1e-6)
        rate = max(self.bytes - self.before, 0) / seconds
        left = _clock((self.size - self.bytes) / rate) if rate else "?"
        text = f" {part:4.0%} {_bytes(self.bytes)} of {_bytes(self.size)}, {_bytes(rate)}/s, " \
            f"{self.hands / seconds:,.0f} hands/s, {left} left"
        text += f", {self.bad} not legal" if self.bad else ""
        width = min(30, columns - len(text) - 3)
        bar = "[" + ("#" * int(width * part)).ljust(width) + "]" if width > 4 else ""
        return (bar + text)[:columns - 1]

    def clear(self) -> None:
        """Takes the line away."""
        if self.out:
            self.out.write("\r\x1b[K")
            self.out.flush()

    end = clear


def _bytes(number: float) -> str:
    for unit in ("B", "kB", "MB", "GB"):
        if number < 1000 or unit == "GB":
            digits = 0 if number >= 100 or unit == "B" else 1
            return f"{number:.{digits}f} {unit}"
        number /= 1000
    return ""


def _clock(seconds: float) -> str:
    minutes, rest = divmod(int(seconds + 0.5), 60)
    hours, minutes = divmod(minutes, 60)
    return f"{hours}:{minutes:02}:{rest:02}" if hours else f"{minutes}:{rest:02}"
