"""The folder that an import writes: only files that an import has made are ever replaced."""
import os
from contextlib import contextmanager
from typing import BinaryIO, Iterator

from handref import outputs, texts
from handref.importing import wild

MARK = ".handref-import"  # the sums and the names of the files that imports have made here


class OutFolder:
    """A folder, and the files in it that imports have made."""

    def __init__(self, folder: str, is_forced: bool = False) -> None:
        self.folder, self.is_forced = folder, is_forced
        self.made: dict[str, str] = {}
        self.now: set[str] = set()
        mark = os.path.join(folder, MARK)
        if os.path.exists(mark):
            with open(mark, encoding="utf-8", errors="surrogateescape", newline="\n") as file:
                for line in file.read().split("\n")[:-1]:
                    own, _, name = line.partition("  ")
                    self.made[name] = own

    def path(self, name: str) -> str:
        """Where a file is."""
        return os.path.join(self.folder, name)

    def is_free(self, name: str) -> bool:
        """Whether a file may be written: it is not there, or as an import has made it."""
        path = self.path(name)
        if self.is_forced or not os.path.lexists(path):
            return True
        if name not in self.made or not os.path.isfile(path):
            return False
        with open(path, "rb") as file:
            return wild.sum_of(file) == self.made[name]

    @contextmanager
    def writing(self, name: str) -> Iterator[BinaryIO]:
        """A file to write. ValueError: it is there, and no import has made it."""
        path = self.path(name)
        if not self.is_free(name):
            raise ValueError(f"{texts.shown(path)}: it is there, and no import has made it as it is; "
                             "--force replaces it")
        os.makedirs(os.path.dirname(path) or ".", exist_ok=True)
        with outputs.written(path, force=True) as file:
            yield file
        with open(path, "rb") as read:
            self.made[name] = wild.sum_of(read)
        self.now.add(name)
        self.save()

    def drop(self, name: str) -> None:
        """Takes away what an earlier import has made of a file, where this one makes nothing."""
        if name in self.made and name not in self.now and os.path.isfile(self.path(name)) \
                and self.is_free(name):
            os.remove(self.path(name))
            del self.made[name]
            self.save()

    def save(self) -> None:
        """Notes what was made."""
        lines = "".join(f"{own}  {name}\n" for name, own in sorted(self.made.items())
                        if "\n" not in name)
        with outputs.written(self.path(MARK), force=True) as file:
            file.write(lines.encode("utf-8", "surrogateescape"))


