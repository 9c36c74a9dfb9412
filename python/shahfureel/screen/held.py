"""The site's file as the screen holds it: read again when it has changed, and whole; the last that could be taken is kept.

A file that was written this moment may be half-written, and half a CSV file can be a site too: it is taken only once it has been the
same for a while.
"""

from __future__ import annotations

import hashlib
import json
import os
import stat
import threading
import time
from dataclasses import dataclass, replace

from .. import exact, files, table
from ..files import FileFault, spoken
from ..given import lines_of, money_note, named, site_of
from ..site import Site
from ..table import Faults

QUIET = 0.25  # seconds without a change after which a file is taken to be whole
DAY_BYTES_MAX = 60_000  # of a day's text, so that the page can send it back

Mark = tuple[int, int, int, int, int]


@dataclass(frozen=True)
class Read:
    """What was read: the site, its own demand in steps if it has one, and the notes; and why the file as it is now cannot be taken."""

    site: Site
    demand: int | None
    notes: tuple[str, ...]
    id: str  # of the bytes
    fault: str | None = None


class Held:
    """A file of sets, or a case file; `times` is what its money is multiplied by."""

    def __init__(self, path: str, times: int | None = None) -> None:
        self.path, self._times = path, times
        self.name = os.path.basename(path)
        self._lock = threading.Lock()
        self._written = 0.0  # when it was last seen to be written
        self._mark: Mark | None
        self._mark, data = self._bytes()
        self._read = self._taken(data)

    def now(self) -> Read:
        """What is held, after a look at the file."""
        with self._lock:
            try:
                self._look()
            except (Faults, FileFault) as fault:
                self._read = replace(self._read, fault="; ".join(table.first(named(self.path, lines_of(fault)))))
            return self._read

    def _look(self) -> None:
        """Reads the file if it is another than the last that was read, whether that could be taken or not. How long it is quiet is
        seen here, and not told by its time: that may be of another computer's clock."""
        last, self._mark = self._mark, None  # whatever comes in between, it is read again
        mark = self._bytes(0)[0]
        if mark == last:
            self._mark = mark
            return
        if time.monotonic() >= self._written + QUIET:  # else nobody waits for it a second time
            time.sleep(QUIET)
            again, data = self._bytes()
            if mark == again:
                self._mark = mark
                self._read = self._taken(data)
                return
            self._written = time.monotonic()
        raise FileFault(self.path, "it is being written: wait until that is done")

    def _bytes(self, most: int = table.BYTES_MAX) -> tuple[Mark, bytes]:
        """What tells the state of the file behind its reading from another, and its bytes."""
        try:
            with open(os.open(self.path, os.O_RDONLY | os.O_NONBLOCK | os.O_CLOEXEC), "rb") as source:  # not waiting for a pipe's writer
                if not stat.S_ISREG(os.fstat(source.fileno()).st_mode):
                    raise FileFault(self.path, "it is no plain file, which it must be, since it is read again when it changes")
                data = source.read(most + 1) if most else b""
                found = os.fstat(source.fileno())
                return (found.st_mtime_ns, found.st_ctime_ns, found.st_size, found.st_ino, found.st_dev), data
        except (OSError, ValueError) as error:
            raise FileFault(self.path, getattr(error, "strerror", None) or str(error)) from None

    def _taken(self, data: bytes) -> Read:
        site, demand, notes, is_case = site_of(self.path, data, self._times)
        return Read(site, demand, (*notes, *([] if is_case else money_note(site))), hashlib.sha256(data).hexdigest()[:16])


def read_day(path: str) -> tuple[str, list[str]]:
    """The text of a day's demands, which is read once, and the notes."""
    data = files.read(path, table.BYTES_MAX)
    _, notes = table.read_demands(spoken(path), data)
    text = table.text_of(spoken(path), data, [])
    if len(json.dumps(text, ensure_ascii=False).encode()) > DAY_BYTES_MAX:
        raise Faults([f"it has more than {exact.grouped(DAY_BYTES_MAX)} bytes, which is too much for the screen: use the command day"])
    return text, named(path, notes)
