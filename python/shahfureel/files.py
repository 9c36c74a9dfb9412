"""Files in and out: read whole or named with the reason; written whole or not at all, and never over what was read."""

from __future__ import annotations

import os
import stat
import sys
from contextlib import suppress
from typing import Sequence


class FileFault(Exception):
    """A file that cannot be read or written, by its name and the reason."""

    def __init__(self, name: str, why: str) -> None:
        super().__init__(f"{name}: {why}")


def spoken(path: str) -> str:
    """A path as messages name it."""
    return "standard input" if path == "-" else path


def read(path: str, most: int) -> bytes:
    """The bytes of a file, or of standard input for -; at most one more than so many, so that a longer file can be told."""
    try:
        if path == "-":
            if sys.stdin is None:
                raise FileFault(spoken(path), "it is closed")
            return sys.stdin.buffer.read(most + 1)
        with open(path, "rb") as source:
            return source.read(most + 1)
    except (OSError, ValueError) as error:
        raise FileFault(spoken(path), getattr(error, "strerror", None) or str(error)) from None


def _identity(path: str) -> tuple[int, int] | None:
    try:
        found = os.fstat(sys.stdin.fileno()) if path == "-" else os.stat(path)
    except (OSError, ValueError, AttributeError):
        return None
    return found.st_dev, found.st_ino


def same_file(first: str, second: str) -> bool:
    """Whether two paths lead to one file, however they are spelled; - is standard input."""
    one = _identity(first)
    return one is not None and one == _identity(second)


def apart(path: str, inputs: Sequence[str], kind: str) -> None:
    """Refuses to write over what is read: the file of the sets and, of a day, that of the demands."""
    for source in inputs:
        if same_file(source, path):
            what = "what is read" if source == "-" else "the sets" if source == inputs[0] else "the demands"
            raise FileFault(path, f"the {kind} would replace {what}")


def check_place(path: str) -> None:
    """Refuses a path that nothing can be written to, as far as that can be told before: a folder, or a place that is not there."""
    target = os.path.realpath(path)
    if os.path.isdir(target):
        raise FileFault(path, "it is a folder: name a file")
    if not os.path.isdir(os.path.dirname(target)):
        raise FileFault(path, "its folder is not there: make it first")
    if not os.access(target if os.path.exists(target) else os.path.dirname(target), os.W_OK):
        raise FileFault(path, "it cannot be written there")


def write(path: str, data: bytes, inputs: Sequence[str], kind: str = "case file") -> None:
    """Writes a file: into one beside it, which then takes its place. What is no plain file, such as a device, is written as it is."""
    apart(path, inputs, kind)
    try:
        target = os.path.realpath(path)
        if os.path.exists(target) and not stat.S_ISREG(os.stat(target).st_mode):
            with open(target, "wb") as sink:
                sink.write(data)
            return
        _replace(target, data)
    except (OSError, ValueError) as error:
        raise FileFault(path, getattr(error, "strerror", None) or str(error)) from None


def _replace(target: str, data: bytes) -> None:
    folder, name = os.path.split(target)
    beside = os.path.join(folder, f".{name[:100]}.{os.getpid()}.part")
    handle = os.open(beside, os.O_WRONLY | os.O_CREAT | os.O_EXCL, 0o666)
    try:
        with os.fdopen(handle, "wb") as sink:
            sink.write(data)
            sink.flush()
            os.fsync(sink.fileno())
        if os.path.exists(target):
            os.chmod(beside, stat.S_IMODE(os.stat(target).st_mode))
        os.replace(beside, target)
    except BaseException:
        with suppress(OSError):
            os.unlink(beside)
        raise
