"""The proved library from Python: it is found, its calls are declared, and each is one function here with buffers of its own.

Numbers are the library's: steps of 0.1 MW, millionths of the currency, hundred-millionths of a step. What the header asks of a C
caller is done here: buffers have the size that a call asks for, lengths are exact, nothing overlaps. A number too large for its
place in C becomes the largest there, which the call refuses likewise; none is cut. A refusal is raised as `Refusal`.
"""

from __future__ import annotations

import array
import ctypes
import functools
import operator
import os
import struct
import threading
from dataclasses import dataclass
from enum import IntEnum
from itertools import chain
from pathlib import Path
from typing import Any, Callable, Iterable, Sequence, TypeVar

NAME = "libshahfureel.so"
VARIABLE = "SHAHFUREEL_LIBRARY"

UNITS_MAX = 32
FILE_BYTES_MAX = 1608
REPLY_BYTES = 92
REFINE_REPLY_BYTES = 94
BUDGET_MAX = 100_000
ROW_NUMBERS = 19
ROWS_NUMBERS = 608
JUDGE_ANSWERS = 4
DEMANDS_MAX = 96
SLOT_BYTES = 18
HISTORIES = 32
RUN_NUMBERS = 41
RUN_BYTES = 1608
RUN_ANSWERS = 38
MULTIPLIER_MAX = 65_536
DEMAND_MAX = 320_000
RAMP_UNLIMITED = 10_000
LENGTH_MIN = 30
VIEW_ANSWER_BYTES = 252
GENCOST_ANSWERS = 3
REFINE_STACK_BYTES = 131_072


class Number(IntEnum):
    """The refusals by the names that the header has for them."""

    BUFFER_TOO_SHORT = 1
    FILE_TOO_SHORT = 2
    EDITION_UNKNOWN = 3
    COUNT_OUT_OF_RANGE = 4
    DEMAND_OUT_OF_RANGE = 5
    CONTENTS_INVALID = 6
    ZONE_COUNT_INVALID = 7
    COEFFICIENT_OUT_OF_RANGE = 8
    LIMITS_INVALID = 9
    RAMP_OR_MARK_OUT_OF_RANGE = 10
    NO_ALLOCATION = 11
    ROWS_INVALID = 12
    FILE_BUFFER_TOO_SHORT = 13
    MULTIPLIER_OUT_OF_RANGE = 14
    REPLY_MALFORMED = 15
    REQUEST_LENGTH_INVALID = 16
    ANSWER_TOO_SHORT = 17
    LOSSES_OUT_OF_RANGE = 18
    OUTPUT_COUNT_INVALID = 19
    DEMANDS_INVALID = 20
    FLOORS_TOO_SHORT = 21
    DAY_DEMANDS_INVALID = 22
    DAY_BUFFERS_TOO_SHORT = 23
    CASE_CHANGED = 24
    BUDGET_OUT_OF_RANGE = 25
    GENCOST_MALFORMED = 26
    GENCOST_NOT_WHOLE = 27
    GENCOST_ABOVE_LIMIT = 28


_NAMES = {int(number): number.name for number in Number}


class Refusal(Exception):
    """A call that was refused: its number, the number's name, and the library's own text. Nothing was written anywhere."""

    def __init__(self, number: int) -> None:
        self.number = number
        self.name = _NAMES.get(number, "UNKNOWN")
        self.text = refusal_text(number)
        super().__init__(f"refused with {number}: {self.text}")


_Answer = TypeVar("_Answer")


def if_covered(ask: Callable[[], _Answer]) -> _Answer | None:
    """What a call answers; None where it is refused because nothing covers the demand."""
    try:
        return ask()
    except Refusal as refusal:
        if refusal.number != Number.NO_ALLOCATION:
            raise
        return None


class NoLibrary(Exception):
    """The shared library is not there, or not one that this package can call; the text says what to do."""


@dataclass(frozen=True)
class Reply:
    """What dispatch or refining replies. Of the two counts the one that the call does not make is None."""

    outputs: tuple[int, ...]
    cost: int
    gap: int
    surplus: int
    evaluations: int | None
    nodes: int | None
    data: bytes


@dataclass(frozen=True)
class Priced:
    """The dual value at a multiplier, and whether the units' choices there cover the demand."""

    dual: int
    covers: bool


@dataclass(frozen=True)
class Judged:
    """What judging says; where the outputs are not accepted the numbers are 0."""

    accepted: bool
    cost: int
    surplus: int
    distance: int


@dataclass(frozen=True)
class Slot:
    """A slot of a day: status 0, or 11 where no permitted outputs cover its demand."""

    status: int
    cost: int
    gap: int


@dataclass(frozen=True)
class History:
    """What a day tells of a unit: its output in the last solved slot, and how often it was started."""

    previous: int
    starts: int


@dataclass(frozen=True)
class Day:
    """The slots of a day, a history to each unit, and the sum of the costs of the solved slots."""

    slots: tuple[Slot, ...]
    histories: tuple[History, ...]
    total: int


@dataclass(frozen=True)
class Asked:
    """What a run has so far."""

    state: int
    evaluations: int
    cost: int
    gap: int
    surplus: int
    outputs: tuple[int, ...]


# ---- finding and declaring


def places(named: str | None) -> list[Path]:
    """Where the library is looked for: where the variable says, or else beside the package, where it is installed, in target/."""
    if named:
        path = Path(named)
        return [path / NAME if path.is_dir() else path]
    package = Path(__file__).resolve().parent
    found = [package / NAME]
    if package.parent.name in ("dist-packages", "site-packages"):
        found.append(package.parents[2] / NAME)
    else:
        found.append(package.parents[1] / "target" / "lib" / NAME)
    return found


class _History(ctypes.Structure):
    _fields_ = [("previous", ctypes.c_uint16), ("starts", ctypes.c_uint16)]


_BYTES_IN, _BYTES_OUT, _SIZE, _U32 = ctypes.c_char_p, ctypes.POINTER(ctypes.c_uint8), ctypes.c_size_t, ctypes.c_uint32
_U32S, _I32S, _I64S, _U64S = (ctypes.POINTER(kind) for kind in (ctypes.c_uint32, ctypes.c_int32, ctypes.c_int64, ctypes.c_uint64))
_FILE: list[Any] = [_BYTES_IN, _SIZE]
_ANSWERS: list[Any] = [_I64S, _SIZE]
_CALLS: dict[str, list[Any]] = {
    "dispatch": [*_FILE, _BYTES_OUT, _SIZE],
    "price": [*_FILE, _U32, *_ANSWERS],
    "pack": [_U32, _U32S, _SIZE, _BYTES_OUT, _SIZE],
    "pack2": [_U32, _U32S, _SIZE, _I32S, _SIZE, _BYTES_OUT, _SIZE],
    "unpack": [*_FILE, _U32S, _SIZE, *_ANSWERS],
    "view": [*_FILE, *_FILE, _BYTES_OUT, _SIZE, *_ANSWERS],
    "judge": [*_FILE, _U32S, _SIZE, *_ANSWERS],
    "floors": [*_FILE, _U32S, _SIZE, _I64S, _SIZE, *_ANSWERS],
    "day": [*_FILE, _U32S, _SIZE, _BYTES_OUT, _SIZE, ctypes.POINTER(_History), _SIZE, *_ANSWERS],
    "refine": [*_FILE, _U32, _BYTES_OUT, _SIZE],
    "gencost": [*_FILE, *_ANSWERS],
    "run_start": [_U64S, _BYTES_OUT, *_FILE],
    "run_advance": [_U64S, _BYTES_OUT, *_FILE, *_ANSWERS],
    "run_ask": [_U64S, *_ANSWERS],
    "refusal_text": [_U32],
    "version": [],
}


@functools.lru_cache(maxsize=None)
def _load(named: str | None) -> ctypes.CDLL:
    paths = places(named)
    there = [path for path in paths if path.exists()]
    if not there:
        looked = "".join(f"\n  {path}" for path in paths)
        raise NoLibrary(
            f"the library {NAME} is not there. It was looked for at{looked}\nMake it in the repository's folder by tools/library"
            f" (that needs the Rattle toolchain and gcc), or say where it is by the variable {VARIABLE}."
        )
    try:
        library = ctypes.CDLL(os.path.abspath(there[0]))
    except OSError as error:
        raise NoLibrary(f"{there[0]}: it cannot be loaded: {error}") from None
    for name, types in _CALLS.items():
        try:
            call = getattr(library, "shahfureel_" + name)
        except AttributeError:
            raise NoLibrary(f"{there[0]}: it has no call shahfureel_{name}: make it anew by tools/library") from None
        call.argtypes, call.restype = types, ctypes.c_char_p if name in ("refusal_text", "version") else _U32
    _check_version(there[0], library.shahfureel_version().decode())
    return library


def _check_version(path: Path, found: str) -> None:
    """Where the first number of the version differs, calls may differ from those declared here."""
    from . import __version__ as own  # the package imports this module

    if found.split(".")[0] != own.split(".")[0]:
        raise NoLibrary(
            f"{path}: it is of version {found}, and this package is of {own}: the first numbers must be the same. Install both from one"
            " repository by tools/install, or make the library there by tools/library"
        )


def load() -> ctypes.CDLL:
    """The library with its calls declared; loaded once."""
    return _load(os.environ.get(VARIABLE))


# ---- from Python to C: numbers that are never cut, and buffers


def _fit(value: int, low: int, high: int) -> int:
    number = operator.index(value)
    if number < 0 <= low:
        raise ValueError(f"{number} is below 0")
    return max(low, min(number, high))


def _u32(value: int) -> int:
    return _fit(value, 0, 2**32 - 1)


def _u32s(values: Iterable[int]) -> ctypes.Array[ctypes.c_uint32]:
    numbers = list(values)
    try:  # at once, where every number has its place
        held = array.array("I", numbers)
    except (OverflowError, TypeError):
        held = array.array("I", [_u32(value) for value in numbers])
    return (ctypes.c_uint32 * len(held)).from_buffer(held)


def _bytes(data: bytes) -> bytes:
    return memoryview(data).tobytes()


def _room(size: int) -> ctypes.Array[ctypes.c_uint8]:
    return (ctypes.c_uint8 * size)()


def _answers(count: int) -> ctypes.Array[ctypes.c_int64]:
    return (ctypes.c_int64 * count)()


def _accept(number: int) -> None:
    if number:
        raise Refusal(number)


def _length(answer: int) -> int:
    if answer < LENGTH_MIN:
        raise Refusal(answer)
    return answer


# ---- the calls


def refusal_text(number: int) -> str:
    """The library's own sentence on a refusal."""
    text: bytes = load().shahfureel_refusal_text(_u32(number))
    return text.decode()


def version() -> str:
    """Which version of the library is loaded."""
    text: bytes = load().shahfureel_version()
    return text.decode()


def dispatch(file: bytes) -> Reply:
    """Dispatches a case file."""
    file, reply = _bytes(file), _room(REPLY_BYTES)
    return read_reply(bytes(reply[: _length(load().shahfureel_dispatch(file, len(file), reply, len(reply)))]))


def refine(file: bytes, budget: int) -> Reply:
    """Looks for cheaper outputs and a smaller gap with a budget of nodes, 1 to 100,000."""
    if 0 < threading.stack_size() < 2 * REFINE_STACK_BYTES and threading.current_thread() is not threading.main_thread():
        raise RuntimeError(f"refining takes up to {REFINE_STACK_BYTES} bytes of stack: threading.stack_size({4 * REFINE_STACK_BYTES})")
    file, reply = _bytes(file), _room(REFINE_REPLY_BYTES)
    return read_refined(bytes(reply[: _length(load().shahfureel_refine(file, len(file), _u32(budget), reply, len(reply)))]))


def price(file: bytes, multiplier: int) -> Priced:
    """The dual value of a case file at a price of energy in hundredths of the currency per MWh."""
    file, answers = _bytes(file), _answers(2)
    _accept(load().shahfureel_price(file, len(file), _u32(multiplier), answers, len(answers)))
    return Priced(answers[0], answers[1] == 1)


def pack(demand: int, rows: Sequence[Sequence[int]]) -> bytes:
    """A case file of edition 1 from a demand and rows of 19 numbers."""
    numbers, file = _u32s(chain.from_iterable(rows)), _room(FILE_BYTES_MAX)
    return bytes(file[: _length(load().shahfureel_pack(_u32(demand), numbers, len(numbers), file, len(file)))])


def pack2(demand: int, rows: Sequence[Sequence[int]], b1: Sequence[int]) -> bytes:
    """A case file of edition 2 from a demand, rows of 19 numbers and a b1 for each."""
    numbers, file = _u32s(chain.from_iterable(rows)), _room(FILE_BYTES_MAX)
    losses = (ctypes.c_int32 * len(b1))(*(_fit(loss, -(2**31), 2**31 - 1) for loss in b1))
    return bytes(
        file[: _length(load().shahfureel_pack2(_u32(demand), numbers, len(numbers), losses, len(losses), file, len(file)))]
    )


def unpack(file: bytes) -> tuple[int, list[list[int]]]:
    """The demand and the rows of a case file of edition 1."""
    file, rows, answers = _bytes(file), (ctypes.c_uint32 * ROWS_NUMBERS)(), _answers(2)
    _accept(load().shahfureel_unpack(file, len(file), rows, len(rows), answers, len(answers)))
    return answers[0], [list(rows[ROW_NUMBERS * i : ROW_NUMBERS * (i + 1)]) for i in range(answers[1])]


def view(reply: bytes, request: bytes) -> bytes:
    """The answer to a Modbus request on a reply of dispatch."""
    reply, request, answer, answers = _bytes(reply), _bytes(request), _room(VIEW_ANSWER_BYTES), _answers(1)
    _accept(load().shahfureel_view(reply, len(reply), request, len(request), answer, len(answer), answers, len(answers)))
    return bytes(answer[: answers[0]])


def judge(file: bytes, outputs: Iterable[int]) -> Judged:
    """What outputs of one's own cost, one to a unit in the order of the file."""
    file, given, answers = _bytes(file), _u32s(outputs), _answers(JUDGE_ANSWERS)
    _accept(load().shahfureel_judge(file, len(file), given, len(given), answers, len(answers)))
    return Judged(answers[0] == 1, answers[1], answers[2], answers[3])


def floors(file: bytes, demands: Iterable[int]) -> list[int]:
    """What each of up to 96 demands costs at least."""
    file, asked, answers = _bytes(file), _u32s(demands), _answers(1)
    written = (ctypes.c_int64 * len(asked))()
    _accept(load().shahfureel_floors(file, len(file), asked, len(asked), written, len(written), answers, len(answers)))
    return list(written[: answers[0]])


def day(file: bytes, demands: Iterable[int]) -> Day:
    """Dispatches up to 96 demands one after the other, each from the outputs of the one before."""
    file, asked, answers = _bytes(file), _u32s(demands), _answers(1)
    trace, histories = _room(SLOT_BYTES * len(asked)), (_History * HISTORIES)()
    _accept(
        load().shahfureel_day(
            file, len(file), asked, len(asked), trace, len(trace), histories, len(histories), answers, len(answers)
        )
    )
    slots = tuple(Slot(*struct.unpack_from(">HQQ", trace, SLOT_BYTES * k)) for k in range(len(asked)))
    units = int.from_bytes(file[2:4], "big")
    return Day(slots, tuple(History(h.previous, h.starts) for h in histories[:units]), answers[0])


def gencost(row: bytes) -> tuple[int, int, int]:
    """c0, c1 and c2 of a row of a MATPOWER gencost matrix, exactly."""
    row, answers = _bytes(row), _answers(GENCOST_ANSWERS)
    _accept(load().shahfureel_gencost(row, len(row), answers, len(answers)))
    return answers[0], answers[1], answers[2]


class Run:
    """A dispatch that is made one evaluation at a time; it holds the case file that it was started with."""

    NOT_STARTED, UNFINISHED, FINISHED = 0, 1, 2

    def __init__(self) -> None:
        self._numbers = (ctypes.c_uint64 * RUN_NUMBERS)()
        self._held = _room(RUN_BYTES)

    def start(self, file: bytes) -> None:
        """Starts it on a case file, whatever it was before."""
        file = _bytes(file)
        _accept(load().shahfureel_run_start(self._numbers, self._held, file, len(file)))

    def advance(self, file: bytes) -> int:
        """Advances it by one evaluation, with the file of its start, and says where it stands."""
        file, answers = _bytes(file), _answers(1)
        _accept(load().shahfureel_run_advance(self._numbers, self._held, file, len(file), answers, len(answers)))
        return answers[0]

    def ask(self) -> Asked:
        """What it has so far."""
        answers = _answers(RUN_ANSWERS)
        _accept(load().shahfureel_run_ask(self._numbers, answers, len(answers)))
        state, count, evaluations, cost, gap, surplus = answers[:6]
        return Asked(state, evaluations, cost, gap, surplus, tuple(answers[6 : 6 + count]))


# ---- replies from their bytes


def read_reply(data: bytes) -> Reply:
    """A reply of dispatch from its 28 + 2 * units bytes."""
    units, evaluations, cost, gap, surplus = struct.unpack_from(">HHQQQ", data)
    return Reply(struct.unpack_from(f">{units}H", data, 28), cost, gap, surplus, evaluations, None, data)


def read_refined(data: bytes) -> Reply:
    """A reply of refining from its 30 + 2 * units bytes."""
    units, nodes, cost, gap, surplus = struct.unpack_from(">HIQQQ", data)
    return Reply(struct.unpack_from(f">{units}H", data, 30), cost, gap, surplus, None, nodes, data)
