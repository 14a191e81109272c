"""The shared library's entries, on bytes.

The library is looked for in this order: the file that WEIGHTROSE_LIBRARY names, libweightrose.so in
this package, and libweightrose.so.0 where the system's loader and this Python's prefix have it.
"""

from __future__ import annotations

import ctypes
import os
import sys
from pathlib import Path
from typing import List, NamedTuple, Optional, Tuple, Union

from weightrose.refusals import Refusal

Bytes = Union[bytes, bytearray, memoryview]

VERSION = (0, 11, 0)

MOST_AMOUNT = 10**13
MOST_REPORT_SIZE = 96072
BILLS_SIZE = 2048
DESKS = 256
QUESTION_SIZE = 3
ANSWER_SIZE = 8
SCHEDULE_SIZE = 122


class LibraryError(Exception):
    """There is no shared library, or it is another one than this package is made for."""


class Version(NamedTuple):
    """The library's version, and the versions of schedules and books that it takes."""

    number: Tuple[int, int, int]
    schedules: Tuple[int, ...]
    books: Tuple[int, ...]


def _taken(bits: int) -> Tuple[int, ...]:
    return tuple(version for version in range(16) if bits >> version & 1)


def _version_of(answer: int) -> Version:
    number = (answer >> 16 & 0xFFFF, answer >> 8 & 0xFF, answer & 0xFF)
    return Version(number, _taken(answer >> 32 & 0xFFFF), _taken(answer >> 48))


_DATA, _SIZE = ctypes.c_char_p, ctypes.c_size_t
_SIGNATURES = {
    "weightrose_version": [],
    "weightrose_published": [_DATA, _SIZE],
    "weightrose_report": [_DATA, _SIZE, _DATA, _SIZE, _DATA, _SIZE],
    "weightrose_convert": [_DATA, _SIZE, _DATA, _SIZE],
    "weightrose_bills": [_DATA, _SIZE, _DATA, _SIZE, ctypes.c_uint64, _DATA, _SIZE],
    "weightrose_headroom": [_DATA, _SIZE, _DATA, _SIZE, _DATA, _SIZE, _DATA, _SIZE],
    "weightrose_add": [_DATA, _SIZE, _DATA, _SIZE, _DATA, _SIZE, _DATA, _SIZE],
    "weightrose_remove": [_DATA, _SIZE, ctypes.c_uint64, _DATA, _SIZE, _DATA, _SIZE],
}

_loaded: Optional[ctypes.CDLL] = None


def _candidates() -> List[str]:
    named = os.environ.get("WEIGHTROSE_LIBRARY")
    if named:
        return [named]
    packaged = Path(__file__).with_name("libweightrose.so")
    prefixed = Path(sys.prefix, "lib", "libweightrose.so.0")
    return [str(path) for path in (packaged, prefixed) if path.exists()] + ["libweightrose.so.0"]


def _open() -> ctypes.CDLL:
    tried = []
    for candidate in _candidates():
        try:
            return ctypes.CDLL(candidate)
        except OSError as error:
            tried.append(str(error))
    raise LibraryError(
        "no shared library: run 'make python' before 'pip install ./python', or 'make install', or "
        "let WEIGHTROSE_LIBRARY name a libweightrose.so (" + "; ".join(tried) + ")"
    )


def _with_signatures(found: ctypes.CDLL) -> ctypes.CDLL:
    for name, arguments in _SIGNATURES.items():
        try:
            entry = getattr(found, name)
        except AttributeError:
            raise LibraryError(f"{found._name} has no {name}: it is older than this package") from None
        entry.argtypes = arguments
        entry.restype = ctypes.c_uint64
    return found


def load() -> ctypes.CDLL:
    """The shared library, which must be of this package's version."""
    global _loaded
    if _loaded is None:
        found = _with_signatures(_open())
        number = _version_of(found.weightrose_version()).number
        if number != VERSION:
            its, ours = (".".join(map(str, parts)) for parts in (number, VERSION))
            raise LibraryError(f"{found._name} is of version {its}, this package of {ours}")
        _loaded = found
    return _loaded


def version() -> Version:
    return _version_of(load().weightrose_version())


def _lent(data: Bytes) -> Tuple[bytes, int]:
    held = bytes(data)
    return held, len(held)


def _written(entry: str, room: int, *arguments: object) -> bytes:
    """Calls an entry with a buffer of so many bytes behind its other arguments."""
    buffer = ctypes.create_string_buffer(room)
    answer = getattr(load(), entry)(*arguments, buffer, room)
    if answer >> 32:
        raise Refusal(answer >> 32, answer & 0xFFFFFFFF)
    return buffer.raw[:answer]


def published() -> bytes:
    """The published schedule, of version 1."""
    return _written("weightrose_published", SCHEDULE_SIZE)


def report(schedule: Bytes, book: Bytes, room: int = MOST_REPORT_SIZE) -> bytes:
    return _written("weightrose_report", room, *_lent(schedule), *_lent(book))


def convert(book: Bytes, room: Optional[int] = None) -> bytes:
    """A book of version 1 as one of version 2."""
    return _written("weightrose_convert", len(book) if room is None else room, *_lent(book))


def bills(schedule: Bytes, book: Bytes, rate: int, room: int = BILLS_SIZE) -> bytes:
    """'rate' is in ten-thousandths."""
    return _written("weightrose_bills", room, *_lent(schedule), *_lent(book), rate)


def headroom(schedule: Bytes, book: Bytes, questions: Bytes, room: Optional[int] = None) -> bytes:
    if room is None:
        room = ANSWER_SIZE * (len(questions) // QUESTION_SIZE)
    return _written("weightrose_headroom", room, *_lent(schedule), *_lent(book), *_lent(questions))
