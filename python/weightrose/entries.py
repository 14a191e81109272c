"""The library's entries, on records: packs, calls and unpacks.

Books and schedules may be handed in as records or as bytes; without a schedule the published one is
meant. A refusal is raised with the row of the book that it speaks of.
"""

from __future__ import annotations

import struct
from dataclasses import replace
from typing import List, Optional, Sequence, Tuple, Union

from weightrose import library
from weightrose.records import Book, Malformed, Report, Schedule
from weightrose.refusals import FILES, Refusal, RefusalNumber

BookLike = Union[Book, bytes]
ScheduleLike = Union[Schedule, bytes, None]
Question = Tuple[int, int]


def book_bytes(book: BookLike) -> bytes:
    return book.to_bytes() if isinstance(book, Book) else book


def schedule_bytes(schedule: ScheduleLike) -> bytes:
    if schedule is None:
        return library.published()
    return schedule.to_bytes() if isinstance(schedule, Schedule) else schedule


def _record_row(book: Book, number: RefusalNumber, place: int) -> int:
    """The row of CSV that a record came from, or would be written to."""
    if number in (RefusalNumber.ASSET, RefusalNumber.SPECIALIST_ENTRY, RefusalNumber.MANY_MITIGANTS):
        return book.assets[place - 1].row or place + 1
    if number is RefusalNumber.COUNTERPARTY:
        return book.counterparties[place - 1].row or place + 1
    if number is RefusalNumber.MITIGANT:
        return book.mitigants[place - 1].row or place + 1
    return book.fund.row or 2


def located(refusal: Refusal, book: BookLike) -> Refusal:
    """The refusal with the file and row that it speaks of."""
    number = RefusalNumber(refusal.number)
    file = FILES.get(number)
    if file is None:
        return Refusal(refusal.number, refusal.place)
    row: Optional[int] = refusal.place + 1 if refusal.place else 2
    if isinstance(book, Book):
        row = _record_row(book, number, refusal.place)
    return Refusal(refusal.number, refusal.place, file, row)


def report(book: BookLike, schedule: ScheduleLike = None) -> Report:
    try:
        return Report.from_bytes(library.report(schedule_bytes(schedule), book_bytes(book)))
    except Refusal as refusal:
        raise located(refusal, book) from None


def convert(book: BookLike) -> Book:
    """The book in version 2. Names, which have no bytes, are those of the book handed in."""
    try:
        converted = Book.from_bytes(library.convert(book_bytes(book)))
    except Refusal as refusal:
        raise located(refusal, book) from None
    return named_as(converted, book) if isinstance(book, Book) else converted


def named_as(converted: Book, book: Book) -> Book:
    """The records of one book under the names of another that has as many."""
    if len(converted.counterparties) != len(book.counterparties) or len(converted.assets) != len(book.assets):
        raise Malformed("the two books have different counts")
    return Book(
        replace(converted.fund, name=book.fund.name),
        tuple(replace(new, name=old.name) for new, old in zip(converted.counterparties, book.counterparties)),
        tuple(replace(new, name=old.name) for new, old in zip(converted.assets, book.assets)),
    )


def bills(book: BookLike, rate: int, schedule: ScheduleLike = None) -> Tuple[int, ...]:
    """The bills of desks 0 to 255, at a cost rate in ten-thousandths."""
    if not 0 <= rate < 1 << 64:
        raise ValueError("a cost rate is a number of 64 bits")
    try:
        data = library.bills(schedule_bytes(schedule), book_bytes(book), rate)
    except Refusal as refusal:
        raise located(refusal, book) from None
    return struct.unpack(f"<{library.DESKS}Q", data)


def question_bytes(questions: Sequence[Question]) -> bytes:
    """Each question is the place of a counterparty and a kind of asset."""
    return b"".join(struct.pack("<HB", place, kind) for place, kind in questions)


def headroom(book: BookLike, questions: Sequence[Question], schedule: ScheduleLike = None) -> List[int]:
    """How much more may be bought, question by question, before the charge rises."""
    try:
        data = library.headroom(schedule_bytes(schedule), book_bytes(book), question_bytes(questions))
    except Refusal as refusal:
        raise located(refusal, book) from None
    return list(struct.unpack(f"<{len(questions)}Q", data))


def published() -> Schedule:
    return Schedule.from_bytes(library.published())
