"""What the command reads and writes: files, folders of CSV, standard input and output."""

from __future__ import annotations

import sys
from dataclasses import dataclass
from pathlib import Path
from typing import Callable, Dict, List, Optional, Sequence

from weightrose import folder, inquiry, library, rates
from weightrose.cells import Columns, Damaged, Problem, Row, table
from weightrose.inquiry import Finding
from weightrose.records import SCHEDULE_MARK, Book, Malformed, Schedule
from weightrose.refusals import Refusal, RefusalNumber
from weightrose.words import AssetKind

# What a file of CSV has rows of, to speak of the records of a book in bytes.
_RECORDS = {
    "fund.csv": "header",
    "counterparties.csv": "counterparty",
    "assets.csv": "asset",
    "mitigants.csv": "mitigant",
}


class Usage(Exception):
    """What the command can't do as it was asked."""


class TurnedBack(Exception):
    """What was turned back, line by line."""

    def __init__(self, lines: Sequence[str]) -> None:
        self.lines = tuple(lines)
        super().__init__(self.lines)


@dataclass(frozen=True)
class BookInput:
    """A book by its bytes, with its records where it has such. 'source' is the file of the bytes;
    a folder of CSV has none, since its files speak for themselves."""

    data: bytes
    book: Optional[Book]
    source: Optional[str]
    title: str

    @property
    def records(self) -> Book:
        """The records of a book that the library has taken, which has some."""
        assert self.book is not None
        return self.book

    def said(self, finding: Finding) -> str:
        """A finding by file, row and column; of a file of bytes, by record and field."""
        refusal = finding.refusal
        if self.source is None:
            return str(finding)
        record = _RECORDS.get(refusal.file or "", "")
        place = str(refusal.place) if refusal.place else ""
        where = " ".join(filter(None, (self.source, record, place, ", ".join(finding.columns))))
        return f"{where}: {Finding(Refusal(refusal.number, refusal.place))}"

    def findings(self, ask: Callable[[bytes], bytes]) -> List[Finding]:
        return inquiry.refusals_of(self.data if self.book is None else self.book, ask)


@dataclass(frozen=True)
class ScheduleInput:
    data: bytes
    schedule: Optional[Schedule]
    source: str

    def findings(self) -> List[Finding]:
        return inquiry.schedule_refusals_of(self.data if self.schedule is None else self.schedule, self.source)


def _name(path: str) -> str:
    return "standard input" if path == "-" else path


def read_data(path: str) -> bytes:
    if path == "-" and sys.stdin.isatty():
        raise Usage("nothing to read: name a folder or a file, or send one to standard input")
    try:
        return sys.stdin.buffer.read() if path == "-" else Path(path).read_bytes()
    except OSError as error:
        raise Usage(f"{path}: {error.strerror}") from None


def read_book(path: str) -> BookInput:
    """A folder of CSV, a file of bytes, or the bytes on standard input."""
    if path != "-" and Path(path).is_dir():
        book = folder.read_folder(Path(path))
        return BookInput(book.to_bytes(), book, None, book.fund.name or Path(path).resolve().name)
    data = read_data(path)
    title = Path(_name(path)).name
    try:
        return BookInput(data, Book.from_bytes(data), _name(path), title)
    except Malformed:
        return BookInput(data, None, _name(path), title)


def read_schedule(path: Optional[str]) -> ScheduleInput:
    """The published schedule, or one from a file or standard input, bytes or a table of CSV."""
    if path is None:
        return ScheduleInput(library.published(), None, "the published schedule")
    data = read_data(path)
    if not data.startswith(SCHEDULE_MARK) and (path.endswith(".csv") or b"percent_kept" in data):
        schedule = rates.read_schedule(_name(path), data)
        return ScheduleInput(schedule.to_bytes(), schedule, _name(path))
    try:
        return ScheduleInput(data, Schedule.from_bytes(data), _name(path))
    except Malformed:
        return ScheduleInput(data, None, _name(path))


def answered(book: BookInput, schedule: Optional[ScheduleInput], ask: Callable[[bytes], bytes]) -> bytes:
    """What the library writes. Where it refuses, all that is refused is said."""
    try:
        return ask(book.data)
    except Refusal as refusal:
        if schedule is not None and refusal.number <= RefusalNumber.SCHEDULE_RATES:
            raise TurnedBack(list(map(str, schedule.findings()))) from None
        raise TurnedBack(list(map(book.said, book.findings(ask)))) from None


@dataclass(frozen=True)
class Asked:
    """A dealer's question, and where it stands."""

    counterparty: int
    kind: int
    where: str


QUESTION_COLUMNS = Columns(("counterparty", "kind"))


def read_questions(path: str, book: Book) -> List[Asked]:
    """A table of questions, counterparties by name."""
    file = _name(path)
    problems: List[Problem] = []
    rows = table(file, read_data(path), QUESTION_COLUMNS, problems)
    asked = [_question(row, book) for row in rows]
    if problems:
        raise Damaged(problems)
    return asked


def _question(row: Row, book: Book) -> Asked:
    name = row.named("counterparty")
    place = places(book).get(name)
    if name and place is None:
        row.wrong("counterparty", f"{name!r} is no counterparty of the book")
    kind = row.word("kind", AssetKind, 255)
    return Asked(place or 0, kind, f"{row.file} row {row.at}")


def places(book: Book) -> Dict[str, int]:
    """The places of counterparties by their names, and by '#' and the place."""
    found = {f"#{place}": place for place in range(1, len(book.counterparties) + 1)}
    found.update({party.name: place for place, party in enumerate(book.counterparties, 1)})
    return found


def _to_standard_output(data: bytes) -> None:
    """All of it: a stream that PYTHONUNBUFFERED has made bare may write a part and say so to nobody."""
    try:
        with open(sys.stdout.fileno(), "wb", closefd=False) as out:
            out.write(data)
    except OSError as error:
        raise Usage(f"standard output: {error.strerror}") from None


def write_data(data: bytes, path: Optional[str]) -> None:
    if path is None:
        if sys.stdout.isatty():
            raise Usage("bytes are not written to a terminal: use -o FILE")
        _to_standard_output(data)
        return
    try:
        Path(path).write_bytes(data)
    except OSError as error:
        raise Usage(f"{path}: {error.strerror}") from None


def write_text(text: str, path: Optional[str]) -> None:
    """UTF-8, whatever the terminal's settings."""
    if path is None:
        _to_standard_output(text.encode())
    else:
        write_data(text.encode(), path)


def write_tables(tables: Dict[str, str], path: str, force: bool) -> None:
    """Writes a folder of CSV, over another only when told."""
    there = [file for file in tables if Path(path, file).exists()]
    if there and not force:
        raise Usage(f"{path} has {', '.join(there)} already: --force writes over them")
    try:
        Path(path).mkdir(parents=True, exist_ok=True)
        for file, text in tables.items():
            Path(path, file).write_bytes(text.encode())
    except OSError as error:
        raise Usage(f"{path}: {error.strerror}") from None
