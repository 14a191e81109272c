"""Tables of CSV, cell by cell: every bad one is noted by file, row and column, none stops the reading."""

from __future__ import annotations

import csv
import enum
import io
import re
from dataclasses import dataclass
from typing import Dict, Iterable, List, Optional, Sequence, Tuple, Type

from weightrose.words import flag_words, plain, words

U64 = (1 << 64) - 1
I64 = (-(1 << 63), (1 << 63) - 1)

_WHOLE = re.compile(r"-?[0-9]{1,30}")
_DOLLARS = re.compile(r"(-?)([0-9]{1,30})(?:\.([0-9]{1,2}))?")


@dataclass(frozen=True)
class Problem:
    """What is wrong with a cell, a row (no column) or a file (no row); rows count as in a
    spreadsheet, the header being row 1."""

    file: str
    row: Optional[int]
    column: Optional[str]
    message: str

    @property
    def where(self) -> str:
        parts = [self.file]
        if self.row is not None:
            parts.append(f"row {self.row}")
        if self.column is not None:
            parts.append(f"column {self.column}")
        return " ".join(parts)

    def __str__(self) -> str:
        return f"{self.where}: {self.message}"


class Damaged(Exception):
    """All that is wrong with a folder or a table, at once."""

    def __init__(self, problems: Sequence[Problem]) -> None:
        self.problems = tuple(problems)
        super().__init__(self.problems)

    def __str__(self) -> str:
        return "\n".join(map(str, self.problems))


def cents(text: str) -> Optional[int]:
    """'1234.5' as 123450; None for what is no amount in dollars."""
    match = _DOLLARS.fullmatch(text)
    if match is None:
        return None
    sign, whole, part = match.groups()
    amount = int(whole) * 100 + int((part or "").ljust(2, "0"))
    return -amount if sign else amount


def dollars(amount: int) -> str:
    """123450 as '1234.50', as cents() reads it."""
    sign = "-" if amount < 0 else ""
    return f"{sign}{abs(amount) // 100}.{abs(amount) % 100:02d}"


class Row:
    """One row: each reading notes what is wrong and goes on with a harmless value."""

    def __init__(self, file: str, at: int, cells: Dict[str, str], problems: List[Problem]) -> None:
        self.file = file
        self.at = at
        self._cells = cells
        self._problems = problems

    def wrong(self, column: str, message: str) -> None:
        self._problems.append(Problem(self.file, self.at, column, message))

    def text(self, column: str) -> str:
        return self._cells.get(column, "").strip()

    def named(self, column: str) -> str:
        """A text that must be there."""
        text = self.text(column)
        if not text:
            self.wrong(column, "is empty")
        return text

    def _in_range(self, column: str, number: int, least: int, most: int) -> int:
        if least <= number <= most:
            return number
        self.wrong(column, f"{self.text(column)} has no room in a book: {least} to {most}")
        return 0

    def number(self, column: str, most: int, default: Optional[int] = None) -> int:
        text = self.text(column)
        if not text and default is not None:
            return default
        if _WHOLE.fullmatch(text) is None:
            self.wrong(column, f"{text!r} is no whole number" if text else "is empty")
            return 0
        return self._in_range(column, int(text), 0, most)

    def word(self, column: str, numbers: Type[enum.IntEnum], most: int, default: Optional[int] = None) -> int:
        """A number, or the word for one."""
        known = words(numbers)
        text = self.text(column)
        if plain(text) in known:
            return known[plain(text)]
        if text and _WHOLE.fullmatch(text) is None:
            self.wrong(column, f"{text!r} is none of: {', '.join(known)}; and no number")
            return 0
        return self.number(column, most, default)

    def flags(self, column: str, flags: Type[enum.IntFlag]) -> int:
        """The words of flags with spaces or commas between them, or their bits as one number."""
        known = flag_words(flags)
        text = self.text(column)
        if _WHOLE.fullmatch(text):
            return self.number(column, 255)
        bits = 0
        for found in re.split(r"[\s,;]+", text.lower().replace("_", "-")):
            if found in known:
                bits |= known[found]
            elif found:
                self.wrong(column, f"{found!r} is none of: {', '.join(known)}")
        return bits

    def amount(self, column: str, least: int = 0, most: int = U64, default: Optional[int] = None) -> int:
        """An amount in cents, from the column itself in dollars or from column_cents."""
        in_cents = f"{column}_cents"
        used = in_cents if in_cents in self._cells else column
        text = self.text(used)
        if not text and default is not None:
            return default
        amount = cents(text) if used == column else int(text) if _WHOLE.fullmatch(text) else None
        if amount is None:
            unit = "whole cents, as 123456" if used == in_cents else "dollars, as 1234.56"
            self.wrong(used, f"{text!r} is no amount in {unit}" if text else "is empty")
            return 0
        return self._in_range(used, amount, least, most)


@dataclass(frozen=True)
class Columns:
    """The columns that a table must have, those it may have, and those of amounts, each of which
    may be named with _cents behind it. Amounts are in one of the first two as well."""

    needed: Tuple[str, ...]
    possible: Tuple[str, ...] = ()
    amounts: Tuple[str, ...] = ()

    def check(self, file: str, header: Sequence[str]) -> List[Problem]:
        if len(header) == 1 and re.search("[;\t]", header[0]):
            return [Problem(file, 1, None, "has no commas: the cells of a row are set apart by them")]
        found = []
        allowed = set(self.needed + self.possible) | {f"{name}_cents" for name in self.amounts}
        for place, name in enumerate(header):
            if not name:
                found.append(Problem(file, 1, None, f"column {place + 1} has no name"))
            elif name not in allowed:
                found.append(
                    Problem(file, 1, name, f"is none of the columns: {', '.join(self.needed + self.possible)}")
                )
            elif name in header[:place]:
                found.append(Problem(file, 1, name, "stands twice"))
        for name in self.amounts:
            if name in header and f"{name}_cents" in header:
                found.append(Problem(file, 1, f"{name}_cents", f"stands beside {name}: an amount has one column"))
        for name in self.needed:
            if name not in header and not (name in self.amounts and f"{name}_cents" in header):
                found.append(Problem(file, 1, name, "is missing"))
        return found


def table(file: str, data: bytes, columns: Columns, problems: List[Problem]) -> List[Row]:
    """The rows of a table. Rows without a filled cell are skipped, and counted."""
    try:
        text = data.decode("utf-8-sig")
    except UnicodeDecodeError as error:
        line = data[: error.start].count(b"\n") + 1
        problems.append(Problem(file, line, None, "is no UTF-8: save the sheet as 'CSV UTF-8'"))
        return []
    if "\0" in text:
        problems.append(Problem(file, text[: text.index("\0")].count("\n") + 1, None, "has a zero byte"))
        return []
    return _rows(file, csv.reader(io.StringIO(text, newline=""), strict=True), columns, problems)


def _rows(file: str, reader: Iterable[List[str]], columns: Columns, problems: List[Problem]) -> List[Row]:
    header: Optional[List[str]] = None
    rows: List[Row] = []
    number = 0
    try:
        for cells in reader:
            number += 1
            if header is None:
                header = [re.sub("[ -]+", "_", name.strip().lower()) for name in cells]
                found = columns.check(file, header)
                problems.extend(found)
                if found:
                    return []
            elif any(cell.strip() for cell in cells):
                if any(cell.strip() for cell in cells[len(header) :]):
                    problems.append(Problem(file, number, None, "has more cells than the header"))
                rows.append(Row(file, number, dict(zip(header, cells + [""] * len(header))), problems))
    except csv.Error as error:
        problems.append(Problem(file, number + 1, None, f"is no CSV: {error}"))
    if header is None:
        problems.append(Problem(file, None, None, "is empty: its first row has the columns' names"))
    return rows
