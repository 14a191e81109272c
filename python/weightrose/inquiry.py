"""Which rows and columns the library turns back, all of them.

The library answers with the first refusal alone. To find the others, a refused record is replaced by
one without substance and the library is asked again; to find the columns, the record's own values are
put back one by one. What is allowed is the library's word throughout, and no rule is told here.
"""

from __future__ import annotations

from dataclasses import dataclass, replace
from typing import Any, Callable, Dict, List, Optional, Sequence, Tuple, Union

from weightrose import library
from weightrose.entries import Question, located, question_bytes
from weightrose.records import (
    ASSET_SIZE,
    COUNTERPARTY,
    FUND,
    MITIGANT,
    ROW_NAMES,
    Asset,
    Book,
    Counterparty,
    Fund,
    Mitigant,
    Schedule,
    ScheduleRow,
)
from weightrose.refusals import Refusal, RefusalNumber
from weightrose.words import AssetKind, Form

Ask = Callable[[bytes], object]

_FUND_COLUMNS = ("specialist", "total_assets", "capital_base", "excluded_assets")
_COUNTERPARTY_COLUMNS = ("kind", "grade", "flags", "parent")
_ASSET_COLUMNS = (
    "kind", "counterparty", "flags", "entry_class", "months", "value", "offsets", "deductions",
    "insurance_stress", "combination_stress",
)  # fmt: skip
_MITIGANT_COLUMNS = ("form", "counterparty", "flags", "value")
_RATE_COLUMNS = ("vaf_rate", "second_vaf_rate", "base_rate", "fixed_amount")

# Where one column is all that a refusal can be about.
_ONLY_COLUMN = {
    RefusalNumber.BOOK_VERSION: ("version",),
    RefusalNumber.REINSURANCE_VALUES: ("total_assets",),
    RefusalNumber.SPECIALIST_ENTRY: ("entry_class",),
}
# Sums over all records, which mean nothing once a record is replaced.
_SUMS = (
    RefusalNumber.MITIGANT_COUNTS,
    RefusalNumber.REINSURANCE_VALUES,
    RefusalNumber.STRESSED_ASSETS,
    RefusalNumber.MANY_MITIGANTS,
)


@dataclass(frozen=True)
class Finding:
    """A refusal, the columns that it is about where they can be told, and the record's name."""

    refusal: Refusal
    columns: Tuple[str, ...] = ()
    record: str = ""

    @property
    def where(self) -> str:
        """'assets.csv row 7 columns months, value', or nothing."""
        if not self.columns:
            return self.refusal.where
        noun = "column" if len(self.columns) == 1 else "columns"
        return f"{self.refusal.where} {noun} {', '.join(self.columns)}".strip()

    def __str__(self) -> str:
        refusal = self.refusal
        about = f" ({self.record})" if self.record else ""
        said = f"refused {refusal.number} {refusal.place} {refusal.name}{about}: {refusal.meaning}"
        return f"{self.where}: {said}" if self.where else said


@dataclass(frozen=True)
class _Slot:
    """A record of a book: where it stands in its list and its bytes in the book, the columns to put
    back, a record without substance, and such ones of other kinds."""

    records: List[Any]
    index: int
    at: int
    columns: Tuple[str, ...]
    empty: Any
    pack: Callable[[Any], bytes]
    others: Tuple[Any, ...] = ()

    @property
    def record(self) -> Any:
        return self.records[self.index]


class _Probe:
    """A book whose records are replaced one by one under a call of the library."""

    def __init__(self, book: Book, ask: Ask) -> None:
        self._ask = ask
        self._data = bytearray(book.to_bytes())
        self._version = book.fund.version
        self._fund = [book.fund]
        self._counterparties = list(book.counterparties)
        self._assets = list(book.assets)
        self._mitigants = list(book.mitigants)
        # What served for one mistyped kind is tried first for the next.
        self._last_kind: int = AssetKind.REINSURANCE

    def answer(self) -> Optional[Refusal]:
        return _refusal(self._ask, bytes(self._data))

    def slot(self, refusal: Refusal) -> Optional[_Slot]:
        """The record that a refusal is about, if it is about one."""
        number = RefusalNumber(refusal.number)
        index = refusal.place - 1
        assets_at = FUND.size + COUNTERPARTY.size * len(self._counterparties)
        if number in (RefusalNumber.BOOK_MARK, RefusalNumber.BOOK_AMOUNTS):
            counts = len(self._counterparties), len(self._assets), len(self._mitigants)
            empty = replace(self._fund[0], total_assets=0, capital_base=0, excluded_assets=0, specialist=0)
            return _Slot(self._fund, 0, 0, _FUND_COLUMNS, empty, lambda fund: Fund.to_bytes(fund, *counts))
        if number is RefusalNumber.COUNTERPARTY:
            at = FUND.size + COUNTERPARTY.size * index
            return _Slot(self._counterparties, index, at, _COUNTERPARTY_COLUMNS, Counterparty(), Counterparty.to_bytes)
        if number in (RefusalNumber.ASSET, RefusalNumber.SPECIALIST_ENTRY):
            own = self._assets[index]
            bare = Asset(AssetKind.OTHER, 1, 0, desk=own.desk, mitigants=own.mitigants)
            others = tuple(replace(bare, kind=kind) for kind in AssetKind if kind != AssetKind.OTHER)
            at = assets_at + ASSET_SIZE * index
            pack = lambda a: Asset.to_bytes(a, self._version)  # noqa: E731
            return _Slot(self._assets, index, at, _ASSET_COLUMNS, bare, pack, others)
        if number is RefusalNumber.MITIGANT:
            at = assets_at + ASSET_SIZE * len(self._assets) + MITIGANT.size * index
            return _Slot(self._mitigants, index, at, _MITIGANT_COLUMNS, Mitigant(Form.CASH, 1, 0), Mitigant.to_bytes)
        return None

    def put(self, slot: _Slot, record: Any) -> None:
        packed = slot.pack(record)
        self._data[slot.at : slot.at + len(packed)] = packed
        slot.records[slot.index] = record

    def about(self, slot: _Slot) -> Optional[Refusal]:
        """The answer, if it is about this record."""
        refusal = self.answer()
        found = None if refusal is None else self.slot(refusal)
        return refusal if found is not None and found.at == slot.at else None

    def put_back(self, slot: _Slot, record: Any, empty: Any) -> Tuple[Dict[Tuple[int, int], List[str]], Any]:
        """The columns of a record that are refused when put into an empty one, by refusal, and the
        record without them. Nothing is found where even the empty one is refused."""
        found: Dict[Tuple[int, int], List[str]] = {}
        self.put(slot, empty)
        if self.about(slot):
            return found, empty
        kept = empty
        for column in slot.columns:
            tried = replace(kept, **{column: getattr(record, column)})
            self.put(slot, tried)
            refusal = self.about(slot)
            if refusal is None:
                kept = tried
            else:
                found.setdefault((refusal.number, refusal.place), []).append(column)
        return found, kept

    def columns(self, slot: _Slot) -> Dict[Tuple[int, int], List[str]]:
        """The columns that are refused; the record stays without them. Where the kind is one of them,
        the others are judged beside the kind that leaves the fewest: what a mistyped kind would allow
        if it were right is not at fault."""
        record = slot.record
        best = self.put_back(slot, record, slot.empty)
        if any("kind" in columns for columns in best[0].values()):
            for other in sorted(slot.others, key=lambda one: bool(one.kind != self._last_kind)):
                tried = self.put_back(slot, record, other)
                if 0 < _told(tried[0]) < _told(best[0]):
                    best, self._last_kind = tried, other.kind
                if _told(best[0]) == 1:
                    break
        self.put(slot, best[1])
        return best[0]


def _told(found: Dict[Tuple[int, int], List[str]]) -> int:
    return sum(map(len, found.values()))


def _refusal(ask: Ask, data: bytes) -> Optional[Refusal]:
    try:
        ask(data)
    except Refusal as refusal:
        return refusal
    return None


def _name(book: Book, refusal: Refusal) -> str:
    number = RefusalNumber(refusal.number)
    if number is RefusalNumber.COUNTERPARTY:
        return book.counterparties[refusal.place - 1].name
    if number in (RefusalNumber.ASSET, RefusalNumber.SPECIALIST_ENTRY, RefusalNumber.MANY_MITIGANTS):
        return book.assets[refusal.place - 1].name
    if number is RefusalNumber.MITIGANT:
        counted = 0
        for asset in book.assets:
            counted += len(asset.mitigants)
            if counted >= refusal.place:
                return asset.name
    return ""


def _finding(book: Book, number: int, place: int, columns: Sequence[str]) -> Finding:
    refusal = Refusal(number, place)
    return Finding(located(refusal, book), tuple(columns), _name(book, refusal))


def _next(book: Book, probe: _Probe, refusal: Refusal) -> Tuple[List[Finding], bool]:
    """What a refusal is about, and whether the library can be asked for more."""
    slot = probe.slot(refusal)
    columns = _ONLY_COLUMN.get(RefusalNumber(refusal.number))
    if slot is None or columns is not None:
        if slot is not None:
            probe.put(slot, slot.empty)
        return [_finding(book, refusal.number, refusal.place, columns or ())], slot is not None
    found = probe.columns(slot)
    if not found:
        return [_finding(book, refusal.number, refusal.place, ())], False
    return [_finding(book, number, place, told) for (number, place), told in found.items()], True


def _follows(refusal: Refusal, found: Sequence[Finding]) -> bool:
    """Whether a refusal may come of what was taken out: a sum over all records, or a retrocession
    where the mark of a specialist fund was taken out."""
    marked = any("specialist" in finding.columns for finding in found)
    return bool(found) and refusal.number in _SUMS or marked and refusal.number == RefusalNumber.SPECIALIST_ENTRY


def refusals_of(book: Union[Book, bytes], ask: Ask) -> List[Finding]:
    """All that a call of the library turns back in a book; nothing where the book is taken. Of bytes
    that are no records only the first."""
    if not isinstance(book, Book):
        first = _refusal(ask, book)
        return [] if first is None else [Finding(located(first, book))]
    probe = _Probe(book, ask)
    found: List[Finding] = []
    more = True
    while more:
        refusal = probe.answer()
        if refusal is None or _follows(refusal, found):
            break
        told, more = _next(book, probe, refusal)
        found.extend(told)
    return found


def schedule_refusals_of(schedule: Union[Schedule, bytes], file: str) -> List[Finding]:
    """The same of a schedule, row by row. A schedule that is taken is asked about with no book."""
    data = schedule.to_bytes() if isinstance(schedule, Schedule) else schedule

    def refusal_of(tried: Schedule) -> Optional[Refusal]:
        refusal = _refusal(lambda s: library.report(s, b""), tried.to_bytes())
        return refusal if refusal is not None and refusal.number <= RefusalNumber.SCHEDULE_RATES else None

    refusal = _refusal(lambda s: library.report(s, b""), data)
    if refusal is None or refusal.number > RefusalNumber.SCHEDULE_RATES:
        return []
    if not isinstance(schedule, Schedule) or refusal.number != RefusalNumber.SCHEDULE_RATES:
        return [Finding(Refusal(refusal.number, refusal.place, file))]
    found = []
    empty = Schedule((ScheduleRow(),) * len(ROW_NAMES), 0, 0, schedule.version)
    for place, name in enumerate(ROW_NAMES):
        own = schedule.rows[place]
        wrong = tuple(
            column for column in _RATE_COLUMNS
            if refusal_of(_with_row(empty, place, replace(ScheduleRow(), **{column: getattr(own, column)})))
        )  # fmt: skip
        if wrong:
            found.append(Finding(Refusal(refusal.number, 0, file, own.row or None), wrong, f"row {name}"))
    for step, column, at in zip(("first", "second"), ("percent_first", "percent_second"), schedule.percent_rows):
        if refusal_of(replace(empty, **{column: getattr(schedule, column)})):
            found.append(Finding(Refusal(refusal.number, 0, file, at or None), ("percent_kept",), f"{step} step"))
    return found


def _with_row(schedule: Schedule, place: int, row: ScheduleRow) -> Schedule:
    return replace(schedule, rows=schedule.rows[:place] + (row,) + schedule.rows[place + 1 :])


def refused_questions(schedule: bytes, book: bytes, questions: Sequence[Question]) -> List[int]:
    """The places, from 0, of the questions that are refused by themselves."""

    def alone(question: Question) -> bool:
        refusal = _refusal(lambda q: library.headroom(schedule, book, q), question_bytes([question]))
        return refusal is not None and refusal.number == RefusalNumber.QUESTIONS

    return [place for place, question in enumerate(questions) if alone(question)]
