"""Books as folders of CSV, and back.

A folder has fund.csv, counterparties.csv, assets.csv and mitigants.csv. Counterparties and assets
are named; '#7' is the record at place 7, for books that name one which is not there. Bytes, folder
and bytes again are the same bytes.
"""

from __future__ import annotations

import csv
import io
import re
from dataclasses import replace
from pathlib import Path
from typing import Dict, List, Sequence, Tuple

from weightrose import words
from weightrose.cells import I64, Columns, Damaged, Problem, Row, dollars, table
from weightrose.records import MOST_MITIGANTS_OF_AN_ASSET, Asset, Book, Counterparty, Fund, Mitigant

FUND_AMOUNTS = ("total_assets", "capital_base", "excluded_assets")
ASSET_AMOUNTS = ("value", "offsets", "deductions", "insurance_stress", "combination_stress")

COLUMNS = {
    "fund.csv": Columns(
        ("total_assets", "capital_base"), ("name", "version", "specialist", "excluded_assets"), FUND_AMOUNTS
    ),
    "counterparties.csv": Columns(("name", "kind"), ("parent", "grade", "flags")),
    "assets.csv": Columns(
        ("name", "counterparty", "kind", "value"),
        ("flags", "entry_class", "months", "desk") + ASSET_AMOUNTS[1:],
        ASSET_AMOUNTS,
    ),
    "mitigants.csv": Columns(("asset", "form", "counterparty", "value"), ("flags",), ("value",)),
}
FILES = tuple(COLUMNS)

_PLACE_MOST = 65535
_PLACE = re.compile("#[0-9]{1,5}")


class _Names:
    """The places of a table's names, from 1; a name that stands twice is noted."""

    def __init__(self, what: str, rows: Sequence[Row], readable: bool, by_place: bool) -> None:
        self._what = what
        self._readable = readable
        self._by_place = by_place
        self._places: Dict[str, int] = {}
        for place, row in enumerate(rows, 1):
            name = row.named("name")
            if name.startswith("#"):
                row.wrong("name", f"{name!r}: a name does not start with '#'")
            elif name in self._places:
                row.wrong("name", f"{name!r} stands twice, in row {rows[self._places[name] - 1].at} too")
            elif name:
                self._places[name] = place

    def place(self, row: Row, column: str, optional: bool = False) -> int:
        """The place of the record that a cell names. Where the table of names could not be read,
        that is noted already, and not once more in every row."""
        name = row.text(column) if optional else row.named(column)
        if name in self._places:
            return self._places[name]
        if self._by_place and _PLACE.fullmatch(name) and int(name[1:]) <= _PLACE_MOST:
            return int(name[1:])
        if name and self._readable:
            row.wrong(column, f"{name!r} is no {self._what} of the book")
        return 0


def _fund(row: Row) -> Fund:
    version = row.number("version", 65535, default=1)
    if version not in MOST_MITIGANTS_OF_AN_ASSET:
        row.wrong("version", f"books of version {version} are not known here, but 1 and 2")
    return Fund(
        total_assets=row.amount("total_assets"),
        capital_base=row.amount("capital_base", *I64),
        excluded_assets=row.amount("excluded_assets", default=0),
        specialist=row.word("specialist", words.YesNo, 255, default=0),
        version=version,
        name=row.text("name"),
        row=row.at,
    )


def _counterparty(row: Row, names: _Names) -> Counterparty:
    return Counterparty(
        name=row.text("name"),
        parent=names.place(row, "parent", optional=True),
        kind=row.word("kind", words.CounterpartyKind, 15),
        grade=row.word("grade", words.Grade, 15, default=0),
        flags=row.flags("flags", words.CounterpartyFlag),
        row=row.at,
    )


def _asset(row: Row, names: _Names) -> Asset:
    return Asset(
        name=row.text("name"),
        counterparty=names.place(row, "counterparty"),
        kind=row.word("kind", words.AssetKind, 255),
        flags=row.flags("flags", words.AssetFlag),
        entry_class=row.word("entry_class", words.EntryClass, 255, default=0),
        months=row.number("months", 255, default=0),
        desk=row.number("desk", 255, default=0),
        value=row.amount("value"),
        offsets=row.amount("offsets", default=0),
        deductions=row.amount("deductions", default=0),
        insurance_stress=row.amount("insurance_stress", default=0),
        combination_stress=row.amount("combination_stress", default=0),
        row=row.at,
    )


def _mitigant(row: Row, names: _Names) -> Mitigant:
    return Mitigant(
        form=row.word("form", words.Form, 255),
        counterparty=names.place(row, "counterparty"),
        flags=row.flags("flags", words.MitigantFlag),
        value=row.amount("value"),
        row=row.at,
    )


def _tables(folder: Path, problems: List[Problem]) -> Dict[str, List[Row]]:
    tables: Dict[str, List[Row]] = {}
    for file, columns in COLUMNS.items():
        try:
            tables[file] = table(file, (folder / file).read_bytes(), columns, problems)
        except FileNotFoundError:
            problems.append(Problem(file, None, None, "is missing: every file has a row of columns, if nothing else"))
            tables[file] = []
        except OSError as error:
            problems.append(Problem(file, None, None, f"can't be read: {error.strerror}"))
            tables[file] = []
    return tables


def _check_packable(book: Book, assets: Sequence[Row], problems: List[Problem]) -> None:
    """What the book's version has no bytes for."""
    most = MOST_MITIGANTS_OF_AN_ASSET.get(book.fund.version, _PLACE_MOST)
    for asset, row in zip(book.assets, assets):
        if book.fund.version == 1 and asset.desk:
            row.wrong("desk", "a book of version 1 has no desks")
        if len(asset.mitigants) > most:
            row.wrong("name", f"has {len(asset.mitigants)} mitigants, and version {book.fund.version} counts to {most}")
    for file, count in zip(FILES[1:], (len(book.counterparties), len(book.assets), len(book.mitigants))):
        if count > _PLACE_MOST:
            problems.append(Problem(file, None, None, f"has {count} rows, and a book counts to {_PLACE_MOST}"))


def _order(problem: Problem) -> Tuple[int, int]:
    return FILES.index(problem.file), problem.row or 0


def read_folder(folder: Path) -> Book:
    """The book of a folder. Raises Damaged with all that is wrong."""
    problems: List[Problem] = []
    tables = _tables(folder, problems)
    funds, parties, assets, mitigants = (tables[file] for file in FILES)
    unreadable = {problem.file for problem in problems}
    if len(funds) != 1 and FILES[0] not in unreadable:
        problems.append(Problem(FILES[0], None, None, f"has {len(funds)} rows, and a book is of one fund"))
    party_names = _Names("counterparty", parties, FILES[1] not in unreadable, by_place=True)
    asset_names = _Names("asset", assets, FILES[2] not in unreadable, by_place=False)
    own: Dict[int, List[Mitigant]] = {}
    for row in mitigants:
        own.setdefault(asset_names.place(row, "asset"), []).append(_mitigant(row, party_names))
    book = Book(
        _fund(funds[0]) if funds else Fund(0, 0),
        tuple(_counterparty(row, party_names) for row in parties),
        tuple(replace(_asset(row, party_names), mitigants=tuple(own.get(at, ()))) for at, row in enumerate(assets, 1)),
    )
    if not any(problem.file == FILES[0] for problem in problems):
        _check_packable(book, assets, problems)
    if problems:
        raise Damaged(sorted(problems, key=_order))
    return book


def _written(rows: Sequence[Sequence[object]]) -> str:
    out = io.StringIO()
    csv.writer(out, lineterminator="\n").writerows(rows)
    return out.getvalue()


def _unique(what: str, names: Sequence[str]) -> List[str]:
    """The names as they can be read again."""
    stripped = [name.strip() for name in names]
    for name in stripped:
        if not name or name.startswith("#") or "\0" in name:
            raise ValueError(f"{what} {name!r}: a name in CSV has a character, and '#' is not the first")
    if len(set(stripped)) != len(stripped):
        raise ValueError(f"two of the {what} names are the same")
    return stripped


def tables_of(book: Book) -> Dict[str, str]:
    """The text of each file of a book's folder."""
    parties = _unique("counterparty", [party.name for party in book.counterparties])
    assets = _unique("asset", [asset.name for asset in book.assets])

    def party(place: int) -> str:
        return parties[place - 1] if 1 <= place <= len(parties) else f"#{place}"

    fund = book.fund
    fund_rows = [
        ("name", "version", "specialist", *FUND_AMOUNTS),
        (fund.name, fund.version, words.word(words.YesNo, fund.specialist), *_amounts(fund, FUND_AMOUNTS)),
    ]
    party_rows = [("name", "parent", "kind", "grade", "flags")] + [
        (
            name, party(p.parent) if p.parent else "", words.word(words.CounterpartyKind, p.kind),
            words.word(words.Grade, p.grade), words.flag_word(words.CounterpartyFlag, p.flags),
        )
        for name, p in zip(parties, book.counterparties)
    ]  # fmt: skip
    asset_rows = [("name", "counterparty", "kind", "flags", "entry_class", "months", "desk", *ASSET_AMOUNTS)] + [
        (
            name, party(a.counterparty), words.word(words.AssetKind, a.kind), words.flag_word(words.AssetFlag, a.flags),
            words.word(words.EntryClass, a.entry_class), a.months, a.desk, *_amounts(a, ASSET_AMOUNTS),
        )
        for name, a in zip(assets, book.assets)
    ]  # fmt: skip
    mitigant_rows = [("asset", "form", "counterparty", "flags", "value")] + [
        (
            name, words.word(words.Form, m.form), party(m.counterparty),
            words.flag_word(words.MitigantFlag, m.flags), dollars(m.value),
        )
        for name, a in zip(assets, book.assets) for m in a.mitigants
    ]  # fmt: skip
    every: Sequence[Sequence[Sequence[object]]] = (fund_rows, party_rows, asset_rows, mitigant_rows)
    return dict(zip(FILES, map(_written, every)))


def _amounts(record: object, names: Sequence[str]) -> List[str]:
    return [dollars(getattr(record, name)) for name in names]


def write_folder(book: Book, folder: Path) -> None:
    texts = tables_of(book)
    folder.mkdir(parents=True, exist_ok=True)
    for file, text in texts.items():
        (folder / file).write_bytes(text.encode())
