"""Every refusal through the package: number, place, name, and the row that it speaks of."""

from __future__ import annotations

import tempfile
import unittest
from dataclasses import replace
from pathlib import Path
from typing import Callable, List, Optional, Set, Tuple

import books
from books import M

from weightrose import (
    Asset,
    Book,
    Counterparty,
    Fund,
    Mitigant,
    RefusalNumber,
    Refusal,
    ScheduleRow,
    bills,
    convert,
    headroom,
    inquiry,
    library,
    published,
    read_folder,
    read_schedule,
    report,
    schedule_text,
    version,
    write_folder,
)


def refusal_of(call: Callable[[], object]) -> Refusal:
    try:
        call()
    except Refusal as refusal:
        return refusal
    raise AssertionError("nothing was refused")


def asset_refused(**changes: object) -> Book:
    """A third asset, refused for what is changed in it."""
    return books.with_asset(books.small(), replace(Asset(7, 1, 100, "Third"), **changes))  # type: ignore[arg-type]


def many(count: int) -> tuple:  # type: ignore[type-arg]
    return tuple(Mitigant(1, 1, 1) for _ in range(count))


GOOD = books.small()
WITH_MITIGANTS = books.with_asset(GOOD, Asset(7, 1, 100, "Third", mitigants=(Mitigant(1, 1, 5), Mitigant(6, 1, 5))))
TREATY = Asset(9, 1, 10**9, "Treaty", combination_stress=10**9)
RETROCESSION = Asset(9, 1, 100, "Retrocession", entry_class=3, combination_stress=100)


class Entries(unittest.TestCase):
    """Each number once at least, from the entry that answers with it."""

    def test_every_refusal(self) -> None:
        schedule, book = library.published(), GOOD.to_bytes()
        moved, lent = library._written, library._lent
        miscounted = bytearray(WITH_MITIGANTS.to_bytes())
        miscounted[40 + 4 + 2 * 48 + 6] = 1
        cases: List[Tuple[Callable[[], object], int, int, Optional[str], Optional[int]]] = [
            (lambda: report(book, schedule[:-1]), 1, 0, None, None),
            (lambda: report(book, b"X" + schedule[1:]), 2, 0, None, None),
            (lambda: report(book, replace(published(), version=3)), 3, 0, None, None),
            (lambda: report(book, replace(published(), percent_first=101)), 4, 0, None, None),
            (lambda: report(book[:39]), 5, 0, None, None),
            (lambda: report(books.small(specialist=2)), 6, 0, "fund.csv", 2),
            (lambda: report(book[:4] + b"\3\0" + book[6:]), 7, 0, "fund.csv", 2),
            (lambda: report(Book(Fund(1, 1), tuple(Counterparty(f"c{n}") for n in range(501)))), 8, 0, None, None),
            (lambda: report(books.small(excluded_assets=M + 1)), 9, 0, "fund.csv", 2),
            (
                lambda: report(Book(Fund(1, 1), (Counterparty("a"), Counterparty("b", parent=2)))),
                10,
                2,
                "counterparties.csv",
                3,
            ),
            (lambda: report(asset_refused(kind=12)), 11, 3, "assets.csv", 4),
            (lambda: report(WITH_MITIGANTS), 12, 2, "mitigants.csv", 3),
            (
                lambda: report(Book(Fund(1, 1), (Counterparty(),), (Asset(4, 2, 1), Asset(4, 1, 1)))),
                11,
                1,
                "assets.csv",
                2,
            ),
            (lambda: report(bytes(miscounted[:-12]) + bytes(b"\1\0\1\0" + bytes(8))), 13, 0, None, None),
            (lambda: report(books.with_asset(books.small(total_assets=10**8), TREATY)), 14, 0, "fund.csv", 2),
            (lambda: report(books.small(total_assets=1, excluded_assets=2)), 15, 0, "fund.csv", 2),
            (lambda: library.report(schedule, book, room=151), 16, 0, None, None),
            (lambda: report(books.with_asset(GOOD, RETROCESSION)), 17, 3, "assets.csv", 4),
            (lambda: convert(books.with_asset(GOOD, Asset(7, 1, 1, mitigants=many(256)))), 18, 3, "assets.csv", 4),
            (lambda: convert(books.small(version=2)), 7, 0, "fund.csv", 2),
            (lambda: bills(GOOD, 1001), 19, 0, None, None),
            (lambda: library.bills(schedule, book, 1000, room=2047), 16, 0, None, None),
            (lambda: headroom(GOOD, [(1, 11), (1, 9)]), 20, 0, None, None),
            (lambda: headroom(GOOD, [(1, 11)] * 201), 20, 0, None, None),
            (lambda: library.headroom(schedule, book, b"\1\0\x0b\1\0\4", room=15), 21, 0, None, None),
            (lambda: library.convert(book, room=len(book) - 1), 16, 0, None, None),
            # Movements, for which the package has no functions; a refused one leaves the book's bytes alone.
            (lambda: moved("weightrose_remove", 72, *lent(schedule), 3, *lent(book)), 22, 0, None, None),
            (lambda: moved("weightrose_add", 72, *lent(schedule), *lent(b""), *lent(book)), 22, 0, None, None),
        ]
        seen: Set[int] = set()
        for call, number, place, file, row in cases:
            refusal = refusal_of(call)
            self.assertEqual(
                (refusal.number, refusal.place, refusal.file, refusal.row), (number, place, file, row), str(refusal)
            )
            self.assertEqual(refusal.name, RefusalNumber(number).name)
            self.assertIn(f"refused {number} {place} {refusal.name}: ", str(refusal))
            seen.add(number)
        self.assertEqual(seen, set(range(1, 23)))

    def test_what_is_just_taken(self) -> None:
        """The buffers and rates one further than the ones refused above."""
        schedule, book = library.published(), GOOD.to_bytes()
        self.assertEqual(len(library.report(schedule, book, room=152)), 152)
        self.assertEqual(len(library.bills(schedule, book, 1000, room=2048)), 2048)
        self.assertEqual(len(library.headroom(schedule, book, b"\1\0\x0b\1\0\4", room=16)), 16)
        self.assertEqual(headroom(GOOD, []), [])
        self.assertEqual(convert(books.with_asset(GOOD, Asset(7, 1, 1, mitigants=many(255)))).fund.version, 2)

    def test_numbers_that_no_entry_has_room_for(self) -> None:
        for rate in (-1, 1 << 64):
            with self.assertRaises(ValueError):
                bills(GOOD, rate)

    def test_versions_that_are_taken(self) -> None:
        """What the library says of itself is what it does."""
        for number in range(20):
            schedule = library.published()[:4] + bytes((number, 0)) + library.published()[6:]
            book = GOOD.to_bytes()[:4] + bytes((number, 0)) + GOOD.to_bytes()[6:]
            for taken, call, refusal in (
                (version().schedules, lambda: library.report(schedule, GOOD.to_bytes()), 3),
                (version().books, lambda: library.report(library.published(), book), 7),
            ):
                if number in taken:
                    call()
                else:
                    self.assertEqual(refusal_of(call).number, refusal)


def found_in(book: Book, ask: Callable[[bytes], object]) -> List[Tuple[int, str]]:
    return [(finding.refusal.number, finding.where) for finding in inquiry.refusals_of(book, ask)]


def by_report(data: bytes) -> bytes:
    return library.report(library.published(), data)


class Rows(unittest.TestCase):
    """All rows and columns that are refused, as a folder of CSV has them."""

    def check(self, book: Book, *expected: Tuple[int, str]) -> None:
        with tempfile.TemporaryDirectory() as folder:
            write_folder(book, Path(folder))
            self.assertEqual(found_in(read_folder(Path(folder)), by_report), list(expected))

    def test_nothing(self) -> None:
        for seed in range(30):
            self.check(books.accepted(seed))

    def test_single_columns(self) -> None:
        for changes, column in (
            ({"kind": 0}, "kind"), ({"counterparty": 2}, "counterparty"), ({"counterparty": 0}, "counterparty"),
            ({"flags": 4}, "flags"), ({"flags": 2}, "flags"), ({"entry_class": 1}, "entry_class"), ({"months": 1}, "months"),
            ({"value": M + 1}, "value"), ({"offsets": M + 1}, "offsets"), ({"deductions": M + 1}, "deductions"),
            ({"insurance_stress": 1}, "insurance_stress"), ({"combination_stress": 1}, "combination_stress"),
            ({"kind": 9, "offsets": 101}, "offsets"), ({"kind": 9, "entry_class": 4}, "entry_class"),
            ({"kind": 9, "months": 1}, "months"), ({"kind": 9, "insurance_stress": M + 1}, "insurance_stress"),
        ):  # fmt: skip
            self.check(asset_refused(**changes), (11, f"assets.csv row 4 column {column}"))

    def test_a_mistyped_kind_is_at_fault_alone(self) -> None:
        """Not the columns that the right kind would allow; but those that no kind would."""
        treaty = Asset(12, 1, 100, "Third", 2, 1, 3, insurance_stress=90, combination_stress=100)
        self.check(books.with_asset(GOOD, replace(treaty, kind=9)))
        self.check(books.with_asset(GOOD, treaty), (11, "assets.csv row 4 column kind"))
        self.check(books.with_asset(GOOD, replace(treaty, offsets=101)), (11, "assets.csv row 4 columns kind, offsets"))
        worse = replace(treaty, deductions=M + 1, counterparty=7)
        self.check(books.with_asset(GOOD, worse), (11, "assets.csv row 4 columns kind, counterparty, deductions"))

    def test_counterparties_and_mitigants(self) -> None:
        for changes, column in (
            ({"kind": 5}, "kind"),
            ({"grade": 8}, "grade"),
            ({"flags": 8}, "flags"),
            ({"parent": 2}, "parent"),
            ({"parent": 9}, "parent"),
        ):
            party = replace(Counterparty("second"), **changes)  # type: ignore[arg-type]
            self.check(
                Book(GOOD.fund, (*GOOD.counterparties, party), GOOD.assets),
                (10, f"counterparties.csv row 3 column {column}"),
            )
        for changes, column in (
            ({"form": 0}, "form"),
            ({"counterparty": 2}, "counterparty"),
            ({"flags": 32}, "flags"),
            ({"value": M + 1}, "value"),
        ):
            mitigant = replace(Mitigant(1, 1, 5), **changes)
            asset = Asset(7, 1, 100, "Third", mitigants=(Mitigant(1, 1, 5), mitigant))
            self.check(books.with_asset(GOOD, asset), (12, f"mitigants.csv row 3 column {column}"))

    def test_the_fund(self) -> None:
        self.check(books.small(specialist=2), (6, "fund.csv row 2 column specialist"))
        self.check(books.small(total_assets=M + 1), (9, "fund.csv row 2 column total_assets"))
        self.check(
            books.small(capital_base=-M - 1, excluded_assets=M + 1),
            (9, "fund.csv row 2 columns capital_base, excluded_assets"),
        )
        self.check(
            books.with_asset(books.small(total_assets=10**8), TREATY), (14, "fund.csv row 2 column total_assets")
        )
        self.check(books.small(total_assets=1, excluded_assets=2), (15, "fund.csv row 2"))

    def test_all_at_once(self) -> None:
        book = Book(
            Fund(M + 1, 0, 0, 2),
            (Counterparty("a", grade=9, flags=9), Counterparty("b"), Counterparty("c", parent=3)),
            (
                Asset(12, 9, 1, "x", months=1),
                Asset(9, 1, 5, "y", offsets=6, mitigants=(Mitigant(9, 9, 1), Mitigant(1, 1, 1))),
                Asset(4, 1, M + 1, "z"),
            ),
        )
        self.check(
            book,
            (6, "fund.csv row 2 column specialist"),
            (9, "fund.csv row 2 column total_assets"),
            (10, "counterparties.csv row 2 columns grade, flags"),
            (10, "counterparties.csv row 4 column parent"),
            (11, "assets.csv row 2 columns kind, counterparty, months"),
            (11, "assets.csv row 3 column offsets"),
            (11, "assets.csv row 4 column value"),
            (12, "mitigants.csv row 2 columns form, counterparty"),
        )

    def test_retrocessions_of_a_fund_that_is_none(self) -> None:
        book = books.with_asset(books.with_asset(GOOD, RETROCESSION), Asset(7, 1, 1, "Between"))
        book = books.with_asset(book, replace(RETROCESSION, name="Second", months=7))
        self.check(book, (17, "assets.csv row 4 column entry_class"), (17, "assets.csv row 6 column entry_class"))

    def test_a_book_of_no_counterparties(self) -> None:
        self.check(Book(Fund(1, 1), (), (Asset(4, 1, 1, "x"),)), (11, "assets.csv row 2"))

    def test_the_rows_are_those_of_the_file(self) -> None:
        """With mitigants in another order than their assets."""
        with tempfile.TemporaryDirectory() as name:
            folder = Path(name)
            write_folder(
                books.with_asset(WITH_MITIGANTS, Asset(7, 1, 100, "Fourth", mitigants=(Mitigant(1, 1, 5),))), folder
            )
            rows = (folder / "mitigants.csv").read_text().splitlines()
            (folder / "mitigants.csv").write_text("\n".join([rows[0], rows[3], "", rows[1], rows[2]]) + "\n")
            refusal = refusal_of(lambda: report(read_folder(folder)))
            self.assertEqual((refusal.number, refusal.place, refusal.where), (12, 2, "mitigants.csv row 5"))

    def test_what_is_found_is_what_the_library_refuses_first(self) -> None:
        """Of books of any numbers: the first finding is the library's own answer, and the records
        that are found are all different."""
        for seed in range(200):
            book = books.any_bytes(seed)
            found = inquiry.refusals_of(book, by_report)
            first = refusal_of(lambda: by_report(book.to_bytes()))
            self.assertEqual((found[0].refusal.number, found[0].refusal.place), (first.number, first.place))
            self.assertEqual(len({(f.refusal.number, f.refusal.place) for f in found}), len(found))

    def test_bytes_that_are_no_records(self) -> None:
        found = inquiry.refusals_of(b"ACB", by_report)
        self.assertEqual([(f.refusal.number, f.where) for f in found], [(5, "")])


class Schedules(unittest.TestCase):
    def test_rows_and_columns(self) -> None:
        schedule = published()
        rows = list(schedule.rows)
        rows[1] = ScheduleRow(1501, 1500, 1501, M + 1)
        rows[7] = ScheduleRow(second_vaf_rate=2000)
        spoilt = replace(schedule, rows=tuple(rows), percent_second=101)
        read = read_schedule("rates.csv", schedule_text(spoilt).encode())
        self.assertEqual(
            [(f.refusal.number, f.where, f.record) for f in inquiry.schedule_refusals_of(read, "rates.csv")],
            [
                (4, "rates.csv row 3 columns vaf_rate, base_rate, fixed_amount", "row d"),
                (4, "rates.csv row 9 column second_vaf_rate", "row z"),
                (4, "rates.csv row 11 column percent_kept", "second step"),
            ],
        )
        self.assertEqual(inquiry.schedule_refusals_of(schedule, "rates.csv"), [])


class Questions(unittest.TestCase):
    def test_the_questions_that_are_refused(self) -> None:
        questions = [(1, 11), (2, 4), (1, 9), (1, 4), (1, 12), (0, 4)]
        refused = inquiry.refused_questions(library.published(), GOOD.to_bytes(), questions)
        self.assertEqual(refused, [1, 2, 4, 5])


if __name__ == "__main__":
    unittest.main()
