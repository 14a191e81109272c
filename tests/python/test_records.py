"""Records to bytes and back, held against the layouts as weightrose.h has them."""

from __future__ import annotations

import random
import unittest

import books
from weightrose import (
    Asset,
    Book,
    Counterparty,
    Fund,
    Malformed,
    Mitigant,
    Report,
    Schedule,
    convert,
    library,
    published,
    report,
)


def u(number: int, size: int) -> bytes:
    return number.to_bytes(size, "little", signed=number < 0)


class Layouts(unittest.TestCase):
    def test_a_book_of_version_1_byte_by_byte(self) -> None:
        book = Book(
            Fund(1, -2, 3, 1, 1),
            (Counterparty("a", 0, 1, 2, 3), Counterparty("b", 1, 4, 7, 5)),
            (Asset(9, 2, 10, "x", 3, 2, 11, 0, 12, 13, 14, 15, (Mitigant(5, 1, 16, 31),)),),
        )
        expected = (
            b"ACB\0" + u(1, 2) + u(2, 2) + u(1, 2) + u(1, 2) + b"\1\0\0\0" + u(1, 8) + u(-2, 8) + u(3, 8)
            + u(0, 2) + b"\x12\3" + u(1, 2) + b"\x47\5"
            + b"\x09\3\2\x0b" + u(2, 2) + u(1, 2) + u(10, 8) + u(12, 8) + u(13, 8) + u(14, 8) + u(15, 8)
            + b"\5\x1f" + u(1, 2) + u(16, 8)
        )  # fmt: skip
        self.assertEqual(book.to_bytes(), expected)

    def test_version_2_has_the_desk_behind_a_count_of_one_byte(self) -> None:
        book = Book(
            Fund(1, 2, version=2), (Counterparty(),), (Asset(4, 1, 10, desk=200, mitigants=(Mitigant(1, 1, 5),)),)
        )
        data = book.to_bytes()
        self.assertEqual(data[4:6], b"\2\0")
        self.assertEqual(data[44 + 6 : 44 + 8], b"\1\xc8")

    def test_the_desks_example(self) -> None:
        """The example of the program 'desk', whose bytes were made elsewhere."""
        data = (books.ROOT / "crates/desk/stdin").read_bytes()
        self.assertEqual(Schedule.from_bytes(data[:122]), published())
        self.assertEqual(Book.from_bytes(data[122:]).to_bytes(), books.small().to_bytes())
        self.assertEqual(report(data[122:]).charge, 100_000_000)

    def test_the_report_byte_by_byte(self) -> None:
        data = library.report(library.published(), books.small().to_bytes())
        found = Report.from_bytes(data)
        fields = ("vaf", "vaf_stressed", "all_net", "unlimited", "group_excess", "a3_sum", "a3_limit", "charge")
        for place, field in enumerate(fields):
            self.assertEqual(
                getattr(found, field), int.from_bytes(data[8 + 8 * place : 16 + 8 * place], "little"), field
            )
        self.assertEqual(len(found.lines), 2)
        for number, line in enumerate(found.lines):
            own = data[72 + 40 * number : 112 + 40 * number]
            self.assertEqual(
                (line.top, line.tier, line.tier_set), (own[0] + 256 * own[1], own[2], own[4] + 256 * own[5])
            )
            for place, field in enumerate(("exposure", "limit", "left", "excess")):
                self.assertEqual(getattr(line, field), int.from_bytes(own[8 + 8 * place : 16 + 8 * place], "little"))


class ThereAndBack(unittest.TestCase):
    def test_books(self) -> None:
        for seed in range(300):
            for book in (books.accepted(seed), books.any_bytes(seed)):
                data = book.to_bytes()
                self.assertEqual(Book.from_bytes(data).to_bytes(), data)

    def test_generated_books_are_taken(self) -> None:
        """So that the features are there in books that get a report."""
        for seed in range(300):
            report(books.accepted(seed))

    def test_schedules(self) -> None:
        data = bytearray(library.published())
        for place in range(4, 122):
            data[place] = (place * 37) % 256
        self.assertEqual(Schedule.from_bytes(bytes(data)).to_bytes(), bytes(data))

    def test_converted(self) -> None:
        for seed in range(40):
            book = books.accepted(seed, version=1)
            again = convert(book)
            self.assertEqual(again.fund.version, 2)
            self.assertEqual(
                [party.name for party in again.counterparties], [party.name for party in book.counterparties]
            )
            self.assertEqual(report(again), report(book))


class NoRecords(unittest.TestCase):
    def test_bytes_that_do_not_fall_into_records(self) -> None:
        good = books.accepted(3).to_bytes()
        for data in (
            b"",
            good[:39],
            good[:-1],
            good + b"\0",
            b"XCB\0" + good[4:],
            good[:4] + b"\3\0" + good[6:],
            good[:13] + b"\1" + good[14:],
        ):
            with self.assertRaises(Malformed):
                Book.from_bytes(data)
        with self.assertRaises(Malformed):
            Schedule.from_bytes(bytes(122))

    def test_bytes_exchanged_at_random(self) -> None:
        """Bytes are records that give the same bytes again, or malformed."""
        choose = random.Random(19)
        taken = 0
        for seed in range(400):
            data = bytearray(books.accepted(seed).to_bytes())
            for _ in range(choose.choice((1, 3))):
                data[choose.choice((choose.randrange(16), choose.randrange(len(data))))] = choose.randrange(256)
            try:
                self.assertEqual(Book.from_bytes(bytes(data)).to_bytes(), bytes(data))
                taken += 1
            except Malformed:
                pass
        self.assertTrue(20 < taken < 380, taken)

    def test_counts_that_do_not_add_up(self) -> None:
        book = Book(Fund(1, 1), (Counterparty(),), (Asset(4, 1, 1, mitigants=(Mitigant(1, 1, 1),)),))
        data = bytearray(book.to_bytes())
        data[44 + 6] = 0
        with self.assertRaises(Malformed):
            Book.from_bytes(bytes(data))

    def test_records_that_have_no_bytes(self) -> None:
        one = (Counterparty(),)
        many = tuple(Mitigant(1, 1, 1) for _ in range(256))
        for book in (
            Book(Fund(1 << 64, 0)),
            Book(Fund(1, 1, version=3)),
            Book(Fund(1, 1), (Counterparty(kind=16),)),
            Book(Fund(1, 1), one, (Asset(4, 1, -1),)),
            Book(Fund(1, 1), one, (Asset(4, 1, 1, desk=1),)),
            Book(Fund(1, 1, version=2), one, (Asset(4, 1, 1, mitigants=many),)),
        ):
            with self.assertRaises(Malformed):
                book.to_bytes()


if __name__ == "__main__":
    unittest.main()
