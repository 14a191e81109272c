"""Books as folders of CSV."""

from __future__ import annotations

import csv
import io
import random
import tempfile
import unittest
from dataclasses import replace
from pathlib import Path
from typing import Callable, Dict, List, Tuple

import books
import shown
from weightrose import (
    Asset,
    AssetKind,
    Book,
    Counterparty,
    CounterpartyKind,
    Damaged,
    EntryClass,
    Form,
    Fund,
    published,
    read_folder,
    read_schedule,
    schedule_text,
    write_folder,
)
from weightrose.cells import cents, dollars
from weightrose.folder import tables_of
from weightrose.words import flag_words, plain, words


class Folders(unittest.TestCase):
    def setUp(self) -> None:
        held = tempfile.TemporaryDirectory()
        self.addCleanup(held.cleanup)
        self.folder = Path(held.name)

    def write(self, **tables: str) -> None:
        """The template, with other tables in place of some of its own."""
        for file in books.TEMPLATE.iterdir():
            (self.folder / file.name).write_bytes(file.read_bytes())
        for name, text in tables.items():
            (self.folder / f"{name}.csv").write_text(text, encoding="utf-8")

    def edit(self, file: str, change: Callable[[List[List[str]]], object]) -> None:
        path = self.folder / file
        rows = list(csv.reader(io.StringIO(path.read_text(encoding="utf-8"), newline="")))
        change(rows)
        out = io.StringIO()
        csv.writer(out, lineterminator="\n").writerows(rows)
        path.write_text(out.getvalue(), encoding="utf-8")

    def problems(self) -> List[Tuple[str, object, object]]:
        with self.assertRaises(Damaged) as caught:
            read_folder(self.folder)
        return [(problem.file, problem.row, problem.column) for problem in caught.exception.problems]


class ThereAndBack(Folders):
    def test_bytes_folder_bytes(self) -> None:
        """Every feature, and books that the library refuses."""
        for seed in range(150):
            for book in (books.accepted(seed), books.any_bytes(seed)):
                unnamed = Book.from_bytes(book.to_bytes())
                write_folder(unnamed, self.folder)
                self.assertEqual(read_folder(self.folder).to_bytes(), book.to_bytes(), seed)

    def test_names_and_records(self) -> None:
        for seed in range(150):
            book = books.accepted(seed)
            write_folder(book, self.folder)
            self.assertEqual(read_folder(self.folder), book, seed)

    def test_the_largest_book(self) -> None:
        write_folder(shown.maximal(), self.folder)
        self.assertEqual(read_folder(self.folder), shown.maximal())

    def test_rows_of_the_records(self) -> None:
        """The row of each record is the one of its file, blank rows counted."""
        self.write()
        for file in ("fund.csv", "counterparties.csv", "assets.csv", "mitigants.csv"):
            self.edit(file, lambda rows: rows.insert(1 if len(rows) == 2 else 3, [""] * len(rows[0])))
        book = read_folder(self.folder)
        self.assertEqual(book.fund.row, 3)
        for records in (book.counterparties, book.assets, book.mitigants):
            self.assertEqual([record.row for record in records[:4]], [2, 3, 5, 6])

    def test_rows_with_a_line_break_in_a_cell(self) -> None:
        """A spreadsheet counts rows, not lines."""
        self.write()
        self.edit("assets.csv", lambda rows: rows[1].__setitem__(0, "Treasury\nnotes"))
        self.edit("assets.csv", lambda rows: rows[3].__setitem__(2, "shares"))
        self.assertEqual(self.problems(), [("assets.csv", 4, "kind")])

    def test_mitigants_in_any_order(self) -> None:
        """They are packed with their assets, in the order of the file among one asset's own."""
        self.write()
        in_order = read_folder(self.folder)
        self.edit("mitigants.csv", lambda rows: rows.__setitem__(slice(1, None), rows[3:] + rows[1:3]))
        moved = read_folder(self.folder)
        self.assertEqual(moved.to_bytes(), in_order.to_bytes())
        self.assertEqual([m.row for m in in_order.mitigants], [2, 3, 4, 5, 6])
        self.assertEqual([m.row for m in moved.mitigants], [5, 6, 2, 3, 4])

    def test_the_template_shows_every_kind(self) -> None:
        self.write()
        book = read_folder(self.folder)
        self.assertEqual({asset.kind for asset in book.assets}, set(AssetKind))
        self.assertEqual({party.kind for party in book.counterparties}, set(CounterpartyKind))
        self.assertEqual({mitigant.form for mitigant in book.mitigants}, set(Form))
        self.assertEqual({asset.entry_class for asset in book.assets}, set(EntryClass))
        for flags, most in (
            ([party.flags for party in book.counterparties], 7),
            ([asset.flags for asset in book.assets], 3),
            ([mitigant.flags for mitigant in book.mitigants], 31),
        ):
            every = 0
            for some in flags:
                every |= some
            self.assertEqual(every, most)

    def test_the_template_is_what_the_package_writes(self) -> None:
        """So that a user who changes a cell and writes the book again sees that cell change alone."""
        texts = tables_of(read_folder(books.TEMPLATE))
        for file, text in texts.items():
            self.assertEqual(text, (books.TEMPLATE / file).read_text(encoding="utf-8"))


class Cells(Folders):
    def test_numbers_for_words(self) -> None:
        self.write()
        by_words = read_folder(self.folder).to_bytes()
        numbers: Dict[str, int] = {}
        for kinds in (AssetKind, EntryClass):
            numbers.update({f"{kinds.__name__}{word}": number for word, number in words(kinds).items()})

        def renumber(rows: List[List[str]]) -> None:
            for row in rows[1:]:
                row[2] = str(numbers[f"AssetKind{row[2]}"])
                row[4] = str(numbers[f"EntryClass{row[4]}"])
                row[3] = str({"": 0, "linked": 1, "rises-under-stress": 2}[row[3]])

        self.edit("assets.csv", renumber)
        self.edit("fund.csv", lambda rows: rows[1].__setitem__(2, "1"))
        self.assertEqual(read_folder(self.folder).to_bytes(), by_words)

    def test_words_as_people_write_them(self) -> None:
        self.write()
        expected = read_folder(self.folder).to_bytes()

        def shout(rows: List[List[str]]) -> None:
            for row in rows[1:]:
                row[2] = row[2].upper().replace(" ", "_")
                row[3] = f" {row[3].upper().replace('-', '_')} "

        self.edit("assets.csv", shout)
        self.edit("assets.csv", lambda rows: rows.__setitem__(0, [name.upper().replace("_", " ") for name in rows[0]]))
        self.assertEqual(read_folder(self.folder).to_bytes(), expected)

    def test_several_flags(self) -> None:
        self.write()
        expected = read_folder(self.folder).to_bytes()
        for apart in (", ", ";", "  ", ","):
            self.write()
            self.edit("mitigants.csv", lambda rows: [row.__setitem__(3, row[3].replace(" ", apart)) for row in rows])
            self.assertEqual(read_folder(self.folder).to_bytes(), expected)

    def test_yes_and_no(self) -> None:
        for text, number in (("yes", 1), ("TRUE", 1), ("1", 1), ("No", 0), ("false", 0), ("", 0), ("2", 2)):
            self.write()
            self.edit("fund.csv", lambda rows: rows[1].__setitem__(2, text))
            self.assertEqual(read_folder(self.folder).fund.specialist, number)

    def test_amounts_in_cents(self) -> None:
        self.write()
        expected = read_folder(self.folder).to_bytes()

        def in_cents(rows: List[List[str]]) -> None:
            for place in range(7, 12):
                rows[0][place] += "_cents"
                for row in rows[1:]:
                    row[place] = row[place].replace(".", "")

        self.edit("assets.csv", in_cents)
        self.assertEqual(read_folder(self.folder).to_bytes(), expected)

    def test_dollars(self) -> None:
        for text, amount in {
            "0": 0,
            "1234.56": 123456,
            "1234.5": 123450,
            "7": 700,
            "-0.01": -1,
            "-12.30": -1230,
            "007": 700,
        }.items():
            self.assertEqual(cents(text), amount)
        for text in (
            "",
            ".5",
            "1.",
            "1,000",
            "1.234",
            "1e3",
            "$1",
            "+1",
            " 1",
            "1 ",
            "--1",
            "٣",
            "0x1",
            "nan",
            "1_000",
        ):
            self.assertIsNone(cents(text), text)
        for amount in (0, 1, 99, 100, -1, -100, 10**15 + 7):
            self.assertEqual(cents(dollars(amount)), amount)

    def test_a_byte_order_mark_and_carriage_returns(self) -> None:
        self.write()
        expected = read_folder(self.folder).to_bytes()
        for path in self.folder.iterdir():
            path.write_bytes(b"\xef\xbb\xbf" + path.read_bytes().replace(b"\n", b"\r\n"))
        self.assertEqual(read_folder(self.folder).to_bytes(), expected)

    def test_columns_that_may_be_left_out(self) -> None:
        self.write(
            fund="total_assets,capital_base\n100,1.5\n",
            counterparties="kind,name\nbank,B\n",
            assets="name,kind,counterparty,value_cents\nD,deposit,B,5\n",
            mitigants="asset,form,counterparty,value\n",
        )
        self.assertEqual(
            read_folder(self.folder), Book(Fund(10000, 150), (Counterparty("B", kind=1),), (Asset(4, 1, 5, "D"),))
        )

    def test_every_word_is_told_apart(self) -> None:
        for kinds in (AssetKind, CounterpartyKind, EntryClass, Form):
            self.assertEqual(len(words(kinds)), len(kinds))
            for word in words(kinds):
                self.assertEqual(plain(word), word)
        self.assertTrue(all(" " not in word for word in flag_words(__import__("weightrose").MitigantFlag)))


class DamagedFolders(Folders):
    def test_all_bad_cells_at_once(self) -> None:
        self.write()

        def spoil_assets(rows: List[List[str]]) -> None:
            rows[1][1] = "Nobody"
            rows[2][2] = "shares"
            rows[3][3] = "linked maybe"
            rows[4][4] = "item x"
            rows[5][5] = "-1"
            rows[6][6] = "256"
            rows[7][7] = "1,000.00"
            rows[8][8] = "1e6"
            rows[9][0] = ""
            rows[10][0] = rows[11][0]
            rows[12][7] = ""
            rows[13][7] = "184467440737095516.16"

        self.edit("assets.csv", spoil_assets)
        self.edit("fund.csv", lambda rows: rows[1].__setitem__(1, "3"))
        self.edit("fund.csv", lambda rows: rows[1].__setitem__(4, "ten"))
        self.edit("counterparties.csv", lambda rows: rows[2].__setitem__(1, "Someone"))
        self.edit("counterparties.csv", lambda rows: rows[3].__setitem__(3, "16"))
        self.edit("mitigants.csv", lambda rows: rows[1].__setitem__(0, "No asset"))
        self.edit("mitigants.csv", lambda rows: rows[2].__setitem__(1, "gold"))
        self.assertEqual(
            self.problems(),
            [
                ("fund.csv", 2, "version"), ("fund.csv", 2, "capital_base"),
                ("counterparties.csv", 3, "parent"), ("counterparties.csv", 4, "grade"),
                ("assets.csv", 2, "counterparty"), ("assets.csv", 3, "kind"), ("assets.csv", 4, "flags"),
                ("assets.csv", 5, "entry_class"), ("assets.csv", 6, "months"), ("assets.csv", 7, "desk"),
                ("assets.csv", 8, "value"), ("assets.csv", 9, "offsets"), ("assets.csv", 10, "name"),
                ("assets.csv", 12, "name"), ("assets.csv", 13, "value"), ("assets.csv", 14, "value"),
                ("mitigants.csv", 2, "asset"), ("mitigants.csv", 3, "form"), ("mitigants.csv", 4, "asset"),
                ("mitigants.csv", 5, "asset"),
            ],
        )  # fmt: skip

    def test_columns(self) -> None:
        self.write(
            fund="total_assets,total_assets_cents,capital_base,capital_base,colour\n",
            counterparties="name,kind,\nA,bank,\n",
            assets="name,kind\n",
        )
        self.assertEqual(
            self.problems(),
            [
                ("fund.csv", 1, "capital_base"), ("fund.csv", 1, "colour"), ("fund.csv", 1, "total_assets_cents"),
                ("counterparties.csv", 1, None), ("assets.csv", 1, "counterparty"), ("assets.csv", 1, "value"),
            ],
        )  # fmt: skip

    def test_semicolons(self) -> None:
        self.write()
        for path in self.folder.iterdir():
            path.write_text(path.read_text(encoding="utf-8").replace(",", ";"), encoding="utf-8")
        self.assertEqual(
            self.problems(),
            [(file, 1, None) for file in ("fund.csv", "counterparties.csv", "assets.csv", "mitigants.csv")],
        )

    def test_files(self) -> None:
        self.write()
        (self.folder / "fund.csv").unlink()
        (self.folder / "counterparties.csv").write_bytes(b"")
        (self.folder / "assets.csv").write_bytes(b"name,kind,counterparty,value\nB\xe9b\xe9,loan,x,1\n")
        (self.folder / "mitigants.csv").write_bytes(b'asset,form,counterparty,value\n"open,cash,x,1\n')
        self.assertEqual(
            self.problems(),
            [
                ("fund.csv", None, None),
                ("counterparties.csv", None, None),
                ("assets.csv", 2, None),
                ("mitigants.csv", 2, None),
            ],
        )

    def test_a_folder_for_a_file(self) -> None:
        self.write()
        (self.folder / "assets.csv").unlink()
        (self.folder / "assets.csv").mkdir()
        self.assertEqual(self.problems(), [("assets.csv", None, None)])

    def test_rows(self) -> None:
        self.write(
            counterparties="name,kind\nA,bank,extra\n#2,bank\nA,bank\n",
            assets="name,kind,counterparty,value\n",
            mitigants="asset,form,counterparty,value\n",
        )
        self.assertEqual(
            self.problems(),
            [("counterparties.csv", 2, None), ("counterparties.csv", 3, "name"), ("counterparties.csv", 4, "name")],
        )
        self.write(fund="total_assets,capital_base\n1,1\n2,2\n")
        self.assertEqual(self.problems(), [("fund.csv", None, None)])
        self.write(fund="total_assets,capital_base\n1\n")
        self.assertIn(("fund.csv", 2, "capital_base"), self.problems())

    def test_what_a_version_has_no_bytes_for(self) -> None:
        self.write()
        self.edit("fund.csv", lambda rows: rows[1].__setitem__(1, "1"))
        desks = self.problems()
        self.assertEqual(len(desks), 18)
        self.assertEqual(desks[0], ("assets.csv", 2, "desk"))
        self.write()
        self.edit("mitigants.csv", lambda rows: rows.extend([rows[1]] * 255))
        self.assertEqual(self.problems(), [("assets.csv", 6, "name")])

    def test_bytes_exchanged_at_random(self) -> None:
        """Whatever stands in the files, a folder is a book that has bytes, or it is damaged."""
        choose = random.Random(19)
        taken = 0
        for _ in range(400):
            self.write()
            path = self.folder / choose.choice(("fund.csv", "counterparties.csv", "assets.csv", "mitigants.csv"))
            data = bytearray(path.read_bytes())
            for _ in range(choose.choice((1, 1, 3, 40))):
                at = choose.randrange(len(data))
                data[at : at + choose.randrange(2)] = choose.choice(
                    (b"", b",", b'"', b"\n", b"\r", b"0", b"#", b"-", b"\xff", b"\0")
                )
            path.write_bytes(bytes(data))
            try:
                read_folder(self.folder).to_bytes()
                taken += 1
            except Damaged as damaged:
                self.assertTrue(damaged.problems)
                self.assertTrue(all(problem.file == path.name or problem.row for problem in damaged.problems))
        self.assertTrue(20 < taken < 380, taken)

    def test_a_zero_byte(self) -> None:
        self.write()
        path = self.folder / "assets.csv"
        path.write_bytes(path.read_bytes().replace(b"Tower,", b"Tow\0r,", 1))
        self.assertEqual(self.problems()[0], ("assets.csv", 11, None))

    def test_names_that_can_not_be_written(self) -> None:
        book = books.small()
        for names in (("", "b"), ("#1", "b"), ("same", "same"), (" same", "same ")):
            held = tuple(replace(asset, name=name) for asset, name in zip(book.assets, names))
            with self.assertRaises(ValueError):
                write_folder(Book(book.fund, book.counterparties, held), self.folder)


class Schedules(unittest.TestCase):
    def test_there_and_back(self) -> None:
        schedule = published()
        self.assertEqual(read_schedule("s", schedule_text(schedule).encode()).to_bytes(), schedule.to_bytes())
        tenfold = replace(
            schedule, version=2,
            rows=tuple(replace(r, vaf_rate=10 * r.vaf_rate, second_vaf_rate=10 * r.second_vaf_rate, base_rate=10 * r.base_rate) for r in schedule.rows),
        )  # fmt: skip
        self.assertIn("vaf_rate_ten_thousandths", schedule_text(tenfold))
        self.assertEqual(read_schedule("s", schedule_text(tenfold).encode()), tenfold)

    def test_bad_cells(self) -> None:
        text = (
            schedule_text(published())
            .replace("\nd,500", "\nd,many")
            .replace("first step,,,,,66", "first step,,,,,")
            .replace("z,125", "y,125")
        )
        text = text.replace("20000000.00,\n", "20000000.00,3\n", 1)
        with self.assertRaises(Damaged) as caught:
            read_schedule("s.csv", text.encode())
        found = {(problem.row, problem.column) for problem in caught.exception.problems}
        self.assertEqual(
            found, {(9, "row"), (None, None), (2, "percent_kept"), (3, "vaf_rate_per_mille"), (10, "percent_kept")}
        )

    def test_mixed_units(self) -> None:
        text = schedule_text(published()).replace("base_rate_per_mille", "base_rate_ten_thousandths")
        with self.assertRaises(Damaged):
            read_schedule("s.csv", text.encode())


if __name__ == "__main__":
    unittest.main()
