"""The page's numbers, read back from its HTML, are the report's."""

from __future__ import annotations

import re
import unittest
from dataclasses import replace
from fractions import Fraction
from html.parser import HTMLParser
from typing import Dict, List, Optional, Set, Tuple

import books
import shown
from weightrose import Asset, Book, Report, __version__, library, read_folder, report
from weightrose.command import view_of
from weightrose.inputs import BookInput, ScheduleInput
from weightrose.page import page

HEADER = ("vaf", "vaf_stressed", "all_net", "unlimited", "group_excess", "a3_sum", "a3_limit", "charge")
AMOUNTS = ("exposure", "limit", "left", "excess")
VOID = {"meta", "br", "link", "rect", "line", "path", "hr", "img", "input", "col"}


class Reader(HTMLParser):
    """The <data> elements, the text outside of them, all tags and links, and whether tags are closed."""

    def __init__(self, text: str) -> None:
        super().__init__()
        self.data: List[Tuple[str, int, str]] = []
        self.outside: List[str] = []
        self.tags: Set[str] = set()
        self.ids: List[str] = []
        self.links: List[str] = []
        self._open: List[str] = []
        self._held: Optional[Dict[str, Optional[str]]] = None
        self.feed(text)
        self.close()
        assert not self._open, self._open

    def handle_starttag(self, tag: str, attrs: List[Tuple[str, Optional[str]]]) -> None:
        self.tags.add(tag)
        found = dict(attrs)
        if found.get("id"):
            self.ids.append(str(found["id"]))
        self.links += [str(found[key]) for key in ("href", "src") if found.get(key)]
        if tag not in VOID:
            self._open.append(tag)
        if tag == "data":
            self._held = found

    def handle_startendtag(self, tag: str, attrs: List[Tuple[str, Optional[str]]]) -> None:
        self.tags.add(tag)

    def handle_endtag(self, tag: str) -> None:
        if tag in VOID:
            return
        assert self._open and self._open[-1] == tag, (tag, self._open)
        self._open.pop()
        if tag == "data":
            self._held = None

    def handle_data(self, data: str) -> None:
        if self._held is not None:
            self.data.append((str(self._held["data-field"]), int(str(self._held["value"])), data))
        elif self._open and self._open[-1] not in ("style", "title"):
            self.outside.append(data)


def dollars(amount: int) -> str:
    return f"{amount // 100:,}.{amount % 100:02d}"


def fields_of(found: Report) -> Dict[str, int]:
    """All that a page may print, by the names of its fields."""
    fields = {name: getattr(found, name) for name in HEADER}
    fields["a3_excess"] = found.charge - found.group_excess
    for line in found.lines:
        for name in AMOUNTS:
            fields[f"line.{line.top}.{line.tier}.{name}"] = getattr(line, name)
        key = f"sum.excess.{line.top}"
        fields[key] = fields.get(key, 0) + line.excess
    return fields


def page_of(book: Book, schedule: Optional[bytes] = None) -> str:
    given = ScheduleInput(schedule or library.published(), None, "schedule")
    return page(view_of(BookInput(book.to_bytes(), book, None, book.fund.name or "a fund"), given))


def tried() -> List[Book]:
    every = [read_folder(books.TEMPLATE), shown.example(), shown.maximal(), books.small(), shown.without_charge()]
    return every + [books.accepted(seed) for seed in range(25)]


class Numbers(unittest.TestCase):
    def test_every_number_is_the_reports(self) -> None:
        excesses = 0
        for book in tried():
            found = report(book)
            fields = fields_of(found)
            reader = Reader(page_of(book))
            for name, value, text in reader.data:
                if name.startswith("share."):
                    continue
                self.assertEqual(fields[name], value, name)
                self.assertEqual(text, dollars(value), name)
            printed = {name for name, _, _ in reader.data}
            self.assertLessEqual(set(HEADER), printed)
            for line in found.lines:
                if fields[f"sum.excess.{line.top}"]:
                    excesses += 1
                    self.assertLessEqual({f"line.{line.top}.{line.tier}.{name}" for name in AMOUNTS}, printed)
                    self.assertIn(f"sum.excess.{line.top}", printed)
        self.assertGreater(excesses, 200)

    def test_no_amount_stands_anywhere_else(self) -> None:
        for book in tried()[:3]:
            plain = replace(
                book, counterparties=tuple(replace(p, name=f"name {n}") for n, p in enumerate(book.counterparties))
            )
            for text in Reader(page_of(plain)).outside:
                self.assertIsNone(re.search(r"\d\.\d\d\b|\d,\d{3}", text.replace(__version__, "")), text)

    def test_shares(self) -> None:
        """The share of a limit is a quotient of the report's fields, rounded down to a tenth of a per cent."""
        for book in tried():
            found = report(book)
            lines = {(line.top, line.tier): line for line in found.lines}
            best: Dict[int, Fraction] = {}
            for line in found.lines:
                if line.limit:
                    best[line.top] = max(
                        best.get(line.top, Fraction(0)), Fraction(line.limit - line.left + line.exposure, line.limit)
                    )
            seen: List[Fraction] = []
            for name, value, text in Reader(page_of(book)).data:
                if name.startswith("share."):
                    top, tier = map(int, name.split(".")[1:])
                    line = lines[top, tier]
                    share = Fraction(line.limit - line.left + line.exposure, line.limit)
                    self.assertEqual(share, best[top])
                    self.assertEqual(value, int(share * 1000))
                    self.assertRegex(text, rf"^{value // 10:,}\.{value % 10}\s*%$".replace(",", ",?"))
                    seen.append(share)
            self.assertEqual(seen, sorted(seen, reverse=True))
            if all(line.limit for line in found.lines):
                self.assertEqual(seen, sorted(best.values(), reverse=True)[:20])


class Document(unittest.TestCase):
    def test_it_stands_alone(self) -> None:
        """No script, nothing to fetch, and every link leads to a place in the page."""
        for book in tried()[:6]:
            text = page_of(book)
            reader = Reader(text)
            self.assertFalse(reader.tags & {"script", "link", "img", "iframe", "object", "embed"})
            self.assertNotIn("http", text.replace("http://www.w3.org/2000/svg", ""))
            self.assertNotIn("@import", text)
            self.assertEqual(len(set(reader.ids)), len(reader.ids))
            for link in reader.links:
                self.assertTrue(link.startswith("#") and link[1:] in reader.ids, link)

    def test_names_are_text(self) -> None:
        book = read_folder(books.TEMPLATE)
        odd = "<script>alert(\"1\")</script> & 'x'"
        parties = tuple(replace(p, name=f"{odd} {n}") for n, p in enumerate(book.counterparties))
        text = page_of(replace(book, counterparties=parties, fund=replace(book.fund, name=odd)))
        self.assertNotIn("script", Reader(text).tags)
        self.assertTrue(any(odd in part for part in Reader(text).outside))

    def test_it_is_the_same_each_time(self) -> None:
        book = read_folder(books.TEMPLATE)
        self.assertEqual(page_of(book), page_of(book))

    def test_no_charge(self) -> None:
        book = Book(books.small().fund, books.small().counterparties, (Asset(4, 1, 100, "d"),))
        reader = Reader(page_of(book))
        self.assertIn(("charge", 0, "0.00"), reader.data)
        self.assertFalse([name for name, _, _ in reader.data if name.startswith("sum.excess")])


class Refused(unittest.TestCase):
    def test_what_would_be_refused(self) -> None:
        """Conversion, of a book that has a report; all rows, of one that has none."""
        text = " ".join(Reader(page_of(read_folder(books.TEMPLATE))).outside)
        self.assertIn("BOOK_VERSION", text)
        book = books.with_asset(books.small(), Asset(12, 1, 5, "Third"))
        reader = Reader(page_of(books.with_asset(book, Asset(4, 2, 5, "Fourth"))))
        text = " ".join(reader.outside)
        for said in ("Refused", "assets.csv", "row 4", "row 5", "kind", "counterparty", "Third", "Fourth", "ASSET"):
            self.assertIn(said, text)
        self.assertEqual(reader.data, [])

    def test_bytes_that_are_no_book(self) -> None:
        given = ScheduleInput(library.published(), None, "schedule")
        reader = Reader(page(view_of(BookInput(b"ACB", None, "noise", "noise"), given)))
        self.assertIn("BOOK_LENGTH", " ".join(reader.outside))


if __name__ == "__main__":
    unittest.main()
