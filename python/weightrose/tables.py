"""Reports, bills and answers as text: aligned tables, JSON and CSV."""

from __future__ import annotations

import csv
import io
import json
import unicodedata
from typing import Any, Dict, List, Sequence, Tuple

from weightrose.cells import dollars
from weightrose.library import MOST_AMOUNT
from weightrose.records import Book, Line, Report
from weightrose.words import AssetKind, Tier, word

FIGURES = (
    ("VAF", "vaf"),
    ("VAF'", "vaf_stressed"),
    ("All nets", "all_net"),
    ("Without limit", "unlimited"),
    ("Group excess", "group_excess"),
    ("A3 sum", "a3_sum"),
    ("A3 limit", "a3_limit"),
    ("Charge", "charge"),
)
AMOUNTS = ("exposure", "limit", "left", "excess")


def money(amount: int) -> str:
    """123450 as '1,234.50'."""
    sign = "-" if amount < 0 else ""
    return f"{sign}{abs(amount) // 100:,}.{abs(amount) % 100:02d}"


def tier_letters(number: int) -> str:
    return Tier(number).letters


def printable(text: str) -> str:
    """A user's text on one line, and without what a terminal would take for a command."""
    if text.isprintable():
        return text
    return "".join(character if character.isprintable() else " " for character in text)


def _width(text: str) -> int:
    """The columns of a terminal that a text takes: two for a wide character, none for an accent by itself."""
    if text.isascii():
        return len(text)
    wide = sum(unicodedata.east_asian_width(character) in "WF" for character in text)
    return len(text) + wide - sum(unicodedata.combining(character) != 0 for character in text)


def aligned(rows: Sequence[Sequence[str]], left: int) -> str:
    """Columns two spaces apart, the first ones aligned left and the others right."""
    shown = [[printable(cell) for cell in row] for row in rows]
    widths = [max(map(_width, column)) for column in zip(*shown)]
    lines = []
    for row in shown:
        gaps = [" " * (width - _width(cell)) for cell, width in zip(row, widths)]
        cells = [cell + gap if place < left else gap + cell for place, (cell, gap) in enumerate(zip(row, gaps))]
        lines.append("  ".join(cells).rstrip() + "\n")
    return "".join(lines)


def csv_text(rows: Sequence[Sequence[object]]) -> str:
    out = io.StringIO()
    csv.writer(out, lineterminator="\n").writerows(rows)
    return out.getvalue()


def json_text(value: object) -> str:
    return json.dumps(value, indent=2, ensure_ascii=False) + "\n"


def _amounts(line: Line) -> List[int]:
    return [getattr(line, name) for name in AMOUNTS]


def report_text(report: Report, book: Book) -> str:
    rows = [["Group", "Tier", "Exposure", "Limit", "Left", "Excess"]]
    for line in report.lines:
        rows.append([book.counterparty_name(line.top), tier_letters(line.tier), *map(money, _amounts(line))])
    figures = [[name, money(getattr(report, field))] for name, field in FIGURES]
    return (aligned(rows, 2) + "\n" if report.lines else "") + aligned(figures, 1)


def report_json(report: Report, book: Book) -> str:
    """Amounts are whole cents."""
    value: Dict[str, Any] = {field: getattr(report, field) for _, field in FIGURES}
    value["lines"] = [
        {
            "group": book.counterparty_name(line.top),
            "top": line.top,
            "tier": line.tier,
            "tier_letters": tier_letters(line.tier),
            **dict(zip(AMOUNTS, _amounts(line))),
        }
        for line in report.lines
    ]
    return json_text(value)


def report_csv(report: Report, book: Book) -> str:
    """The lines; amounts are in dollars, as in a book's folder."""
    rows: List[Sequence[object]] = [("group", "tier", *AMOUNTS)]
    for line in report.lines:
        amounts = map(dollars, _amounts(line))
        rows.append((book.counterparty_name(line.top), tier_letters(line.tier), *amounts))
    return csv_text(rows)


def bills_text(bills: Sequence[int]) -> str:
    """The desks that have a bill, and what all bills add up to."""
    rows = [["Desk", "Bill"]]
    rows += [[str(desk), money(bill)] for desk, bill in enumerate(bills) if bill]
    return aligned(rows + [["All", money(sum(bills))]], 1)


def bills_json(bills: Sequence[int]) -> str:
    return json_text({"bills": list(bills)})


def bills_csv(bills: Sequence[int]) -> str:
    return csv_text([("desk", "bill"), *((desk, dollars(bill)) for desk, bill in enumerate(bills))])


def _asked(question: Tuple[int, int], book: Book) -> Tuple[str, str]:
    place, kind = question
    return book.counterparty_name(place), word(AssetKind, kind)


def headroom_text(questions: Sequence[Tuple[int, int]], answers: Sequence[int], book: Book) -> str:
    """An answer of the most there can be is marked: the room may be more."""
    rows = [["Counterparty", "Kind", "May be bought"]]
    for question, answer in zip(questions, answers):
        rows.append([*_asked(question, book), money(answer) + ("+" if answer == MOST_AMOUNT else " ")])
    return aligned(rows, 2)


def headroom_json(questions: Sequence[Tuple[int, int]], answers: Sequence[int], book: Book) -> str:
    names = [_asked(question, book) for question in questions]
    return json_text([{"counterparty": n, "kind": k, "may_be_bought": a} for (n, k), a in zip(names, answers)])


def headroom_csv(questions: Sequence[Tuple[int, int]], answers: Sequence[int], book: Book) -> str:
    rows = [(*_asked(question, book), dollars(answer)) for question, answer in zip(questions, answers)]
    return csv_text([("counterparty", "kind", "may_be_bought"), *rows])
