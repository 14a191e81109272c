"""The command 'weightrose'. Ends with 0, with 1 for what is refused, and with 2 for bad usage."""

from __future__ import annotations

import argparse
import re
import signal
import struct
import sys
from pathlib import Path
from typing import Callable, List, Optional, Sequence, Tuple

from weightrose import __version__, entries, folder, inquiry, library, page, rates, tables
from weightrose.cells import Damaged
from weightrose.inputs import (
    Asked,
    BookInput,
    ScheduleInput,
    TurnedBack,
    Usage,
    answered,
    places,
    read_book,
    read_data,
    read_questions,
    read_schedule,
    write_data,
    write_tables,
    write_text,
)
from weightrose.library import LibraryError
from weightrose.records import Book, Malformed, Report, Schedule
from weightrose.refusals import Refusal
from weightrose.words import AssetKind, plain, words

REFUSED = 1
USAGE = 2

TEMPLATE = Path(__file__).with_name("template")


def run_template(options: argparse.Namespace) -> int:
    texts = {file: (TEMPLATE / file).read_text(encoding="utf-8") for file in folder.FILES}
    write_tables(texts, options.folder, options.force)
    return 0


def run_book(options: argparse.Namespace) -> int:
    if not Path(options.folder).is_dir():
        raise Usage(f"{options.folder}: no such folder")
    write_data(folder.read_folder(Path(options.folder)).to_bytes(), options.output)
    return 0


def run_csv(options: argparse.Namespace) -> int:
    try:
        book = Book.from_bytes(read_data(options.book))
    except Malformed as error:
        raise TurnedBack([f"{options.book}: {error}"]) from None
    write_tables(folder.tables_of(book), options.folder, options.force)
    return 0


def run_schedule(options: argparse.Namespace) -> int:
    schedule = read_schedule(options.schedule)
    if not options.csv:
        write_data(schedule.data, options.output)
        return 0
    try:
        text = rates.schedule_text(Schedule.from_bytes(schedule.data))
    except ValueError as error:
        raise TurnedBack([f"{schedule.source}: {error}"]) from None
    write_text(text, options.output)
    return 0


def run_report(options: argparse.Namespace) -> int:
    schedule, book = read_schedule(options.schedule), read_book(options.book)
    data = answered(book, schedule, lambda b: library.report(schedule.data, b))
    written = {"json": tables.report_json, "csv": tables.report_csv, "text": tables.report_text}[options.form]
    write_text(written(Report.from_bytes(data), book.records), options.output)
    return 0


def cost_rate(text: str) -> int:
    """'450' ten-thousandths, or '4.5%'."""
    percent = re.fullmatch(r"([0-9]{1,9})(?:\.([0-9]{1,2}))?%", text)
    if percent:
        return int(percent[1]) * 100 + int((percent[2] or "").ljust(2, "0"))
    if re.fullmatch(r"[0-9]{1,19}", text):
        return int(text)
    raise argparse.ArgumentTypeError(f"{text!r} is no rate: 450 (ten-thousandths) or 4.5%")


def run_bills(options: argparse.Namespace) -> int:
    schedule, book = read_schedule(options.schedule), read_book(options.book)
    data = answered(book, schedule, lambda b: library.bills(schedule.data, b, options.rate))
    written = {"json": tables.bills_json, "csv": tables.bills_csv, "text": tables.bills_text}[options.form]
    write_text(written(struct.unpack(f"<{library.DESKS}Q", data)), options.output)
    return 0


def asked_of(options: argparse.Namespace, book: Book) -> List[Asked]:
    """The questions of the file, then those of the command line."""
    asked = read_questions(options.questions, book) if options.questions else []
    known = places(book)
    kinds = words(AssetKind)
    for name, kind in options.ask or ():
        if name not in known:
            raise Usage(f"--ask: {name!r} is no counterparty of the book")
        number = kinds.get(plain(kind), int(kind) if re.fullmatch("[0-9]{1,3}", kind) else None)
        if number is None or number > 255:
            raise Usage(f"--ask: {kind!r} is none of: {', '.join(kinds)}; and no number of a byte")
        asked.append(Asked(known[name], number, f"--ask {name!r} {kind!r}"))
    if not asked and not options.questions:
        raise Usage("no question: --ask COUNTERPARTY KIND, or --questions FILE")
    return asked


def run_headroom(options: argparse.Namespace) -> int:
    schedule, book = read_schedule(options.schedule), read_book(options.book)
    answered(book, schedule, lambda b: library.headroom(schedule.data, b, b""))
    asked = asked_of(options, book.records)
    questions = [(question.counterparty, question.kind) for question in asked]
    try:
        answers = entries.headroom(book.data, questions, schedule.data)
    except Refusal as refusal:
        refused = inquiry.refused_questions(schedule.data, book.data, questions)
        wheres = [f"{asked[place].where}: " for place in refused] or [""]
        raise TurnedBack([where + str(refusal) for where in wheres]) from None
    written = {"json": tables.headroom_json, "csv": tables.headroom_csv, "text": tables.headroom_text}[options.form]
    write_text(written(questions, answers, book.records), options.output)
    return 0


def run_convert(options: argparse.Namespace) -> int:
    book = read_book(options.book)
    data = answered(book, None, library.convert)
    if options.csv is None:
        write_data(data, options.output)
    else:
        write_tables(
            folder.tables_of(entries.named_as(Book.from_bytes(data), book.records)), options.csv, options.force
        )
    return 0


def view_of(book: BookInput, schedule: ScheduleInput) -> page.View:
    """What a page shows: the report if there is one, and what each call would refuse."""
    calls: Tuple[Tuple[str, Callable[[bytes], bytes]], ...] = (
        ("Report", lambda b: library.report(schedule.data, b)),
        ("Bills", lambda b: library.bills(schedule.data, b, 0)),
        ("Questions of dealers", lambda b: library.headroom(schedule.data, b, b"")),
        ("Conversion to version 2", library.convert),
    )
    wrong = schedule.findings()
    answers = tuple(
        page.Answer(name, tuple(wrong if wrong and ask is not library.convert else book.findings(ask)))
        for name, ask in calls
    )
    report = None if answers[0].findings else entries.report(book.data, schedule.data)
    return page.View(book.title, book.book, report, answers, __version__)


def run_page(options: argparse.Namespace) -> int:
    schedule, book = read_schedule(options.schedule), read_book(options.book)
    view = view_of(book, schedule)
    write_text(page.page(view), options.output)
    return 0 if view.report is not None else REFUSED


class _Version(argparse.Action):
    """Says the package's version and what its library takes, and ends."""

    def __call__(self, parser: argparse.ArgumentParser, *_: object) -> None:
        taken = library.version()
        schedules, books = (", ".join(map(str, versions)) for versions in (taken.schedules, taken.books))
        sys.stdout.write(f"weightrose {__version__}: schedules of versions {schedules}; books of versions {books}\n")
        parser.exit(0)


def _with_book(command: argparse.ArgumentParser, schedule: bool = True) -> None:
    command.add_argument(
        "book", nargs="?", default="-", help="a folder of CSV or a file of bytes; standard input without it"
    )
    if schedule:
        command.add_argument("--schedule", metavar="FILE", help="bytes or a table of CSV; the published one without it")


def _with_output(command: argparse.ArgumentParser) -> None:
    command.add_argument("-o", "--output", metavar="FILE", help="write there, and not to standard output")


def _with_forms(command: argparse.ArgumentParser) -> None:
    form = command.add_mutually_exclusive_group()
    form.add_argument("--json", dest="form", action="store_const", const="json", help="as JSON, amounts in cents")
    form.add_argument("--csv", dest="form", action="store_const", const="csv", help="as CSV, amounts in dollars")
    command.set_defaults(form="text")


def _with_force(command: argparse.ArgumentParser) -> None:
    command.add_argument("--force", action="store_true", help="write over files that are there")


def parser() -> argparse.ArgumentParser:
    top = argparse.ArgumentParser(
        prog="weightrose", description="The asset concentration charge of a life company's fund (LPS 117).",
        epilog="Ends with status 0, with 1 for what is refused, and with 2 for bad usage.",
    )  # fmt: skip
    top.add_argument(
        "--version", nargs=0, action=_Version, help="say this version, and which schedules and books it takes"
    )
    commands = top.add_subparsers(metavar="COMMAND", required=True)

    def command(name: str, run: Callable[[argparse.Namespace], int], text: str) -> argparse.ArgumentParser:
        made = commands.add_parser(name, help=text, description=text[0].upper() + text[1:] + ".")
        made.set_defaults(run=run)
        return made

    template = command("template", run_template, "write a folder of CSV with an example of every kind")
    template.add_argument("folder")
    _with_force(template)

    book = command("book", run_book, "pack a folder of CSV as the bytes of a book")
    book.add_argument("folder")
    _with_output(book)

    to_csv = command("csv", run_csv, "unpack the bytes of a book to a folder of CSV")
    to_csv.add_argument("book", help="a file of bytes; '-' for standard input")
    to_csv.add_argument("folder")
    _with_force(to_csv)

    schedule = command("schedule", run_schedule, "write the published schedule, or one from a table of CSV")
    schedule.add_argument("schedule", nargs="?", help="bytes or a table of CSV; the published one without it")
    schedule.add_argument("--csv", action="store_true", help="as a table of CSV, and not as bytes")
    _with_output(schedule)

    report = command("report", run_report, "report the charge, with a line for each tier of each group")
    _with_book(report)
    _with_forms(report)
    _with_output(report)

    bills = command("bills", run_bills, "bill each desk for the capital that its excess ties up")
    _with_book(bills)
    bills.add_argument("--rate", type=cost_rate, required=True, help="the cost rate: 450 (ten-thousandths) or 4.5%%")
    _with_forms(bills)
    _with_output(bills)

    headroom = command("headroom", run_headroom, "tell how much more may be bought before the charge rises")
    _with_book(headroom)
    headroom.add_argument("--ask", nargs=2, action="append", metavar=("COUNTERPARTY", "KIND"), help="a question")
    headroom.add_argument("--questions", metavar="FILE", help="a table of CSV with the columns counterparty and kind")
    _with_forms(headroom)
    _with_output(headroom)

    convert = command("convert", run_convert, "turn a book of version 1 into one of version 2, which names desks")
    _with_book(convert, schedule=False)
    convert.add_argument("--csv", metavar="FOLDER", help="as a folder of CSV, under the same names, and not as bytes")
    _with_force(convert)
    _with_output(convert)

    html = command("page", run_page, "write a page to look at: the charge and the cascade of each group with an excess")
    _with_book(html)
    _with_output(html)
    return top


def one_standard_input(options: argparse.Namespace) -> None:
    named = [getattr(options, name, None) for name in ("book", "schedule", "questions")]
    if named.count("-") > 1:
        raise Usage("only one of book, schedule and questions can come from standard input")


def main(arguments: Optional[Sequence[str]] = None) -> int:
    if hasattr(signal, "SIGPIPE"):
        signal.signal(signal.SIGPIPE, signal.SIG_DFL)
    try:
        options = parser().parse_args(arguments)
        one_standard_input(options)
        status: int = options.run(options)
        return status
    except Damaged as damaged:
        lines, status = [str(problem) for problem in damaged.problems], REFUSED
    except TurnedBack as turned:
        lines, status = list(turned.lines), REFUSED
    except (Usage, LibraryError) as error:
        lines, status = [f"weightrose: {error}"], USAGE
    sys.stderr.write("".join(tables.printable(line) + "\n" for line in lines))
    return status
