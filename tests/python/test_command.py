"""The command, as a user runs it: its output on the example word for word, its errors, its status."""

from __future__ import annotations

import json
import os
import re
import shutil
import subprocess
import sys
import tempfile
import unittest
from dataclasses import replace
from pathlib import Path
from typing import List, NamedTuple

import books
import shown
from weightrose import Book, library, read_folder, words, write_folder
from weightrose.library import VERSION

EXPECTED = Path(__file__).with_name("expected")


class Ended(NamedTuple):
    status: int
    out: bytes
    err: str


class Commands(unittest.TestCase):
    def setUp(self) -> None:
        held = tempfile.TemporaryDirectory()
        self.addCleanup(held.cleanup)
        self.place = Path(held.name)
        self.run_command("template", "mybook")

    def run_command(self, *arguments: str, stdin: bytes = b"", status: int = 0) -> Ended:
        """Runs it in a folder of its own. Without a refusal nothing is said on the side."""
        done = subprocess.run(
            [sys.executable, "-m", "weightrose", *arguments],
            cwd=self.place,
            input=stdin,
            capture_output=True,
            check=False,
        )
        ended = Ended(done.returncode, done.stdout, done.stderr.decode())
        self.assertEqual(ended.status, status, ended.err)
        if status == 0:
            self.assertEqual(ended.err, "")
        return ended

    def refused(self, *arguments: str, stdin: bytes = b"", status: int = 1) -> List[str]:
        """The lines of what is refused; nothing else is written."""
        ended = self.run_command(*arguments, stdin=stdin, status=status)
        self.assertEqual(ended.out, b"")
        return ended.err.splitlines()


class WordForWord(Commands):
    def check(self, file: str, *arguments: str) -> None:
        ended = self.run_command(*arguments)
        self.assertEqual(ended.out.decode(), (EXPECTED / file).read_text(encoding="utf-8"))

    def test_report(self) -> None:
        self.check("report.txt", "report", "mybook")
        self.check("report.json", "report", "mybook", "--json")
        self.check("report.csv", "report", "mybook", "--csv")

    def test_the_readme(self) -> None:
        """It shows the example's report, and lists every command."""
        readme = (books.ROOT / "README.md").read_text(encoding="utf-8")
        self.assertIn((EXPECTED / "report.txt").read_text(encoding="utf-8"), readme)
        for name in re.findall(r"^    ([a-z]+) ", self.run_command("--help").out.decode(), re.M):
            self.assertIn(f"`weightrose {name}", readme)

    def test_the_words_in_the_readme(self) -> None:
        """They are all there, with their numbers, and no other."""
        kinds = (words.CounterpartyKind, words.AssetKind, words.EntryClass, words.Form)
        flags = (words.CounterpartyFlag, words.AssetFlag, words.MitigantFlag)
        every = [item for kind in kinds for item in words.words(kind).items()]
        every += [item for flag in flags for item in words.flag_words(flag).items()]
        readme = (books.ROOT / "README.md").read_text(encoding="utf-8")
        table = readme.partition("| Column | Words")[2].partition("\n\n")[0]
        listed = [(word, int(number)) for word, number in re.findall(r"`([a-z0-9 -]+)` \((\d+)\)", table)]
        self.assertEqual(sorted(listed), sorted(every))

    def test_bills(self) -> None:
        self.check("bills.txt", "bills", "mybook", "--rate", "4.5%")
        self.check("bills.txt", "bills", "mybook", "--rate", "450")
        self.check("bills.csv", "bills", "mybook", "--rate", "450", "--csv")
        found = json.loads(self.run_command("bills", "mybook", "--rate", "450", "--json").out)
        self.assertEqual(len(found["bills"]), 256)
        self.assertEqual(
            sum(found["bills"]), json.loads((EXPECTED / "report.json").read_text())["charge"] * 450 // 10000
        )

    def test_headroom(self) -> None:
        asked = ("--ask", "Tower Trust", "other", "--ask", "Second Bank", "deposit", "--ask", "Commonwealth", "1")
        self.check("headroom.txt", "headroom", "mybook", *asked)
        (self.place / "asked.csv").write_text(
            "counterparty,kind\nTower Trust,other\nSecond Bank,Deposit\nCommonwealth,1\n"
        )
        self.check("headroom.txt", "headroom", "mybook", "--questions", "asked.csv")
        self.check("headroom.csv", "headroom", "mybook", "--questions", "asked.csv", "--csv")
        self.check("headroom.json", "headroom", "mybook", "--questions", "asked.csv", "--json")

    def test_schedule(self) -> None:
        self.check("schedule.csv", "schedule", "--csv")

    def test_version(self) -> None:
        number = ".".join(map(str, VERSION))
        said = f"weightrose {number}: schedules of versions 1, 2; books of versions 1, 2\n"
        self.assertEqual(self.run_command("--version").out.decode(), said)

    def test_the_numbers_are_the_reports(self) -> None:
        """The expected files, held against the library's bytes."""
        data = library.report(library.published(), read_folder(books.TEMPLATE).to_bytes())
        found = json.loads((EXPECTED / "report.json").read_text())
        self.assertEqual(found["charge"], int.from_bytes(data[64:72], "little"))
        self.assertEqual(len(found["lines"]), int.from_bytes(data[6:8], "little"))
        for number, line in enumerate(found["lines"]):
            own = data[72 + 40 * number : 112 + 40 * number]
            amounts = [int.from_bytes(own[at : at + 8], "little") for at in (8, 16, 24, 32)]
            self.assertEqual([line[name] for name in ("exposure", "limit", "left", "excess")], amounts)
            self.assertEqual((line["top"], line["tier"]), (own[0] + 256 * own[1], own[2]))


class Files(Commands):
    def test_there_and_back(self) -> None:
        packed = self.run_command("book", "mybook").out
        self.assertEqual(packed, read_folder(books.TEMPLATE).to_bytes())
        self.run_command("csv", "-", "again", stdin=packed)
        self.assertEqual(self.run_command("book", "again").out, packed)
        self.run_command("book", "mybook", "-o", "book.acb")
        self.assertEqual((self.place / "book.acb").read_bytes(), packed)
        self.run_command("csv", "book.acb", "third")
        self.assertEqual(self.run_command("book", "third").out, packed)

    def test_folder_file_and_standard_input_give_the_same_figures(self) -> None:
        packed = self.run_command("book", "mybook", "-o", "book.acb") and (self.place / "book.acb").read_bytes()
        by_file = json.loads(self.run_command("report", "book.acb", "--json").out)
        self.assertEqual(json.loads(self.run_command("report", "--json", stdin=packed).out), by_file)
        by_folder = json.loads(self.run_command("report", "mybook", "--json").out)
        for line in by_folder["lines"] + by_file["lines"]:
            del line["group"]
        self.assertEqual(by_folder, by_file)

    def test_schedules(self) -> None:
        self.assertEqual(self.run_command("schedule").out, library.published())
        self.run_command("schedule", "--csv", "-o", "rates.csv")
        self.assertEqual(self.run_command("schedule", "rates.csv").out, library.published())
        text = (self.place / "rates.csv").read_text()
        self.assertEqual(self.run_command("schedule", "-", stdin=text.encode()).out, library.published())
        (self.place / "rates.csv").write_text(text.replace("h,50,0,250", "h,40,0,200"))
        lower = json.loads(self.run_command("report", "mybook", "--schedule", "rates.csv", "--json").out)
        self.assertGreater(lower["charge"], json.loads((EXPECTED / "report.json").read_text())["charge"])
        packed = self.run_command("schedule", "rates.csv", "-o", "rates.acl") and json.loads(
            self.run_command("report", "mybook", "--schedule", "rates.acl", "--json").out
        )
        self.assertEqual(packed, lower)

    def test_convert(self) -> None:
        book = books.accepted(5, version=1)
        write_folder(book, self.place / "old")
        new = self.run_command("convert", "old").out
        self.assertEqual(new, library.convert(book.to_bytes()))
        self.run_command("convert", "old", "--csv", "new")
        self.assertEqual(self.run_command("book", "new").out, new)
        names = [party.name for party in read_folder(self.place / "new").counterparties]
        self.assertEqual(names, [party.name for party in book.counterparties])

    def test_a_book_without_names_is_written_with_places(self) -> None:
        packed = self.run_command("book", "mybook").out
        self.run_command("csv", "-", "named", stdin=packed)
        self.assertEqual(read_folder(self.place / "named").assets[2].name, "A3")

    def test_odd_names(self) -> None:
        """A line stays a line, aligned, and nothing is sent to the terminal but text."""
        book = books.small()
        parties = (replace(book.counterparties[0], name="银行\n\x1b[31mred"),)
        write_folder(replace(book, counterparties=parties), self.place / "odd")
        lines = self.run_command("report", "odd").out.decode().splitlines()
        self.assertEqual(len(lines), 12)
        self.assertTrue(lines[1].startswith("银行  [31mred  (i) "), lines[1])
        self.assertEqual(lines[0].index("Tier"), lines[1].index("(i)") + 2)

    def test_another_encoding(self) -> None:
        """The output is UTF-8 whatever the settings say."""
        book = books.small()
        write_folder(replace(book, counterparties=(replace(book.counterparties[0], name="Söhne"),)), self.place / "odd")
        done = subprocess.run(
            [sys.executable, "-m", "weightrose", "report", "odd"],
            cwd=self.place,
            capture_output=True,
            check=True,
            env={**os.environ, "PYTHONIOENCODING": "ascii"},
        )
        self.assertIn("Söhne".encode(), done.stdout)

    def test_output_files(self) -> None:
        self.run_command("report", "mybook", "-o", "report.txt")
        self.assertEqual((self.place / "report.txt").read_text(), (EXPECTED / "report.txt").read_text())

    def test_a_book_without_lines(self) -> None:
        write_folder(Book(books.small().fund), self.place / "empty")
        text = self.run_command("report", "empty").out.decode()
        self.assertTrue(text.startswith("VAF "))
        self.assertTrue(text.endswith("Charge                   0.00\n"), text)


class Refused(Commands):
    def spoil(self, file: str, old: str, new: str) -> None:
        path = self.place / "mybook" / file
        text = path.read_text(encoding="utf-8")
        self.assertIn(old, text)
        path.write_text(text.replace(old, new, 1), encoding="utf-8")

    def test_bad_cells(self) -> None:
        self.spoil("assets.csv", "Term deposit,Second Bank,deposit", "Term deposit,Second Bnk,deposits")
        self.spoil("fund.csv", "10000000.00", "ten")
        for command in (
            ("report",),
            ("book",),
            ("page",),
            ("bills", "--rate", "1"),
            ("convert",),
            ("headroom", "--ask", "a", "loan"),
        ):
            lines = self.refused(command[0], "mybook", *command[1:])
            self.assertEqual([line.split(": ")[0] for line in lines], [
                "fund.csv row 2 column capital_base", "assets.csv row 6 column counterparty", "assets.csv row 6 column kind",
            ])  # fmt: skip

    def test_refused_rows(self) -> None:
        self.spoil("counterparties.csv", "Second Bank,,bank,5", "Second Bank,Quarry Rail,bank,8")
        self.spoil("assets.csv", "Works of art,Tower Trust,other,,none,0", "Works of art,Tower Trust,other,,item e,0")
        for command in (("report",), ("bills", "--rate", "1"), ("headroom", "--ask", "Tower Trust", "loan")):
            lines = self.refused(command[0], "mybook", *command[1:])
            self.assertEqual(lines, [
                "counterparties.csv row 6 columns grade, parent: refused 10 5 COUNTERPARTY (Second Bank): "
                "a counterparty has a bad field or an unknown flag",
                "assets.csv row 19 column entry_class: refused 11 18 ASSET (Works of art): "
                "an asset has a bad field, an unknown flag or an amount over the most",
            ])  # fmt: skip
        packed = self.run_command("book", "mybook").out
        self.assertEqual(self.refused("report", stdin=packed), [
            "standard input counterparty 5 grade, parent: refused 10 5 COUNTERPARTY: a counterparty has a bad field or an unknown flag",
            "standard input asset 18 entry_class: refused 11 18 ASSET: "
            "an asset has a bad field, an unknown flag or an amount over the most",
        ])  # fmt: skip

    def test_bytes_that_are_no_book(self) -> None:
        self.assertEqual(
            self.refused("report", stdin=b"")[0].split(":")[0:2], ["standard input", " refused 5 0 BOOK_LENGTH"]
        )
        (self.place / "noise").write_bytes(bytes(range(100)))
        self.assertIn("refused 6 0 BOOK_MARK", self.refused("report", "noise")[0])
        self.assertIn("noise: ", self.refused("csv", "noise", "out")[0])

    def test_schedules(self) -> None:
        text = self.run_command("schedule", "--csv").out.decode()
        (self.place / "rates.csv").write_text(text.replace("g,125,0,625", "g,125,0,1501"))
        self.assertEqual(self.refused("report", "mybook", "--schedule", "rates.csv"), [
            "rates.csv row 6 column base_rate: refused 4 0 SCHEDULE_RATES (row g): "
            "a rate is over 1,500 (15,000 in version 2), a percent over 100 or a fixed amount over the most",
        ])  # fmt: skip
        (self.place / "rates.csv").write_text(text.replace("g,125,0,625", "g,125,0,much"))
        self.assertEqual(
            self.refused("report", "mybook", "--schedule", "rates.csv"),
            ["rates.csv row 6 column base_rate_per_mille: 'much' is no whole number"],
        )
        (self.place / "short").write_bytes(b"ACL\0")
        self.assertIn("short: refused 1 0 SCHEDULE_LENGTH", self.refused("report", "mybook", "--schedule", "short")[0])

    def test_conversion(self) -> None:
        lines = self.refused("convert", "mybook")
        self.assertTrue(lines[0].startswith("fund.csv row 2 column version: refused 7 0 BOOK_VERSION"), lines)

    def test_rate_and_questions(self) -> None:
        self.assertIn("refused 19 0 COST_RATE", self.refused("bills", "mybook", "--rate", "10.01%")[0])
        (self.place / "asked.csv").write_text(
            "counterparty,kind\nTower Trust,other\nTower Trust,reinsurance\nTower Trust,12\n"
        )
        lines = self.refused("headroom", "mybook", "--questions", "asked.csv")
        self.assertEqual([line.split(":")[0] for line in lines], ["asked.csv row 3", "asked.csv row 4"])
        (self.place / "asked.csv").write_text("counterparty,kind\nNobody,other\nTower Trust,gold\n")
        lines = self.refused("headroom", "mybook", "--questions", "asked.csv")
        self.assertEqual(
            [line.split(":")[0] for line in lines],
            ["asked.csv row 2 column counterparty", "asked.csv row 3 column kind"],
        )

    def test_a_page_of_what_is_refused(self) -> None:
        self.spoil("counterparties.csv", "Second Bank,,bank,5", "Second Bank,,bank,8")
        ended = self.run_command("page", "mybook", status=1)
        self.assertIn(b"COUNTERPARTY", ended.out)
        self.assertEqual(ended.err, "")


class Usage(Commands):
    def test_bad_usage(self) -> None:
        for arguments in (
            (), ("nothing",), ("report", "mybook", "--json", "--csv"), ("report", "nowhere"), ("bills", "mybook"),
            ("bills", "mybook", "--rate", "high"), ("bills", "mybook", "--rate", "-1"), ("headroom", "mybook"),
            ("headroom", "mybook", "--ask", "Nobody", "loan"), ("headroom", "mybook", "--ask", "Tower Trust", "gold"),
            ("book", "nowhere"), ("csv", "nowhere", "out"), ("template", "mybook"), ("report", "--schedule", "-"),
            ("report", "mybook", "-o", "no/such/folder/report.txt"), ("report", "mybook", "--schedule", "nowhere"),
        ):  # fmt: skip
            self.assertTrue(self.refused(*arguments, status=2), arguments)

    def test_files_are_not_written_over(self) -> None:
        changed = self.place / "mybook" / "fund.csv"
        changed.write_text("mine")
        self.assertIn("--force", self.refused("template", "mybook", status=2)[0])
        self.assertEqual(changed.read_text(), "mine")
        self.run_command("template", "mybook", "--force")
        self.assertEqual(changed.read_text(), (books.TEMPLATE / "fund.csv").read_text())

    def ended_with(self, named: str) -> str:
        """What is said with another library, which is told at the start and is bad usage."""
        done = subprocess.run(
            [sys.executable, "-m", "weightrose", "report", "mybook"],
            cwd=self.place,
            capture_output=True,
            check=False,
            env={**os.environ, "WEIGHTROSE_LIBRARY": named},
        )
        self.assertEqual((done.returncode, done.stdout), (2, b""))
        return done.stderr.decode()

    def test_no_library(self) -> None:
        self.assertIn("no shared library", self.ended_with("/nowhere/libweightrose.so"))
        self.assertIn("has no weightrose_version", self.ended_with("libc.so.6"))

    @unittest.skipUnless(shutil.which("cc"), "there is no C compiler")
    def test_a_library_of_another_version(self) -> None:
        names = re.findall(r"^\t\t(weightrose_\w+);$", (books.ROOT / "tests/exports.map").read_text(), re.M)
        self.assertEqual(len(names), 8)
        source = "".join(f"unsigned long long {name}(void) {{ return 0x6000600000900; }}\n" for name in names)
        (self.place / "other.c").write_text(source)
        subprocess.run(["cc", "-shared", "-fPIC", "other.c", "-o", "other.so"], cwd=self.place, check=True)
        said = self.ended_with(str(self.place / "other.so"))
        self.assertIn(f"is of version 0.9.0, this package of {'.'.join(map(str, VERSION))}", said)

    @unittest.skipUnless(Path("/dev/full").exists(), "there is no device that is always full")
    def test_a_disk_that_is_full(self) -> None:
        command = [sys.executable, "-m", "weightrose", "report", "mybook"]
        for arguments, said in ((["-o", "/dev/full"], "/dev/full: No space"), ([], "standard output: No space")):
            with open("/dev/full", "wb") as full:
                done = subprocess.run(
                    [*command, *arguments], cwd=self.place, stdout=full, stderr=subprocess.PIPE, check=False
                )
            self.assertEqual(done.returncode, 2)
            self.assertTrue(done.stderr.decode().startswith(f"weightrose: {said}"), done.stderr)

    def test_a_reader_that_stops(self) -> None:
        """As 'head' does, with more to come than a pipe holds."""
        write_folder(shown.maximal(), self.place / "large")
        self.assertGreater(len(self.run_command("report", "large", "--json").out), 100_000)
        command = f"{sys.executable} -m weightrose report large --json | head -n 1"
        done = subprocess.run(command, cwd=self.place, shell=True, capture_output=True, check=False)
        self.assertEqual((done.stdout, done.stderr), (b"{\n", b""))


if __name__ == "__main__":
    unittest.main()
