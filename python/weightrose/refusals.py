"""Why the library turned something back."""

from __future__ import annotations

import enum
from typing import Optional


class RefusalNumber(enum.IntEnum):
    """The refusals, by the names that weightrose.h has for them."""

    SCHEDULE_LENGTH = 1
    SCHEDULE_MARK = 2
    SCHEDULE_VERSION = 3
    SCHEDULE_RATES = 4
    BOOK_LENGTH = 5
    BOOK_MARK = 6
    BOOK_VERSION = 7
    BOOK_COUNTS = 8
    BOOK_AMOUNTS = 9
    COUNTERPARTY = 10
    ASSET = 11
    MITIGANT = 12
    MITIGANT_COUNTS = 13
    REINSURANCE_VALUES = 14
    STRESSED_ASSETS = 15
    BUFFER_SHORT = 16
    SPECIALIST_ENTRY = 17
    MANY_MITIGANTS = 18
    COST_RATE = 19
    QUESTIONS = 20
    ANSWERS_SHORT = 21
    MOVEMENT = 22


MEANINGS = {
    RefusalNumber.SCHEDULE_LENGTH: "the schedule is not of 122 bytes",
    RefusalNumber.SCHEDULE_MARK: "the schedule does not start with 'ACL' and a zero byte",
    RefusalNumber.SCHEDULE_VERSION: "the schedule's version is neither 1 nor 2",
    RefusalNumber.SCHEDULE_RATES: "a rate is over 1,500 (15,000 in version 2), a percent over 100 or a fixed amount over the most",
    RefusalNumber.BOOK_LENGTH: "the book is shorter than its header of 40 bytes",
    RefusalNumber.BOOK_MARK: "the book's mark, its byte for a specialist fund or its zero bytes are not as they must be",
    RefusalNumber.BOOK_VERSION: "the book's version is neither 1 nor 2; of a book to be converted, it is not 1",
    RefusalNumber.BOOK_COUNTS: "over 500 counterparties, 900 assets or 1,500 mitigants, or another length than the counts say",
    RefusalNumber.BOOK_AMOUNTS: "total assets, capital base or excluded assets are out of range",
    RefusalNumber.COUNTERPARTY: "a counterparty has a bad field or an unknown flag",
    RefusalNumber.ASSET: "an asset has a bad field, an unknown flag or an amount over the most",
    RefusalNumber.MITIGANT: "a mitigant has a bad field, an unknown flag or an amount over the most",
    RefusalNumber.MITIGANT_COUNTS: "the assets' counts of mitigants do not add up to the book's mitigants",
    RefusalNumber.REINSURANCE_VALUES: "the values of reinsurance add up to more than the total assets",
    RefusalNumber.STRESSED_ASSETS: "the assets under stress (VAF') are below 0 or over the most",
    RefusalNumber.BUFFER_SHORT: "too few bytes were lent",
    RefusalNumber.SPECIALIST_ENTRY: "an asset is a retrocession (entry class 3) in a book that is no specialist fund's",
    RefusalNumber.MANY_MITIGANTS: "an asset of a book to be converted has more than 255 mitigants",
    RefusalNumber.COST_RATE: "the cost rate is over 1,000 ten-thousandths",
    RefusalNumber.QUESTIONS: "a question's counterparty is not in the book, its kind can't be bought, or there are over 200",
    RefusalNumber.ANSWERS_SHORT: "too few bytes were lent for the answers",
    RefusalNumber.MOVEMENT: "the asset to be taken away is not there, or the record to be added is not of 48 bytes",
}

# The file of a folder of CSV that a refusal speaks of; row and record are those of the place.
FILES = {
    RefusalNumber.BOOK_MARK: "fund.csv",
    RefusalNumber.BOOK_VERSION: "fund.csv",
    RefusalNumber.BOOK_AMOUNTS: "fund.csv",
    RefusalNumber.COUNTERPARTY: "counterparties.csv",
    RefusalNumber.ASSET: "assets.csv",
    RefusalNumber.MITIGANT: "mitigants.csv",
    RefusalNumber.REINSURANCE_VALUES: "fund.csv",
    RefusalNumber.STRESSED_ASSETS: "fund.csv",
    RefusalNumber.SPECIALIST_ENTRY: "assets.csv",
    RefusalNumber.MANY_MITIGANTS: "assets.csv",
}


class Refusal(Exception):
    """A refusal of the library: its number and place, the number's name, and the row of the book's
    CSV that it speaks of, as a spreadsheet counts (the header is row 1). 'file' is None where it
    speaks of no file of the book, 'row' where it speaks of no single row."""

    def __init__(self, number: int, place: int = 0, file: Optional[str] = None, row: Optional[int] = None) -> None:
        self.number = number
        self.place = place
        self.file = file
        self.row = row
        super().__init__(number, place)

    @property
    def name(self) -> str:
        return RefusalNumber(self.number).name

    @property
    def meaning(self) -> str:
        return MEANINGS[RefusalNumber(self.number)]

    @property
    def where(self) -> str:
        """'assets.csv row 7', or nothing."""
        return " ".join(([self.file] if self.file else []) + ([f"row {self.row}"] if self.row else []))

    def __str__(self) -> str:
        said = f"refused {self.number} {self.place} {self.name}: {self.meaning}"
        return f"{self.where}: {said}" if self.where else said
