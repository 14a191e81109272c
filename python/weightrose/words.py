"""The words for the numbers that books and reports are made of."""

from __future__ import annotations

import enum
from functools import lru_cache
from typing import Dict, Type


class CounterpartyKind(enum.IntEnum):
    OTHER = 0
    BANK = 1
    HOME_GOVERNMENT = 2
    PROVINCIAL_GOVERNMENT = 3
    REGISTERED_LIFE_COMPANY = 4


class Grade(enum.IntEnum):
    """Only the lack of a grade has a word; the others are their numbers, 1 to 7."""

    NONE = 0


class CounterpartyFlag(enum.IntFlag):
    RELATED = 1
    APPROVED_AFFILIATE = 2
    APPROVED_ITEM_E = 4


class AssetKind(enum.IntEnum):
    GOVERNMENT_GUARANTEED = 1
    LIFE_POLICY = 2
    BANK_BILL = 3
    DEPOSIT = 4
    PROVINCE_GUARANTEED = 5
    TRADED = 6
    LOAN = 7
    PROPERTY = 8
    REINSURANCE = 9
    PREMIUMS_OWED = 10
    OTHER = 11


class AssetFlag(enum.IntFlag):
    LINKED = 1
    RISES_UNDER_STRESS = 2


class EntryClass(enum.IntEnum):
    NONE = 0
    ITEM_E = 1
    ITEM_G = 2
    RETROCESSION = 3


class Form(enum.IntEnum):
    CASH = 1
    GOVERNMENT_SECURITY = 2
    DEBT = 3
    GUARANTEE = 4
    LETTER_OF_CREDIT = 5


class MitigantFlag(enum.IntFlag):
    """Paragraphs 33 (secured and held), 35 or 36, 40 and 42(b) to (m), and the currency."""

    SECURED = 1
    TERMS_35_36 = 2
    TERMS_40 = 4
    TERMS_42 = 8
    SAME_CURRENCY = 16


class YesNo(enum.IntEnum):
    """Spreadsheets have FALSE and TRUE."""

    NO = 0
    YES = 1
    FALSE = 0
    TRUE = 1


class Tier(enum.IntEnum):
    """The tiers of a report, with reinsurance apart, and the steps after a downgrade."""

    I = 0  # noqa: E741
    I_REINSURANCE = 1
    H = 2
    H_REINSURANCE = 3
    G_SECOND = 4
    G_FIRST = 5
    G = 6
    E_SECOND = 7
    E_FIRST = 8
    E = 9
    F = 10
    C = 11
    D = 12
    RETROCESSION = 13
    RETROCESSION_FIRST = 14
    RETROCESSION_SECOND = 15

    @property
    def letters(self) -> str:
        """The item of Attachment A, paragraph 1, as a reader looks for it: '(g) first step'."""
        item, _, rest = self.name.lower().partition("_")
        steps = {"": "", "reinsurance": " reinsurance", "first": " first step", "second": " second step"}
        return (item if item == "retrocession" else f"({item})") + steps[rest]


def plain(text: str) -> str:
    """A word as it is compared: lower case, one space for each run of spaces, hyphens and underscores."""
    return " ".join(text.lower().replace("-", " ").replace("_", " ").split())


@lru_cache(maxsize=None)
def words(numbers: Type[enum.IntEnum]) -> Dict[str, int]:
    return {plain(name): int(member) for name, member in numbers.__members__.items()}


def word(numbers: Type[enum.IntEnum], number: int) -> str:
    """The first word for a number, or the number where there is none."""
    for text, value in words(numbers).items():
        if value == number:
            return text
    return str(number)


@lru_cache(maxsize=None)
def flag_words(flags: Type[enum.IntFlag]) -> Dict[str, int]:
    """A flag is one word, so that several can stand in a cell with spaces between them."""
    return {plain(name).replace(" ", "-"): int(flag) for name, flag in flags.__members__.items()}


def flag_word(flags: Type[enum.IntFlag], number: int) -> str:
    """The words of all flags that are set, or the number where a bit has no word."""
    known = flag_words(flags)
    set_words = [text for text, bit in known.items() if number & bit]
    if sum(known[text] for text in set_words) != number:
        return str(number)
    return " ".join(set_words)
