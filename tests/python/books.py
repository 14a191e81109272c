"""Books for the tests: generated ones with every feature, and small ones made by hand."""

from __future__ import annotations

import random
from pathlib import Path

from weightrose import Asset, Book, Counterparty, Fund, Mitigant

ROOT = Path(__file__).resolve().parents[2]
M = 10**13
TEMPLATE = ROOT / "python" / "weightrose" / "template"

# What spreadsheets put into names.
_ENDINGS = ("", ", Ltd", ' "plc"', " & Söhne", " 银行", ";x", "'s", "\nsecond line", " 100%", "=1+1", "  two  spaces")


def amount(choose: random.Random, most: int = M) -> int:
    """Small, ordinary and greatest amounts."""
    return choose.choice(
        (0, 1, 99, 100, choose.randrange(10**4), choose.randrange(10**9), choose.randrange(most + 1), most)
    )


def accepted(seed: int, counterparties: int = 8, assets: int = 14, version: int = 0) -> Book:
    """A book that the library takes: every kind, form, flag, class and grade comes up over the seeds."""
    choose = random.Random(seed)
    version = version or choose.choice((1, 2))
    specialist = choose.randrange(2)
    parties = tuple(
        Counterparty(
            f"party {place}{choose.choice(_ENDINGS)}",
            choose.randrange(place),
            choose.randrange(5),
            choose.randrange(8),
            choose.randrange(8),
        )  # fmt: skip
        for place in range(1, counterparties + 1)
    )
    held = tuple(_asset(choose, place, counterparties, version, specialist) for place in range(1, assets + 1))
    total = min(M, sum(asset.value for asset in held) + choose.randrange(10**9))
    return Book(
        Fund(total, choose.randrange(-M, M + 1), 0, specialist, version, choose.choice(("", "fund, one"))),
        parties,
        held,
    )


def _asset(choose: random.Random, place: int, counterparties: int, version: int, specialist: int) -> Asset:
    kind = choose.randrange(1, 12)
    value = choose.randrange(10**9)
    reinsurance = kind == 9
    entry = choose.randrange(3 + specialist) if reinsurance else 0
    return Asset(
        kind, choose.randrange(1, counterparties + 1), value, f"asset {place}{choose.choice(_ENDINGS)}",
        flags=choose.randrange(4 if reinsurance else 2), entry_class=entry,
        months=choose.choice((0, 2, 3, 11, 12, 23, 24, 255)) if entry else 0,
        desk=choose.randrange(256) if version == 2 else 0,
        offsets=choose.randrange(value + 1) if reinsurance else choose.randrange(10**7),
        deductions=choose.randrange(10**6),
        insurance_stress=choose.randrange(10**9) if reinsurance else 0,
        combination_stress=value + choose.randrange(10**8) if reinsurance else 0,
        mitigants=tuple(
            Mitigant(choose.randrange(1, 6), choose.randrange(1, counterparties + 1), choose.randrange(10**9), choose.randrange(32))
            for _ in range(choose.choice((0, 0, 1, 2, 5)))
        ),
    )  # fmt: skip


def any_bytes(seed: int) -> Book:
    """A book of any numbers that have room in its bytes, most of which the library refuses."""
    choose = random.Random(seed)
    version = choose.choice((1, 2))
    parties = tuple(
        Counterparty(
            f"p{place}",
            choose.choice((0, 1, place, 65535)),
            choose.randrange(16),
            choose.randrange(16),
            choose.randrange(256),
        )
        for place in range(1, choose.randrange(1, 7))
    )
    most = (1 << 64) - 1
    held = tuple(
        Asset(
            choose.randrange(256), choose.choice((0, 1, 7, 65535)), amount(choose, most), f"a{place}", choose.randrange(256),
            choose.randrange(256), choose.randrange(256), choose.randrange(256) if version == 2 else 0,
            amount(choose, most), amount(choose, most), amount(choose, most), amount(choose, most),
            tuple(
                Mitigant(choose.randrange(256), choose.choice((0, 1, 65535)), amount(choose, most), choose.randrange(256))
                for _ in range(choose.randrange(3))
            ),
        )
        for place in range(1, choose.randrange(1, 7))
    )  # fmt: skip
    base = choose.choice((-(1 << 63), -1, 0, (1 << 63) - 1))
    fund = Fund(amount(choose, most), base, amount(choose, most), choose.randrange(256), version)
    return Book(fund, parties, held)


def small(**fund: int) -> Book:
    """One ungraded name with two assets of 3,000,000.00, kinds 11 and 6: a charge of 1,000,000.00."""
    parties = (Counterparty("Quarry"),)
    held = (Asset(11, 1, 300_000_000, "Loan"), Asset(6, 1, 300_000_000, "Shares"))
    figures = {"total_assets": 10_000_000_000, "capital_base": 1_000_000_000, **fund}
    return Book(Fund(**figures), parties, held)


def with_asset(book: Book, asset: Asset) -> Book:
    return Book(book.fund, book.counterparties, (*book.assets, asset))
