"""Books to look at: what a page has to show, and the largest there are."""

from __future__ import annotations

import random
from dataclasses import replace
from typing import List, Tuple

from weightrose import (
    Asset,
    AssetKind,
    Book,
    Counterparty,
    CounterpartyKind,
    EntryClass,
    Form,
    Fund,
    Mitigant,
    MitigantFlag,
)

MILLION = 10**8
SCRIPT_NAME = "<script>alert('x')</script> & \"Sons\" Pty Ltd"
LONG_NAME = "Trust of the Trustees of the Long Names " * 3 + "Unbroken" * 20

_TERMS = MitigantFlag.SECURED | MitigantFlag.TERMS_40 | MitigantFlag.TERMS_42 | MitigantFlag.SAME_CURRENCY


def _treaty(party: int, value: int, name: str, entry: int, months: int = 0, *mitigants: Mitigant) -> Asset:
    return Asset(
        AssetKind.REINSURANCE, party, value, name, entry_class=entry, months=months,
        combination_stress=value, mitigants=mitigants,
    )  # fmt: skip


def example() -> Book:
    """Groups with an excess in several tiers, reinsurance, A3, an excess of a cent, and names that must be
    escaped or wrapped."""
    parties = (
        Counterparty("Harbour Property Group", grade=2),
        Counterparty("Harbour Logistics", parent=1),
        Counterparty("Harbour Reinsurance", parent=1, grade=5),
        Counterparty("Second National Bank", kind=CounterpartyKind.BANK, grade=2),
        Counterparty(SCRIPT_NAME),
        Counterparty(LONG_NAME),
        Counterparty("Alpine Re", grade=3),
        Counterparty("Old Bridge Re"),
        Counterparty("Eastern Re", grade=4),
        Counterparty("Within Its Limit Ltd"),
        Counterparty("Small Holding"),
    )
    letter = Mitigant(Form.LETTER_OF_CREDIT, 4, 2 * MILLION, _TERMS)
    assets = (
        Asset(AssetKind.OTHER, 2, 3 * MILLION, "Fit-out loan"),
        Asset(AssetKind.TRADED, 1, 4 * MILLION, "Notes"),
        Asset(AssetKind.PREMIUMS_OWED, 3, 5 * MILLION, "Premiums"),
        _treaty(3, 2 * MILLION, "Treaty 4", EntryClass.ITEM_G, 6),
        _treaty(3, 3 * MILLION // 2, "Treaty 5", EntryClass.NONE),
        Asset(AssetKind.DEPOSIT, 4, 31 * MILLION, "Term deposit"),
        Asset(AssetKind.BANK_BILL, 4, 22 * MILLION, "Bills"),
        Asset(AssetKind.TRADED, 4, 6 * MILLION, "Bank shares"),
        Asset(AssetKind.OTHER, 5, 2_60_000_000, "Unlisted"),
        Asset(AssetKind.TRADED, 6, 5_00_000_001, "Units"),
        _treaty(7, 9 * MILLION, "Treaty 1", EntryClass.ITEM_G, 0, letter),
        _treaty(8, 4 * MILLION, "Treaty 2", EntryClass.NONE),
        _treaty(9, 11 * MILLION, "Treaty 3", EntryClass.ITEM_G, 14),
        Asset(AssetKind.OTHER, 10, 2 * MILLION, "Sundry"),
        Asset(AssetKind.OTHER, 11, 123_45, "Petty"),
    )
    return Book(Fund(100 * MILLION, 10 * MILLION, name="Statutory Fund No. 1"), parties, assets)


def without_charge() -> Book:
    whole = example()
    assets = tuple(replace(asset, value=asset.value // 20, combination_stress=0) for asset in whole.assets)
    return replace(whole, assets=assets)


def refused() -> Book:
    """A book with a bad counterparty, two bad assets and a bad mitigant."""
    whole = example()
    parties = whole.counterparties[:4] + (replace(whole.counterparties[4], grade=9),) + whole.counterparties[5:]
    assets = list(whole.assets)
    assets[0] = replace(assets[0], months=3, flags=64)
    assets[3] = replace(assets[3], offsets=assets[3].value + 1)
    assets[10] = replace(assets[10], mitigants=(Mitigant(9, 4, 5),))
    return replace(whole, counterparties=parties, assets=tuple(assets))


def _maximal_parties(draw: random.Random) -> Tuple[Counterparty, ...]:
    """150 groups of a few counterparties each, of all kinds."""
    kinds = (0, 0, 0, 1, 3, 4)
    return tuple(
        Counterparty(
            f"Counterparty {place} of the maximal book", 0 if place <= 150 else (place - 1) % 150 + 1,
            draw.choice(kinds), draw.choice((0, 1, 2, 3, 5)),
        )
        for place in range(1, 501)
    )  # fmt: skip


def _maximal_asset(draw: random.Random, number: int, mitigants: List[Mitigant]) -> Asset:
    party, name = (number * 7) % 500 + 1, f"Asset {number}"
    value = draw.randrange(10**6, 4 * 10**9)
    if number % 2:
        entry = draw.choice((0, 1, 2, 3))
        return _treaty(party, value // 60, name, entry, draw.choice((0, 6, 14)) if entry else 0, *mitigants)
    kind = draw.choice((AssetKind.OTHER, AssetKind.TRADED, AssetKind.LOAN, AssetKind.DEPOSIT, AssetKind.PREMIUMS_OWED))
    return Asset(kind, party, value, name, mitigants=tuple(mitigants))


def maximal() -> Book:
    """As many records as a book may have, most groups with an excess."""
    draw = random.Random(19)
    assets = []
    for number in range(900):
        own = [
            Mitigant(draw.choice(list(Form)), draw.randrange(1, 501), draw.randrange(10**5, 5 * 10**8), _TERMS)
            for _ in range(5 * (number + 1) // 3 - 5 * number // 3)
        ]
        assets.append(_maximal_asset(draw, number, own))
    fund = Fund(2 * 10**10, 10**8, specialist=1, name="Maximal Fund")
    return Book(fund, _maximal_parties(draw), tuple(assets))
