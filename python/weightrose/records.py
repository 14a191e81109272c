"""Schedules, books and reports as records, and their bytes.

Amounts are whole cents. Counterparties are named by their places in the book, counted from 1. Any
number that has room in its bytes can be packed: what is allowed is the library's to say.
"""

from __future__ import annotations

import struct
from dataclasses import dataclass, field
from typing import Dict, Iterator, List, Tuple

BOOK_MARK = b"ACB\0"
SCHEDULE_MARK = b"ACL\0"
REPORT_MARK = b"ACR\0"

FUND = struct.Struct("<4sHHHHB3sQqQ")
COUNTERPARTY = struct.Struct("<HBB")
# An asset's count of mitigants has two bytes in version 1; in version 2 the second is the desk.
ASSET = {1: struct.Struct("<BBBBHHQQQQQ"), 2: struct.Struct("<BBBBHBBQQQQQ")}
ASSET_SIZE = ASSET[1].size
MITIGANT = struct.Struct("<BBHQ")
SCHEDULE_HEAD = struct.Struct("<4sHHH")
SCHEDULE_ROW = struct.Struct("<HHHQ")
REPORT_HEAD = struct.Struct("<4sHH8Q")
LINE = struct.Struct("<HBxHxxQQQQ")
ROW_NAMES = "cdefghiz"

MOST_MITIGANTS_OF_AN_ASSET = {1: 65535, 2: 255}


class Malformed(ValueError):
    """Bytes that can't be taken apart into records, or records that have no bytes."""


def _packed(record: str, layout: struct.Struct, *numbers: object) -> bytes:
    try:
        return layout.pack(*numbers)
    except struct.error as error:
        raise Malformed(f"{record}: a number has no room in its bytes ({error})") from None


@dataclass(frozen=True)
class Fund:
    """A book's header. 'specialist' is 1 for a specialist reinsurer's fund (paragraph 46)."""

    total_assets: int
    capital_base: int
    excluded_assets: int = 0
    specialist: int = 0
    version: int = 1
    name: str = ""
    row: int = field(default=0, compare=False)

    def to_bytes(self, counterparties: int, assets: int, mitigants: int) -> bytes:
        return _packed(
            "fund", FUND, BOOK_MARK, self.version, counterparties, assets, mitigants,
            self.specialist, bytes(3), self.total_assets, self.capital_base, self.excluded_assets,
        )  # fmt: skip


@dataclass(frozen=True)
class Counterparty:
    name: str = ""
    parent: int = 0
    kind: int = 0
    grade: int = 0
    flags: int = 0
    row: int = field(default=0, compare=False)

    def to_bytes(self) -> bytes:
        if not (0 <= self.kind < 16 and 0 <= self.grade < 16):
            raise Malformed(f"counterparty {self.name!r}: kind and grade have four bits each")
        return _packed(
            f"counterparty {self.name!r}", COUNTERPARTY, self.parent, self.kind << 4 | self.grade, self.flags
        )


@dataclass(frozen=True)
class Mitigant:
    form: int
    counterparty: int
    value: int
    flags: int = 0
    row: int = field(default=0, compare=False)

    def to_bytes(self) -> bytes:
        return _packed("mitigant", MITIGANT, self.form, self.flags, self.counterparty, self.value)


@dataclass(frozen=True)
class Asset:
    """An asset with the mitigants that are its own. Its desk has no place in a book of version 1."""

    kind: int
    counterparty: int
    value: int
    name: str = ""
    flags: int = 0
    entry_class: int = 0
    months: int = 0
    desk: int = 0
    offsets: int = 0
    deductions: int = 0
    insurance_stress: int = 0
    combination_stress: int = 0
    mitigants: Tuple[Mitigant, ...] = ()
    row: int = field(default=0, compare=False)

    def to_bytes(self, version: int) -> bytes:
        if version == 1 and self.desk:
            raise Malformed(f"asset {self.name!r}: a book of version 1 has no desks")
        if len(self.mitigants) > MOST_MITIGANTS_OF_AN_ASSET[version]:
            most = MOST_MITIGANTS_OF_AN_ASSET[version]
            raise Malformed(
                f"asset {self.name!r}: {len(self.mitigants)} mitigants, and version {version} counts to {most}"
            )
        count = (len(self.mitigants),) if version == 1 else (len(self.mitigants), self.desk)
        return _packed(
            f"asset {self.name!r}", ASSET[version], self.kind, self.flags, self.entry_class, self.months,
            self.counterparty, *count, self.value, self.offsets, self.deductions,
            self.insurance_stress, self.combination_stress,
        )  # fmt: skip


@dataclass(frozen=True)
class Book:
    fund: Fund
    counterparties: Tuple[Counterparty, ...] = ()
    assets: Tuple[Asset, ...] = ()

    @property
    def mitigants(self) -> Tuple[Mitigant, ...]:
        """All mitigants in the book's order, which is that of their assets."""
        return tuple(mitigant for asset in self.assets for mitigant in asset.mitigants)

    def counterparty_name(self, place: int) -> str:
        """A counterparty's name; '#7' for a place that has no counterparty or none with a name."""
        if 1 <= place <= len(self.counterparties):
            return self.counterparties[place - 1].name or f"#{place}"
        return f"#{place}"

    def to_bytes(self) -> bytes:
        version = self.fund.version
        if version not in ASSET:
            raise Malformed(f"fund: books of version {version} are not known here, but 1 and 2")
        mitigants = self.mitigants
        parts = [self.fund.to_bytes(len(self.counterparties), len(self.assets), len(mitigants))]
        parts.extend(counterparty.to_bytes() for counterparty in self.counterparties)
        parts.extend(asset.to_bytes(version) for asset in self.assets)
        parts.extend(mitigant.to_bytes() for mitigant in mitigants)
        return b"".join(parts)

    @classmethod
    def from_bytes(cls, data: bytes) -> Book:
        """The records of a book, named C1, C2 .. and A1, A2 ... Raises Malformed where the bytes do
        not fall into the records that their header counts, or would not be had again."""
        if len(data) < FUND.size:
            raise Malformed("a book has a header of 40 bytes")
        mark, version, parties, assets, mitigants, specialist, zeros, total, base, excluded = FUND.unpack_from(data)
        if mark != BOOK_MARK or any(zeros):
            raise Malformed("a book starts with 'ACB' and a zero byte and has zeros in bytes 13 to 15")
        if version not in ASSET:
            raise Malformed(f"books of version {version} are not known here, but 1 and 2")
        assets_at = FUND.size + parties * COUNTERPARTY.size
        mitigants_at = assets_at + assets * ASSET_SIZE
        if len(data) != mitigants_at + mitigants * MITIGANT.size:
            raise Malformed("the book has another length than its counts say")
        own = [
            Mitigant(form, party, value, flags)
            for form, flags, party, value in MITIGANT.iter_unpack(data[mitigants_at:])
        ]
        return cls(
            Fund(total, base, excluded, specialist, version),
            tuple(_counterparties(data[FUND.size : assets_at])),
            tuple(_assets(data[assets_at:mitigants_at], version, own)),
        )


def _counterparties(data: bytes) -> Iterator[Counterparty]:
    for place, (parent, byte, flags) in enumerate(COUNTERPARTY.iter_unpack(data), 1):
        yield Counterparty(f"C{place}", parent, byte >> 4, byte & 15, flags)


def _assets(data: bytes, version: int, own: List[Mitigant]) -> Iterator[Asset]:
    """The assets, each with as many of the mitigants as it counts."""
    given = 0
    for place, numbers in enumerate(ASSET[version].iter_unpack(data), 1):
        kind, flags, entry, months, party, count = numbers[:6]
        desk = numbers[6] if version == 2 else 0
        value, offsets, deductions, insurance, combination = numbers[-5:]
        mitigants = tuple(own[given : given + count])
        yield Asset(
            kind, party, value, f"A{place}", flags, entry, months, desk,
            offsets, deductions, insurance, combination, mitigants,
        )  # fmt: skip
        given += count
    if given != len(own):
        raise Malformed("the assets' counts of mitigants do not add up to the book's mitigants")


@dataclass(frozen=True)
class ScheduleRow:
    vaf_rate: int = 0
    second_vaf_rate: int = 0
    base_rate: int = 0
    fixed_amount: int = 0
    row: int = field(default=0, compare=False)


@dataclass(frozen=True)
class Schedule:
    """Rates are per mille in version 1 and in ten-thousandths in version 2; 'rows' are c, d, e, f,
    g, h, i of Attachment A, paragraph 1, and z of its paragraph 3."""

    rows: Tuple[ScheduleRow, ...]
    percent_first: int
    percent_second: int
    version: int = 1
    percent_rows: Tuple[int, int] = field(default=(0, 0), compare=False)

    def to_bytes(self) -> bytes:
        head = _packed("schedule", SCHEDULE_HEAD, SCHEDULE_MARK, self.version, self.percent_first, self.percent_second)
        rows = (
            _packed(f"row {name}", SCHEDULE_ROW, r.vaf_rate, r.second_vaf_rate, r.base_rate, r.fixed_amount)
            for name, r in zip(ROW_NAMES, self.rows)
        )
        if len(self.rows) != len(ROW_NAMES):
            raise Malformed(f"schedule: {len(self.rows)} rows, and there are eight")
        return head + b"".join(rows)

    @classmethod
    def from_bytes(cls, data: bytes) -> Schedule:
        if len(data) != SCHEDULE_HEAD.size + len(ROW_NAMES) * SCHEDULE_ROW.size:
            raise Malformed("a schedule has 122 bytes")
        mark, version, first, second = SCHEDULE_HEAD.unpack_from(data)
        if mark != SCHEDULE_MARK:
            raise Malformed("a schedule starts with 'ACL' and a zero byte")
        rows = SCHEDULE_ROW.iter_unpack(data[SCHEDULE_HEAD.size :])
        return cls(tuple(ScheduleRow(*row) for row in rows), first, second, version)


@dataclass(frozen=True)
class Line:
    """A group's tier: 'top' is the place of the group's topmost parent, bit n of 'tier_set' set
    where the group has a line of tier n."""

    top: int
    tier: int
    tier_set: int
    exposure: int
    limit: int
    left: int
    excess: int


@dataclass(frozen=True)
class Report:
    vaf: int
    vaf_stressed: int
    all_net: int
    unlimited: int
    group_excess: int
    a3_sum: int
    a3_limit: int
    charge: int
    lines: Tuple[Line, ...]

    @classmethod
    def from_bytes(cls, data: bytes) -> Report:
        if len(data) < REPORT_HEAD.size:
            raise Malformed("a report has a header of 72 bytes")
        mark, version, count = REPORT_HEAD.unpack_from(data)[:3]
        if mark != REPORT_MARK or version != 1 or len(data) != REPORT_HEAD.size + count * LINE.size:
            raise Malformed("a report starts with 'ACR' and a zero byte, is of version 1 and has the lines it counts")
        lines = LINE.iter_unpack(data[REPORT_HEAD.size :])
        vaf, stressed, net, unlimited, excess, a3_sum, a3_limit, charge = REPORT_HEAD.unpack_from(data)[3:]
        own = tuple(Line(*line) for line in lines)
        return cls(vaf, stressed, net, unlimited, excess, a3_sum, a3_limit, charge, own)

    @property
    def groups(self) -> Dict[int, Tuple[Line, ...]]:
        """The lines of each group, by the place of its topmost parent, as the report has them."""
        found: Dict[int, List[Line]] = {}
        for line in self.lines:
            found.setdefault(line.top, []).append(line)
        return {top: tuple(lines) for top, lines in found.items()}
