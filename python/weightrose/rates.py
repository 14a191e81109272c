"""Schedules as a table of CSV, and back.

A row for each of c, d, e, f, g, h, i and z, and two for what is kept after the first and the second
downgrade step. The names of the rates' columns say their unit, and with it the schedule's version.
"""

from __future__ import annotations

import csv
import io
from typing import Dict, List, Tuple

from weightrose.cells import Columns, Damaged, Problem, Row, dollars, table
from weightrose.records import ROW_NAMES, Schedule, ScheduleRow

RATES = ("vaf_rate", "second_vaf_rate", "base_rate")
UNITS = {1: "per_mille", 2: "ten_thousandths"}
STEPS = ("first step", "second step")


def _columns(version: int) -> Tuple[str, ...]:
    return tuple(f"{rate}_{UNITS[version]}" for rate in RATES)


def _version(data: bytes) -> int:
    """2 where the header speaks of ten-thousandths."""
    return 2 if UNITS[2].encode() in data.split(b"\n", 1)[0].lower() else 1


def _by_name(file: str, rows: List[Row], problems: List[Problem]) -> Dict[str, Row]:
    found: Dict[str, Row] = {}
    for row in rows:
        name = row.named("row").lower()
        if name and name not in ROW_NAMES and name not in STEPS:
            row.wrong("row", f"{name!r} is none of: {', '.join((*ROW_NAMES, *STEPS))}")
        elif name in found:
            row.wrong("row", f"{name!r} stands twice, in row {found[name].at} too")
        elif name:
            found[name] = row
    for name in (*ROW_NAMES, *STEPS):
        if name not in found:
            problems.append(Problem(file, None, None, f"has no row {name!r}"))
    return found


def _rates(row: Row, version: int) -> ScheduleRow:
    if row.text("percent_kept"):
        row.wrong("percent_kept", "only the rows 'first step' and 'second step' have one")
    vaf, second_vaf, base = (row.number(column, 65535, default=0) for column in _columns(version))
    return ScheduleRow(vaf, second_vaf, base, row.amount("fixed_amount", default=0), row.at)


def read_schedule(file: str, data: bytes) -> Schedule:
    """The schedule of a table. Raises Damaged with all that is wrong."""
    problems: List[Problem] = []
    version = _version(data)
    columns = Columns(("row", *_columns(version), "fixed_amount", "percent_kept"), (), ("fixed_amount",))
    rows = table(file, data, columns, problems)
    named = _by_name(file, rows, problems) if rows or not problems else {}
    rates = tuple(_rates(named[name], version) for name in ROW_NAMES if name in named)
    first, second = (named[name].number("percent_kept", 65535) if name in named else 0 for name in STEPS)
    if problems:
        raise Damaged(problems)
    steps = named[STEPS[0]].at, named[STEPS[1]].at
    return Schedule(rates, first, second, version, percent_rows=steps)


def schedule_text(schedule: Schedule) -> str:
    """Versions other than 1 and 2 have no unit, and so no table."""
    if schedule.version not in UNITS:
        raise ValueError(f"schedules of version {schedule.version} are not known here, but 1 and 2")
    out = io.StringIO()
    writer = csv.writer(out, lineterminator="\n")
    writer.writerow(("row", *_columns(schedule.version), "fixed_amount", "percent_kept"))
    for name, row in zip(ROW_NAMES, schedule.rows):
        writer.writerow((name, row.vaf_rate, row.second_vaf_rate, row.base_rate, dollars(row.fixed_amount), ""))
    for name, percent in zip(STEPS, (schedule.percent_first, schedule.percent_second)):
        writer.writerow((name, "", "", "", "", percent))
    return out.getvalue()
