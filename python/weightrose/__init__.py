"""Weightrose: the asset concentration charge of a life company's fund (LPS 117).

Every figure is the proved library's; this package packs books, calls it and unpacks its answers.
"""

from weightrose.cells import Damaged, Problem
from weightrose.entries import bills, convert, headroom, published, report
from weightrose.folder import read_folder, write_folder
from weightrose.library import VERSION, LibraryError, Version, version
from weightrose.rates import read_schedule, schedule_text
from weightrose.records import Asset, Book, Counterparty, Fund, Line, Malformed, Mitigant, Report, Schedule, ScheduleRow
from weightrose.refusals import Refusal, RefusalNumber
from weightrose.words import (
    AssetFlag,
    AssetKind,
    CounterpartyFlag,
    CounterpartyKind,
    EntryClass,
    Form,
    MitigantFlag,
    Tier,
)

__version__ = ".".join(map(str, VERSION))

__all__ = [
    "Asset", "AssetFlag", "AssetKind", "Book", "Counterparty", "CounterpartyFlag", "CounterpartyKind", "Damaged",
    "EntryClass", "Form", "Fund", "LibraryError", "Line", "Malformed", "Mitigant", "MitigantFlag", "Problem",
    "Refusal", "RefusalNumber", "Report", "Schedule", "ScheduleRow", "Tier", "Version", "bills", "convert", "headroom", "published",
    "read_folder", "read_schedule", "report", "schedule_text", "version", "write_folder",
]  # fmt: skip
