"""What stands in several places says the same: the header, the library, the package, pkg-config."""

from __future__ import annotations

import re
import unittest

import books
from weightrose import RefusalNumber, Tier, Version, library, version
from weightrose.library import VERSION

HEADER = (books.ROOT / "include" / "weightrose.h").read_text(encoding="utf-8")


def defined(name: str) -> str:
    found = re.search(rf"^#define WEIGHTROSE_{name} (.*)$", HEADER, re.M)
    assert found is not None, name
    return found[1]


def enumerated(name: str, prefix: str) -> dict:  # type: ignore[type-arg]
    body = re.search(rf"^enum weightrose_{name} \{{\n(.*?)^\}};", HEADER, re.M | re.S)
    assert body is not None, name
    return {key: int(value) for key, value in re.findall(rf"WEIGHTROSE_{prefix}(\w+) = (\d+)", body[1])}


class Versions(unittest.TestCase):
    def test_the_version(self) -> None:
        self.assertEqual(defined("VERSION").strip('"'), ".".join(map(str, VERSION)))
        self.assertEqual([int(defined(f"VERSION_{part}")) for part in ("MAJOR", "MINOR", "PATCH")], list(VERSION))
        self.assertEqual(version(), Version(VERSION, (1, 2), (1, 2)))
        self.assertEqual(defined("SCHEDULES_TAKEN"), "(1 << 1 | 1 << 2)")
        self.assertEqual(defined("BOOKS_TAKEN"), "(1 << 1 | 1 << 2)")

    def test_the_sizes(self) -> None:
        for name, number in (
            ("MOST_REPORT_SIZE", library.MOST_REPORT_SIZE), ("BILLS_SIZE", library.BILLS_SIZE), ("DESKS", library.DESKS),
            ("QUESTION_SIZE", library.QUESTION_SIZE), ("ANSWER_SIZE", library.ANSWER_SIZE), ("SCHEDULE_SIZE", library.SCHEDULE_SIZE),
        ):  # fmt: skip
            self.assertEqual(int(defined(name)), number)
        self.assertEqual(defined("MOST_AMOUNT"), f"INT64_C({library.MOST_AMOUNT})")

    def test_the_refusals(self) -> None:
        names = enumerated("refusal", "")
        self.assertEqual(names.pop("ACCEPTED"), 0)
        self.assertEqual(names, {number.name: int(number) for number in RefusalNumber})

    def test_the_tiers(self) -> None:
        self.assertEqual(enumerated("tier", "TIER_"), {tier.name: int(tier) for tier in Tier})
        self.assertEqual(len({tier.letters for tier in Tier}), 16)

    def test_the_entries(self) -> None:
        """The package has a signature for each function that the header declares."""
        declared = set(re.findall(r"^uint64_t\n(weightrose_\w+)\(", HEADER, re.M))
        self.assertEqual(set(library._SIGNATURES), declared)


if __name__ == "__main__":
    unittest.main()
