"""A fund's report as one HTML document: nothing from elsewhere, no script, every name escaped.

Each amount stands in a data element that names the report's field, so that a page can be read back.
Pictures are SVG in percent of their width: they stretch with the page and keep their hatching, and
print keeps their fills. Their colours are attributes, for a reader without the style sheet
(page.css), which has those of dark screens alone.
"""

from __future__ import annotations

import html
from dataclasses import dataclass
from fractions import Fraction
from pathlib import Path
from typing import Iterable, List, Optional, Sequence, Tuple

from weightrose.inquiry import Finding
from weightrose.records import Book, Line, Report
from weightrose.tables import money, tier_letters

STYLE = Path(__file__).with_name("page.css")

MOST_SEGMENTS = 12
MOST_LARGEST = 20
# Percent of a picture's width: what the scale of a bar takes, and what the least excess is drawn with.
BAR = 97
LEAST_EXCESS = 3

INK, BELOW, STANDS, ROOM, EXCESS, HATCHING = "#1b1f24", "#8b95a1", "#2f6db3", "#6b7682", "#f3a544", "#8a4b00"
OTHER_EXCESS, A3_FILL = "#f9cf97", "#b79ad8"


@dataclass(frozen=True)
class Answer:
    """What the library says to one call: nothing found means that it takes the book."""

    call: str
    findings: Tuple[Finding, ...] = ()


@dataclass(frozen=True)
class View:
    """What a page shows. 'book' is None where the bytes are no records, 'report' where it was refused."""

    title: str
    book: Optional[Book]
    report: Optional[Report]
    answers: Tuple[Answer, ...]
    version: str = ""


@dataclass(frozen=True)
class _Group:
    top: int
    name: str
    lines: Tuple[Line, ...]

    @property
    def excess(self) -> int:
        return sum(line.excess for line in self.lines)


def page(view: View) -> str:
    """The whole document."""
    body = _refused(view) if view.report is None else _charged(view, view.report)
    style = STYLE.read_text(encoding="utf-8")
    title = _text(f"{view.title}: asset concentration charge" if view.title else "Asset concentration charge")
    return (
        '<!DOCTYPE html>\n<html lang="en-AU">\n<head>\n<meta charset="utf-8">\n'
        '<meta name="viewport" content="width=device-width, initial-scale=1">\n'
        f'<meta name="color-scheme" content="light dark">\n<title>{title}</title>\n<style>\n{style}</style>\n'
        f"</head>\n<body>\n{_HATCH}\n<main>\n{body}\n{_answers(view.answers)}\n</main>\n{_footer(view.version)}\n"
        "</body>\n</html>\n"
    )


def _charged(view: View, report: Report) -> str:
    groups = [_Group(top, _name(view.book, top), lines) for top, lines in report.groups.items()]
    above = sorted((group for group in groups if group.excess), key=lambda group: (-group.excess, group.top))
    sections = _parts(report, above), _cascades(above), _figures(report), _largest(groups)
    return _joined((_headline(view, report, len(above)), *sections))


# Text, names and amounts


def _text(text: str) -> str:
    return html.escape(text, quote=True)


def _own(text: str) -> str:
    """A name out of a file, whose direction of writing stays its own."""
    return f"<bdi>{_text(text)}</bdi>"


def _name(book: Optional[Book], top: int) -> str:
    return f"#{top}" if book is None else book.counterparty_name(top)


def _amount(field: str, cents: int) -> str:
    return f'<data value="{cents}" data-field="{field}">{money(cents)}</data>'


def _of_line(line: Line, field: str) -> str:
    amount: int = getattr(line, field)
    return _amount(f"line.{line.top}.{line.tier}.{field}", amount)


def _of_report(report: Report, field: str) -> str:
    amount: int = getattr(report, field)
    return _amount(field, amount)


def _group_excess(group: _Group) -> str:
    return _amount(f"sum.excess.{group.top}", group.excess)


def _a3_excess(report: Report) -> int:
    return report.charge - report.group_excess


def _letters(line: Line) -> str:
    return tier_letters(line.tier)


def _counted(count: int, one: str, more: str) -> str:
    return f"{count:,} {one if count == 1 else more}"


# Tables


def _joined(parts: Iterable[str]) -> str:
    return "\n".join(parts)


def _cells(cells: Iterable[str]) -> str:
    return "".join(f'<td class="n">{cell}</td>' for cell in cells)


def _head(*columns: Tuple[str, str]) -> str:
    """A table's header; each column is its name and its class."""
    cells = "".join(f'<th scope="col"{_class(kind)}>{name}</th>' for name, kind in columns)
    return f"<thead><tr>{cells}</tr></thead>"


def _class(kind: str) -> str:
    return f' class="{kind}"' if kind else ""


def _section(name: str, heading: str, *parts: str) -> str:
    inner = _joined(part for part in parts if part)
    return f'<section id="{name}" aria-labelledby="{name}-h">\n<h2 id="{name}-h">{heading}</h2>\n{inner}\n</section>'


# Pictures


def _percent(value: int, whole: int, room: int = 100) -> str:
    """Where a value stands on a picture's scale, of which 'room' percent are drawn on."""
    hundredths = value * room * 100 // whole if whole else 0
    return f"{hundredths // 100}.{hundredths % 100:02d}%"


def _width(value: int, whole: int, room: int, least: int) -> str:
    """How wide a value is drawn: at least so many percent, so that it can be seen."""
    return _percent(value, whole, room) if value * room >= whole * least else f"{least}%"


def _rect(kind: str, paint: str, start: str, width: str, at: int = 6, height: int = 16) -> str:
    return f'<rect class="{kind}" {paint} x="{start}" y="{at}" width="{width}" height="{height}"/>'


def _upright(kind: str, paint: str, at: str, start: int, end: int) -> str:
    return f'<line class="{kind}" {paint} x1="{at}" x2="{at}" y1="{start}" y2="{end}"/>'


_PAINT = {
    "below": f'fill="{BELOW}"',
    "stands": f'fill="{STANDS}"',
    "room": f'fill="none" stroke="{ROOM}"',
    "excess": f'fill="url(#hatch)" stroke="{HATCHING}"',
    "limit": f'stroke="{INK}" stroke-width="2"',
    "step": f'stroke="{ROOM}"',
    "group": f'fill="{EXCESS}"',
    "group other": f'fill="{OTHER_EXCESS}"',
    "a3": f'fill="{A3_FILL}"',
}

_HATCH = (
    '<svg class="defs" width="0" height="0" aria-hidden="true"><defs>'
    '<pattern id="hatch" width="6" height="6" patternUnits="userSpaceOnUse" patternTransform="rotate(45)">'
    f'<rect width="6" height="6" fill="{EXCESS}"/><rect width="2" height="6" fill="{HATCHING}"/></pattern></defs></svg>'
)


def _picture(label: str, parts: Iterable[str], height: int = 28) -> str:
    return f'<svg role="img" aria-label="{_text(label)}" width="100%" height="{height}">{"".join(parts)}</svg>'


def _swatch(kind: str) -> str:
    if kind == "limit":
        drawn = _upright(kind, _PAINT[kind], "50%", 0, 14)
    else:
        drawn = _rect(kind, _PAINT[kind], "1", "24", 1, 12)
    return f'<svg class="swatch" width="26" height="14" aria-hidden="true">{drawn}</svg>'


def _legend(rows: Sequence[Tuple[str, str]]) -> str:
    items = "".join(f"<li>{_swatch(kind)} {said}</li>" for kind, said in rows)
    return f'<ul class="legend">{items}</ul>'


# 1: the headline


def _head_of_page(view: View, large: str, said: str) -> str:
    name = _own(view.title) if view.title else "Fund without a name"
    return (
        f'<header>\n<p class="soft">Asset concentration charge (LPS 117)</p>\n<h1>{name}</h1>\n'
        f'<p class="large">{large}</p>\n<p>{said}</p>\n</header>'
    )


def _headline(view: View, report: Report, above: int) -> str:
    if not report.charge:
        said = "There is no charge."
    else:
        groups = _counted(above, "group is", "groups are") if above else "No group is"
        a3 = "A3 is above its limit" if _a3_excess(report) else "A3 is within its limit"
        said = f"{groups} above a limit. {a3}."
    return _head_of_page(view, _of_report(report, "charge"), f"{said} All amounts are in dollars.")


def _refused(view: View) -> str:
    findings = view.answers[0].findings if view.answers else ()
    if not findings:
        return _head_of_page(view, "Refused", "The library turned the book back. Nothing was calculated.")
    places = _counted(len(findings), "place", "places")
    head = _head_of_page(view, "Refused", f"The library turned the book back at {places}. Nothing was calculated.")
    rows = _joined(f"<tr>{_finding(finding)}</tr>" for finding in findings)
    caption = f"What the call ‘{_text(view.answers[0].call)}’ refused"
    table = (
        f'<table class="findings">\n<caption>{caption}</caption>\n{_head(*_FINDING_COLUMNS)}\n'
        f"<tbody>\n{rows}\n</tbody>\n</table>"
    )
    return f"{head}\n{_section('refused', 'Why the book is refused', table)}"


# 2: how the charge comes together


def _parts(report: Report, above: Sequence[_Group]) -> str:
    if report.charge:
        shown = _parts_picture(report, above)
    else:
        shown = "<p>No group is above a limit, and neither is A3.</p>"
    return _section("parts", "How the charge comes together", shown, _parts_table(report, above))


def _segments(report: Report, above: Sequence[_Group]) -> List[Tuple[str, str, int]]:
    """Class, label and amount of each part of the charge."""
    shown = above[:MOST_SEGMENTS]
    others = above[len(shown) :]
    found = [("group", str(number), group.excess) for number, group in enumerate(shown, 1)]
    if others:
        found.append(("group other", f"+{len(others)}", sum(group.excess for group in others)))
    if _a3_excess(report):
        found.append(("a3", "A3", _a3_excess(report)))
    return found


def _parts_picture(report: Report, above: Sequence[_Group]) -> str:
    segments = _segments(report, above)
    # A part is drawn with about a percent at least, so the parts may add up to more than the charge.
    least = report.charge // 100 + 1
    widths = [max(amount, least) for _, _, amount in segments]
    whole, start, drawn = sum(widths), 0, []
    for (kind, label, _), width in zip(segments, widths):
        at = _percent(start, whole)
        drawn.append(_rect(kind, _PAINT[kind], at, _percent(width, whole), 0, 36))
        if start:
            drawn.append(_upright("gap", 'stroke="#fff"', at, 0, 36))
        drawn.append(_label(label, 2 * start + width, width, whole))
        start += width
    picture = _picture("The charge as one bar: groups from the largest, then A3. The table has the amounts.", drawn, 36)
    return f'<figure class="parts">{picture}\n<figcaption>{_parts_legend(report, above)}</figcaption></figure>'


def _label(label: str, twice_middle: int, width: int, whole: int) -> str:
    """A segment's label, where it has room on a sheet; a tight one has none on a phone."""
    percent = width * 100 // whole
    if percent < 2 * len(label):
        return ""
    kind = _class("tight" if percent < 4 * len(label) else "")
    middle = _percent(twice_middle, 2 * whole)
    return f'<text{kind} x="{middle}" y="23" text-anchor="middle" font-size="13">{label}</text>'


def _parts_legend(report: Report, above: Sequence[_Group]) -> str:
    rows = []
    if above:
        rows.append(("group", "The excess of a group, largest first, numbered as in the table"))
    if len(above) > MOST_SEGMENTS:
        others = len(above) - MOST_SEGMENTS
        rows.append(("group other", _counted(others, "other group", "other groups, together")))
    if _a3_excess(report):
        rows.append(("a3", "A3: what reinsurance has above the limit of Attachment A, paragraph 3"))
    return _legend(rows)


def _parts_table(report: Report, above: Sequence[_Group]) -> str:
    rows = [
        f'<tr><td class="n no">{number}</td><th scope="row"><a href="#group-{group.top}">{_own(group.name)}</a></th>'
        f"{_cells([_group_excess(group)])}</tr>"
        for number, group in enumerate(above, 1)
    ]
    a3 = f"A3 <small>sum of {_of_report(report, 'a3_sum')}, limit of {_of_report(report, 'a3_limit')}</small>"
    totals = (
        ("sub", "All groups", _of_report(report, "group_excess")),
        ("", a3, _amount("a3_excess", _a3_excess(report))),
        ("total", "Charge", _of_report(report, "charge")),
    )
    rows.extend(
        f'<tr{_class(kind)}><td></td><th scope="row">{name}</th>{_cells([amount])}</tr>'
        for kind, name, amount in totals
    )
    head = _head(("No.", "n no"), ("Group", ""), ("Excess", "n"))
    said = "A group’s excess is the sum of its tiers’ excesses, and A3’s the charge less those of all groups."
    return f'<table class="sums">\n<caption>{said}</caption>\n{head}\n<tbody>\n{_joined(rows)}\n</tbody>\n</table>'


# 3: the cascades

_CASCADE_LEGEND = (
    ("below", "Below: what stands in the rows above (limit less left)"),
    ("stands", "Stands (exposure less excess)"),
    ("room", "Room"),
    ("limit", "Limit"),
    ("excess", "Excess"),
)

_CASCADE_HEAD = _head(
    ("Tier", ""), ("Against the limit", "pic"),
    ("Exposure", "n"), ("Limit", "n"), ("Left", "n"), ("Excess", "n"),
)  # fmt: skip


def _cascades(above: Sequence[_Group]) -> str:
    if not above:
        said = "<p>No group has an excess.</p>"
        return _section("cascades", "The groups above a limit", said)
    said = (
        "<p>A group’s tiers are in the order of their limits, lowest first. What stands in one tier counts in every "
        "tier after it, so each tier is left its limit less what stands in the rows above. What of its exposure passes "
        "that is its excess. Each group has a scale of its own, from 0.</p>"
    )
    tables = f'<div style="{_widths(above)}">\n{_joined(map(_cascade, above))}\n</div>'
    return _section("cascades", "The groups above a limit, tier by tier", said, _legend(_CASCADE_LEGEND), tables)


def _widths(groups: Sequence[_Group]) -> str:
    """The widths of columns that hold all groups' tiers and amounts, so that the tables stand one below the other."""
    lines = [line for group in groups for line in group.lines]
    most = money(max(max(line.exposure, line.limit) for line in lines))
    marks = sum(not character.isdigit() for character in most)
    amount = max(len(most) - marks // 2, 9)
    return f"--tier:{max(len(_letters(line)) for line in lines)}ch;--amount:{amount}ch"


def _cascade(group: _Group) -> str:
    scale = max(line.limit + line.excess for line in group.lines)
    last = len(group.lines) - 1
    rows = _joined(_cascade_row(line, scale, at > 0, at < last) for at, line in enumerate(group.lines))
    return (
        f'<table class="lines" id="group-{group.top}">\n<caption><h3>{_own(group.name)}</h3> '
        f"<p>Excess {_group_excess(group)}</p></caption>\n{_CASCADE_HEAD}\n<tbody>\n{rows}\n</tbody>\n</table>"
    )


def _cascade_row(line: Line, scale: int, after: bool, before: bool) -> str:
    amounts = _cells(_of_line(line, field) for field in ("exposure", "limit", "left", "excess"))
    picture = _bar(line, scale, after, before)
    return f'<tr><th scope="row">{_letters(line)}</th><td class="pic">{picture}</td>{amounts}</tr>'


def _bar(line: Line, scale: int, after: bool, before: bool) -> str:
    """A tier's bar; a step leads to it from the tier before, and from it to the tier after."""
    below, stands = line.limit - line.left, line.exposure - line.excess
    drawn = [
        _span("room", below + stands, line.left - stands, scale),
        _span("below", 0, below, scale),
        _span("stands", below, stands, scale),
        _span("excess", line.limit, line.excess, scale, LEAST_EXCESS),
        _upright("limit", _PAINT["limit"], _percent(line.limit, scale, BAR), 2, 26),
    ]
    if after:
        drawn.append(_upright("step", _PAINT["step"], _percent(below, scale, BAR), 0, 6))
    if before:
        drawn.append(_upright("step", _PAINT["step"], _percent(below + stands, scale, BAR), 22, 28))
    return _picture(f"{_letters(line)}: {_said(line, stands)}", drawn)


def _span(kind: str, start: int, amount: int, scale: int, least: int = 0) -> str:
    if not amount:
        return ""
    return _rect(kind, _PAINT[kind], _percent(start, scale, BAR), _width(amount, scale, BAR, least))


def _said(line: Line, stands: int) -> str:
    """A bar in words; its amounts stand beside it."""
    if line.excess:
        return "excess beyond the limit"
    return "within the limit" if line.left > stands else "at the limit"


# 4: the header's figures

_FIGURES = (
    ("vaf", "VAF", "value of assets of the fund (paragraph 16)"),
    ("vaf_stressed", "VAF′", "the same for reinsurance (paragraph 20)"),
    ("all_net", "All assets’ nets", "linked assets too"),
    ("unlimited", "Without limit", "nets of linked assets, and exposures without limit"),
    ("group_excess", "Group excess", "the excesses of all groups"),
    ("a3_sum", "A3 sum", "reinsurance under Attachment A, paragraph 3"),
    ("a3_limit", "A3 limit", "the limit of that sum"),
    ("charge", "Charge", "group excess, and what the A3 sum has above its limit"),
)


def _figures(report: Report) -> str:
    rows = _joined(
        f'<tr><th scope="row">{name} <small>{said}</small></th>{_cells([_of_report(report, field)])}</tr>'
        for field, name, said in _FIGURES
    )
    head = _head(("Figure", ""), ("Amount", "n"))
    caption = "<caption>The report’s header</caption>"
    table = f'<table class="sums short">\n{caption}\n{head}\n<tbody>\n{rows}\n</tbody>\n</table>'
    return _section("figures", "The figures of the fund", table)


# 5: the largest groups


def _share(line: Line) -> Optional[Fraction]:
    """What the tier and those below it take of the tier's limit; None for an exposure without a limit."""
    if line.limit:
        return Fraction(line.limit - line.left + line.exposure, line.limit)
    return None if line.exposure else Fraction(0)


def _rank(line: Line) -> Tuple[bool, Fraction]:
    share = _share(line)
    return share is None, share or Fraction(0)


def _greatest(group: _Group) -> Line:
    """The line with the greatest share, the first of equal ones."""
    return max(group.lines, key=_rank)


def _largest(groups: Sequence[_Group]) -> str:
    heading = "The largest groups by share of their limit"
    if not groups:
        return _section("largest", heading, "<p>No group has an exposure under a limit.</p>")
    found = [(group, _greatest(group)) for group in groups]
    found.sort(key=lambda pair: pair[0].top)
    found.sort(key=lambda pair: _rank(pair[1]), reverse=True)
    shown = found[:MOST_LARGEST]
    beyond = any(_rank(line) > (False, Fraction(1)) for _, line in shown)
    rows = _joined(_largest_row(group, line, 2 if beyond else 1) for group, line in shown)
    head = _head(
        ("Group", ""), ("Tier", ""), ("Of the limit", "pic"), ("Share", "n"),
        ("Exposure", "n"), ("Limit", "n"), ("Left", "n"),
    )  # fmt: skip
    of = f"{len(shown)} of {_counted(len(groups), 'group', 'groups')}"
    scale = "Bars end at twice the limit, which stands in the middle." if beyond else "Bars end at the limit."
    table = f'<table class="largest">\n<caption>{of}, largest share first. {scale}</caption>\n{head}\n<tbody>\n{rows}\n'
    said = (
        "<p>The share is limit less left plus exposure, divided by limit: what the tier and those below it take of the "
        "tier’s limit, rounded down. Each group stands with the tier that has its greatest share.</p>"
    )
    return _section("largest", heading, said, f"{table}</tbody>\n</table>")


def _largest_row(group: _Group, line: Line, bar_end: int) -> str:
    amounts = _cells(_of_line(line, field) for field in ("exposure", "limit", "left"))
    name = f'<a href="#group-{group.top}">{_own(group.name)}</a>' if group.excess else _own(group.name)
    return (
        f'<tr><th scope="row">{name}</th><td class="tier">{_letters(line)}</td>'
        f'<td class="pic">{_share_bar(line, bar_end)}</td><td class="n">{_share_text(line)}</td>{amounts}</tr>'
    )


def _share_text(line: Line) -> str:
    share = _share(line)
    if share is None:
        return "limit is 0"
    permille = share.numerator * 1000 // share.denominator
    field = f"share.{line.top}.{line.tier}"
    return f'<data value="{permille}" data-field="{field}">{permille // 10:,}.{permille % 10} %</data>'


def _share_bar(line: Line, bar_end: int) -> str:
    """A bar that ends at so many times the limit. Without a limit all of it is excess."""
    share = _share(line)
    limit = 0 if share is None else 1
    drawn_to = Fraction(bar_end) if share is None else min(share, Fraction(bar_end))
    beyond = drawn_to > limit
    within, whole = min(drawn_to, Fraction(limit)), bar_end * drawn_to.denominator
    drawn = [_rect("stands", _PAINT["stands"], "0", _percent(int(within * drawn_to.denominator), whole, BAR), 4, 10)]
    if beyond:
        width = _width(drawn_to.numerator - limit * drawn_to.denominator, whole, BAR, 2 * LEAST_EXCESS)
        drawn.append(_rect("excess", _PAINT["excess"], _percent(limit, bar_end, BAR), width, 4, 10))
    drawn.append(_upright("limit", _PAINT["limit"], _percent(limit, bar_end, BAR), 1, 17))
    return _picture("above the limit" if beyond else "within the limit", drawn, 18)


# 6: what would be refused

_FINDING_COLUMNS = (("Where", ""), ("Record", ""), ("Refusal", ""), ("Meaning", ""))


def _finding(finding: Finding) -> str:
    refusal = finding.refusal
    where = _own(finding.where) if finding.where else "no single row"
    record = _own(finding.record) if finding.record else "–"
    return (
        f'<td>{where}</td><td>{record}</td><td class="code">{refusal.number} {_text(refusal.name)}</td>'
        f"<td>{_text(refusal.meaning)}</td>"
    )


def _answers(answers: Sequence[Answer]) -> str:
    rows = _joined(map(_answer, answers))
    table = (
        '<table class="findings calls">\n<caption>The library’s answer to each call with this book</caption>\n'
        f"{_head(('Call', ''), *_FINDING_COLUMNS)}\n{rows}\n</table>"
    )
    return _section("answers", "What would be refused", table)


def _answer(answer: Answer) -> str:
    call = _text(answer.call)
    if not answer.findings:
        return f'<tbody><tr><th scope="row">{call}</th><td colspan="{len(_FINDING_COLUMNS)}">taken</td></tr></tbody>'
    head = f'<th scope="rowgroup" rowspan="{len(answer.findings)}">{call}</th>'
    rows = "</tr>\n<tr>".join(map(_finding, answer.findings))
    return f"<tbody><tr>{head}{rows}</tr></tbody>"


def _footer(version: str) -> str:
    made = f"Weightrose {_text(version)}" if version else "Weightrose"
    return (
        f"<footer><p>{made}; every figure is a field of the report, or a sum or difference of its fields where it says "
        "so.</p></footer>"
    )
