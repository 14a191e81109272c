"""The page in a real browser: widths, dark screens, contrast, print.

Run from the repository's root with WEIGHTROSE_LIBRARY and PYTHONPATH set; needs chromium and poppler-utils.
Screenshots go to target/tests/page/. Ends with 1 where a check fails, with 2 where a program is missing.
"""

from __future__ import annotations

import html
import html.parser
import json
import shutil
import subprocess
import sys
import tempfile
import unicodedata
from collections import Counter
from pathlib import Path
from typing import Any, Dict, List, Optional, Tuple

import books
import shown
from weightrose import Book, library, read_folder
from weightrose.command import view_of
from weightrose.inputs import BookInput, ScheduleInput
from weightrose.page import View, page

OUT = Path("target/tests/page")
PROGRAMS = ("chromium", "pdftotext", "pdftoppm")
BROWSER = ("chromium", "--headless=new", "--no-sandbox", "--disable-gpu", "--hide-scrollbars", "--no-first-run")
DARK = "--blink-settings=preferredColorScheme=0"
WIDTHS = (360, 800, 1280, 1600)
LEAST_CONTRAST = 4.5
LEAST_DRAWN = 2
POINTS_OF_MARGIN = 14 / 25.4 * 72

# Runs in a copy of the page, in a frame of a page that keeps what it measured.
MEASURE = """
(() => {
  const seen = e => !e.closest('.defs') && ![e, e.closest('thead')].some(
    x => x && getComputedStyle(x).clipPath !== 'none');
  const all = [...document.body.querySelectorAll('*')].filter(e => e.tagName !== 'SCRIPT' && seen(e));
  const said = e => e.tagName + '.' + (e.getAttribute('class') || '') + ' ' + e.textContent.trim().slice(0, 40);
  const numbers = c => (c.match(/[\\d.]+/g) || []).map(Number);
  const light = c => {
    const [r, g, b] = numbers(c).map(v => v / 255).map(v => v <= .03928 ? v / 12.92 : ((v + .055) / 1.055) ** 2.4);
    return .2126 * r + .7152 * g + .0722 * b;
  };
  const ground = e => {
    for (; e; e = e.parentElement) {
      const c = getComputedStyle(e).backgroundColor, n = numbers(c);
      if (n.length === 3 || n[3] === 1) return c;
    }
    return 'rgb(255, 255, 255)';
  };
  const under = t => [...t.parentElement.querySelectorAll('rect')].filter(r => {
    const x = t.getBoundingClientRect(), y = r.getBoundingClientRect();
    return y.left <= x.left && x.right <= y.right;
  }).map(r => getComputedStyle(r).fill)[0];
  const contrast = (a, b) => (Math.max(a, b) + .05) / (Math.min(a, b) + .05);
  const lines = e => [...e.childNodes].some(n => n.nodeType === 3 && n.data.trim());
  const texts = all.filter(e => lines(e) && e.tagName !== 'text');
  const labels = all.filter(e => e.tagName === 'text' && e.getBoundingClientRect().width);
  const contrasts = texts.map(e => [contrast(light(getComputedStyle(e).color), light(ground(e))), said(e)]).concat(
    labels.map(e => [under(e) ? contrast(light(getComputedStyle(e).fill), light(under(e))) : 0, said(e)]));
  const drawn = all.filter(e => e.matches('rect.excess, rect.group, rect.a3')).map(
    e => [e.getBoundingClientRect().width, said(e)]);
  const least = pairs => pairs.reduce((a, b) => b[0] < a[0] ? b : a, [99, '']);
  const cells = all.filter(e => e.matches('th, td, caption, h1, h2, h3, p, li, data'));
  const root = document.documentElement;
  const right = e => e.getBoundingClientRect().right;
  parent.document.documentElement.setAttribute('data-' + window.name, JSON.stringify({
    scroll: root.scrollWidth, client: root.clientWidth,
    cut: cells.filter(e => e.clientWidth && e.scrollWidth > e.clientWidth + 1
                           || right(e) > root.clientWidth + 1).map(said).slice(0, 3),
    ground: light(ground(document.body)), contrast: least(contrasts), drawn: least(drawn),
    checked: texts.length, scripts: document.scripts.length,
    levels: all.filter(e => /^H[1-6]$/.test(e.tagName)).map(e => Number(e.tagName[1])),
    dangling: [...document.querySelectorAll('a')].map(a => a.getAttribute('href')).filter(
      h => !h.startsWith('#') || !document.getElementById(h.slice(1))).slice(0, 3),
  }));
})();
"""


class Checks:
    def __init__(self) -> None:
        self.passed = 0
        self.failed: List[str] = []

    def that(self, holds: bool, said: str) -> None:
        if holds:
            self.passed += 1
        else:
            self.failed.append(said)


class Amounts(html.parser.HTMLParser):
    """The texts of all data elements."""

    def __init__(self, source: str) -> None:
        super().__init__()
        self.found: List[str] = []
        self._inside = False
        self.feed(source)

    def handle_starttag(self, tag: str, attrs: List[Tuple[str, Optional[str]]]) -> None:
        self._inside = tag == "data"

    def handle_endtag(self, tag: str) -> None:
        self._inside = False

    def handle_data(self, data: str) -> None:
        if self._inside:
            self.found.append(data)


# Views and their pages


def view(book: Book) -> View:
    return view_of(BookInput(book.to_bytes(), book, None, book.fund.name), ScheduleInput(library.published(), None, ""))


def views() -> Dict[str, View]:
    return {
        "template": view(read_folder(books.TEMPLATE)),
        "example": view(shown.example()),
        "maximal": view(shown.maximal()),
        "without-charge": view(shown.without_charge()),
        "refused": view(shown.refused()),
    }


# The browser


def browse(*arguments: str) -> str:
    with tempfile.TemporaryDirectory() as profile:
        run = subprocess.run(
            [*BROWSER, f"--user-data-dir={profile}", *arguments],
            check=True, stdout=subprocess.PIPE, stderr=subprocess.DEVNULL, timeout=120,
        )  # fmt: skip
    return run.stdout.decode("utf-8", "replace")


def frame(source: str, width: int, height: int = 900) -> str:
    """The page in a frame: the browser's own window is no narrower than 500."""
    style = "border:0;display:block"
    return f'<iframe name="w{width}" style="{style}" width="{width}" height="{height}" srcdoc="{html.escape(source)}">'


def written(folder: Path, name: str, body: str) -> str:
    path = folder / f"{name}.html"
    path.write_text(body, encoding="utf-8")
    return path.resolve().as_uri()


def measured(folder: Path, source: str, *flags: str) -> Dict[int, Any]:
    """What MEASURE finds at each width."""
    copy = source.replace("</body>", f"<script>{MEASURE}</script></body>")
    frames = "".join(f"{frame(copy, width)}</iframe>" for width in WIDTHS)
    address = written(folder, "measured", f'<!DOCTYPE html><html><meta charset="utf-8"><body>{frames}</body></html>')
    start = browse(*flags, "--window-size=1700,1000", "--dump-dom", address).partition("<body>")[0]
    found: Dict[int, Any] = {}

    class Root(html.parser.HTMLParser):
        def handle_starttag(self, tag: str, attrs: List[Tuple[str, Optional[str]]]) -> None:
            found.update((int(name[6:]), json.loads(value or "")) for name, value in attrs if name.startswith("data-w"))

    Root().feed(start)
    return found


# Checks


def check_text(checks: Checks, name: str, source: str) -> None:
    """That nothing is fetched or run."""
    for word in ("<script", "http:", "https:", "<link", "@import", "<img", " on"):
        if word == " on":
            found = any(f" on{event}=" in source for event in ("click", "load", "error", "mouseover"))
        else:
            found = word in source
        checks.that(not found, f"{name}: has {word!r}")
    checks.that(source.count("url(") == source.count("url(#hatch)"), f"{name}: an url but the hatching's")
    checks.that(len(source.encode()) < 3_000_000, f"{name}: {len(source.encode())} bytes")


def check_layout(checks: Checks, name: str, found: Dict[int, Any], dark: bool) -> None:
    mode = "dark" if dark else "light"
    checks.that(sorted(found) == sorted(WIDTHS), f"{name}: measured at {sorted(found)}")
    for width, at in found.items():
        here = f"{name}, {width} wide, {mode}"
        checks.that(at["client"] == width and at["scroll"] <= width, f"{here}: {at['scroll']} wide")
        checks.that(not at["cut"], f"{here}: text is cut: {at['cut']}")
        checks.that(at["ground"] < 0.05 if dark else at["ground"] > 0.9, f"{here}: ground of {at['ground']:.2f}")
        contrast, worst = at["contrast"]
        checks.that(at["checked"] > 20 and contrast >= LEAST_CONTRAST, f"{here}: contrast {contrast:.2f} of {worst}")
        checks.that(at["drawn"][0] >= LEAST_DRAWN, f"{here}: an excess drawn {at['drawn'][0]:.2f} wide")
        checks.that(at["scripts"] == 1, f"{here}: {at['scripts']} scripts, and one is the check's")
        checks.that(not at["dangling"], f"{here}: links to nothing: {at['dangling']}")
        levels = at["levels"]
        steps = all(after <= before + 1 for before, after in zip(levels, levels[1:]))
        checks.that(levels[0] == 1 and levels.count(1) == 1 and steps, f"{here}: headings {levels[:20]}")


def poppler(*arguments: str) -> bytes:
    return subprocess.run(arguments, check=True, stdout=subprocess.PIPE, timeout=120).stdout


def plain(text: str) -> str:
    """Text without spaces and ligatures: names break where they wrap."""
    return "".join(unicodedata.normalize("NFKC", text).split())


class Words(html.parser.HTMLParser):
    """The words of a PDF that reach over the right margin."""

    def __init__(self, source: str) -> None:
        super().__init__()
        self.edge, self.far = 0.0, 0.0
        self.feed(source)

    def handle_starttag(self, tag: str, attrs: List[Tuple[str, Optional[str]]]) -> None:
        numbers = {name: float(value or 0) for name, value in attrs if name in ("width", "xmax")}
        if tag == "page":
            self.edge = numbers["width"] - POINTS_OF_MARGIN
        elif tag == "word":
            self.far = max(self.far, numbers["xmax"] - self.edge)


def check_print(checks: Checks, name: str, of: View, source: str, folder: Path) -> None:
    pdf = str(OUT / f"{name}.pdf")
    browse(DARK, "--no-pdf-header-footer", f"--print-to-pdf={pdf}", written(folder, "printed", source))
    text = poppler("pdftotext", "-raw", pdf, "-").decode()
    if of.report is None:
        checks.that("Refused" in text, f"{name}: print without 'Refused'")
    else:
        groups = of.report.groups.items()
        above = [top for top, lines in groups if any(line.excess for line in lines)]
        names = [of.book.counterparty_name(top) if of.book else f"#{top}" for top in above]
        lost = [text_of for text_of in names if plain(text_of) not in plain(text)]
        checks.that(not lost, f"{name}: print without the groups {lost[:3]}")
        words = Counter(word.rstrip(",") for word in text.split())
        wanted = Counter(amount.split()[0] for amount in Amounts(source).found)
        short = [amount for amount, count in wanted.items() if words[amount] < count]
        checks.that(bool(wanted) and not short, f"{name}: print lacks the amounts {short[:3]}")
    over = Words(poppler("pdftotext", "-bbox", pdf, "-").decode()).far
    checks.that(over < 1, f"{name}: print reaches {over:.1f} points over the right margin")
    check_paper(checks, name, pdf)


def check_paper(checks: Checks, name: str, pdf: str) -> None:
    """That print is light, though the browser was asked for a dark screen."""
    picture = poppler("pdftoppm", "-r", "20", "-gray", "-f", "1", "-l", "1", pdf)
    pixels = picture.split(b"\n", 3)[3]
    checks.that(sum(pixels) > 200 * len(pixels), f"{name}: print is dark, {sum(pixels) // len(pixels)} of 255")


def check_that_faults_are_found(checks: Checks, source: str, folder: Path) -> None:
    """The measuring itself, on a page with a line that is too wide and one that is too pale."""
    faults = (
        '<p style="white-space:nowrap;max-width:none">' + "wide " * 400 + "</p>"
        '<p style="color:#888;background:#777">pale</p></main>'
    )
    for width, at in measured(folder, source.replace("</main>", faults)).items():
        checks.that(at["scroll"] > width and bool(at["cut"]), f"a line that is too wide is not found at {width}")
        checks.that(at["contrast"][0] < LEAST_CONTRAST, f"text that is too pale is not found at {width}")


def shoot(folder: Path, name: str, source: str, width: int, height: int, *flags: str) -> None:
    if width < 500:
        source = f'<!DOCTYPE html><meta charset="utf-8"><body style="margin:0">{frame(source, width, height)}</iframe>'
    address = written(folder, "shot", source)
    size = f"--window-size={max(width, 500)},{height}"
    browse(*flags, size, f"--screenshot={(OUT / name).resolve()}.png", address)


def shoot_all(checks: Checks, pages: Dict[str, str], folder: Path) -> None:
    shots: Tuple[Tuple[str, str, int, int, Tuple[str, ...]], ...] = (
        ("template-light", "template", 1180, 1330, ()),
        ("example-light", "example", 1280, 2900, ()),
        ("example-dark", "example", 1280, 2900, (DARK,)),
        ("example-phone", "example", 360, 6200, ()),
        ("maximal-top", "maximal", 1280, 1600, ()),
        ("refused", "refused", 1280, 1300, ()),
    )
    for name, of, width, height, flags in shots:
        shoot(folder, name, pages[of], width, height, *flags)
        checks.that((OUT / f"{name}.png").stat().st_size > 10_000, f"{name}: no screenshot")


def run(folder: Path) -> Checks:
    checks = Checks()
    seen = views()
    pages = {name: page(of) for name, of in seen.items()}
    checks.that(seen["refused"].report is None, "the refused book is taken")
    for name, source in pages.items():
        check_text(checks, name, source)
        check_layout(checks, name, measured(folder, source), dark=False)
        check_layout(checks, name, measured(folder, source, DARK), dark=True)
        check_print(checks, name, seen[name], source, folder)
    check_that_faults_are_found(checks, pages["example"], folder)
    shoot_all(checks, pages, folder)
    return checks


def main() -> int:
    missing = [program for program in PROGRAMS if shutil.which(program) is None]
    if missing:
        print(f"page: not checked, there is no {', no '.join(missing)}: apt-get install chromium poppler-utils")
        return 2
    OUT.mkdir(parents=True, exist_ok=True)
    with tempfile.TemporaryDirectory() as folder:
        checks = run(Path(folder))
    for said in checks.failed:
        print(f"page: {said}")
    if checks.failed:
        return 1
    print(f"page: {checks.passed} checks passed")
    return 0


if __name__ == "__main__":
    sys.exit(main())
