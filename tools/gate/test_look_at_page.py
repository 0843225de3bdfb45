"""Pages of plex-page in Chromium, without a window, as a reader sees them.

At two widths, light and dark, a test clicks a pair, an entry and a bar, goes by the keyboard, and
reads what is shown then, which must be what plex-why and plex-load say. A page must be readable
without scripts, ask for no other file, and show names and texts as they are, whatever they have in
them. One of 256 entries and some 19,000 statements must be there within 2 seconds of processor
time, in one of three tries, or within as much more as this machine is slower than another one
(measured.py), and have 20 MB at most. One of 128 entries that use the same 100 variables, whose
pairs have 100 conflicts each, must have 1 MB at most. Of a pair with more than 100 conflicts the
others are drawn when they are asked for. With `--write` the pictures of docs/pictures are taken.
CHROMIUM names another browser; where there is none, all this is left out.

The data and the boxes of some pages are read back without a browser, as page_text.py says it.
"""
from __future__ import annotations

import itertools
import pathlib
import shutil
import subprocess
import tempfile
from typing import Iterator, Optional, Sequence

import pytest

from gate import browser, harness, page_text
from gate.checking import EXAMPLES, ROOT, TOOLS, Tally, check, leave_out
from gate.makers import tool_cases, wide_exchange
from measure import measured

# One process has the browser, and so all tests that look at pages with it.
BROWSER = pytest.mark.xdist_group("browser")

GUIDE = EXAMPLES / "guide" / "which_change"
SWITCH, CALLED = EXAMPLES / "switch", 47  # an exchange, and a bar of the forlopp of its wrong call
PICTURES = ROOT / "docs" / "pictures"
Size = tuple[int, int, bool]
SIZES: Sequence[Size] = ((1400, 900, False), (1400, 900, True), (420, 800, False), (420, 800, True))
SECONDS, BYTES, TRIES = 2.0, 20_000_000, 3
# So many entries that use so many variables, the bytes of their page, and how many reasons of a
# pair are drawn at once.
COMMON, COMMON_BYTES, MANY, AT_ONCE = (128, 100), 1_000_000, (2, 150), 100
LEAST, TESTS, LEAST_WIDE = 161, 11, 8  # looks, the tests that have them, and those of a wide page
LONGEST = 300  # seconds of one call
STRANGE_NAME = "a <b> & \"c' .plex"
STRANGE = b"""! </script><script>document.title = 'taken'</script> <img src=x onerror="alert(1)"> \xff\xfe & &amp;
! \x1b[2J\x1b]0;x\x07\x9b " ' LONG
SIGNAL TICK SINGLE BUFFERED B DATA 0;
BLOCK K; DECLARE; VARIABLE N WIDTH 32; SURVEY; RECEIVE TICK; PROGRAM;
ENTER TICK; N = N + 1; EXIT; ! <i>here</i>
END BLOCK;
""".replace(  # noqa: E501
    b"LONG", b"y" * 4096
)
TOLD = "document.getElementById('told').innerText"
LINES = "Array.from(document.querySelectorAll('{}')).map((e) => Number(e.id.slice(1)))"
# The bars of the drawing with the part of the time that is in view, and where bars begin and end.
RULE, EDGE = 74, 8
DRAWN = """new Promise((done) => requestAnimationFrame(() => setTimeout(() => {
  const svg = document.querySelector("svg.drawing");
  const bars = JSON.parse(document.getElementById("data").textContent).play.bars;
  const boxes = Array.from(svg.querySelectorAll("rect.bar")).map((box) => [
    Number(box.dataset.bar), Number(box.getAttribute("x")), Number(box.getAttribute("width"))]);
  done({boxes: boxes, from: bars.from, to: bars.to, since: Number(svg.dataset.from),
    until: Number(svg.dataset.to), width: Number(svg.getAttribute("width"))});
}, 50)))"""
APART = """(() => { const [one, other] = ["#told", "#pairs .wide"].map((name) =>
  document.querySelector(name).getBoundingClientRect());
  return one.left >= other.right || other.left >= one.right ||
    one.top >= other.bottom || other.top >= one.bottom;
})()"""
LIT = "document.querySelector('#lines .first, #lines .both') !== null"
CLICKS = 5  # a click may miss what moves meanwhile
IN_TEXT = """(() => { const box = document.getElementById("lines").getBoundingClientRect();
  const line = document.querySelector("#lines .first, #lines .both").getBoundingClientRect();
  return line.top >= box.top && line.bottom <= box.bottom; })()"""
UNCUT = (
    "Array.from(document.querySelectorAll('.plain')).every((e) => e.scrollWidth <= e.clientWidth)"
)
CUT_HEADS = (
    "Array.from(document.querySelectorAll('#table .later span'))"
    ".filter((e) => e.scrollHeight > e.clientHeight).map((e) => e.textContent)"
)
FLOW = (
    "Array.from(document.querySelectorAll('.flow a[data-row]')).map("
    "(e) => JSON.parse(e.dataset.row))"
)
DASHED = (
    "Array.from(document.querySelectorAll('.flow .arrow')).filter("
    "(e) => getComputedStyle(e).strokeDasharray !== 'none').length"
)
WITHIN = """(() => { const svg = document.querySelector("svg.drawing").getBoundingClientRect();
  return Array.from(document.querySelectorAll("svg.drawing text")).every((one) => {
    const box = one.getBoundingClientRect();
    return box.right <= svg.right && box.left >= svg.left; });
})()"""
LIT = LINES.format("#lines .first, #lines .later, #lines .both")


def wrong_page(
    place: pathlib.Path, exchange: pathlib.Path, signals: Optional[pathlib.Path], *more: str
) -> Optional[str]:
    """Makes a page, and tells what is wrong with how that ended."""
    words: list[str | pathlib.Path] = [
        TOOLS / "bin" / "plex-page",
        exchange,
        *([signals] if signals else []),
        "-o",
        place,
        *more,
    ]
    done = subprocess.run(
        words,
        stdin=subprocess.DEVNULL,
        stdout=subprocess.PIPE,
        stderr=subprocess.PIPE,
        timeout=LONGEST,
    )
    is_right = (done.returncode, done.stdout, done.stderr) == (0, b"", b"")
    return None if is_right else f"plex-page: {done.returncode}, {done.stderr[-300:]!r}"


class Look:
    """Looks at pages in a folder with a browser."""

    def __init__(
        self, window: browser.Browser, folder: pathlib.Path, tally: Optional[Tally] = None
    ) -> None:
        self.window, self.folder, self.tally = window, folder, tally
        self.seen, self.wrong = 0, list[str]()

    def done(self, what: str = "looks at pages", least: float = LEAST / TESTS) -> None:
        """Counts what was looked at, and tells what is wrong."""
        if self.tally:
            self.tally.add(what, {"looks": self.seen}, {"looks": least})
        check(*self.wrong)

    def need(self, holds: object, told: str) -> None:
        """Counts what is looked at, and notes what does not hold."""
        self.seen += 1
        if not holds:
            self.wrong.append(told)

    def shows(self, words: Sequence[str], told: str) -> None:
        """The page must show these words."""
        text = " ".join(self.window.value(TOLD).split())
        for word in words:
            self.need(
                " ".join(word.split()) in text,
                f"{told}: it does not show {word!r}, but {text[:300]!r}",
            )

    def page(self, exchange: pathlib.Path, signals: Optional[pathlib.Path], name: str) -> str:
        """Makes a page and gives its address."""
        place = self.folder / name
        told = wrong_page(place, exchange, signals)
        self.need(told is None, str(told))
        return place.as_uri()

    def at_a_size(self, address: str, size: Size) -> None:
        """A reader with a window of a size."""
        width, height, is_dark = size
        self.window.size(width, height, is_dark)
        self.window.open(address)
        self.need(
            self.window.value("document.documentElement.scrollWidth <= window.innerWidth"),
            f"{size}: the page is wider than the window",
        )
        papers = self.window.value(
            "[getComputedStyle(document.body).backgroundColor,"
            " getComputedStyle(document.body).color]"
        )
        self.need(
            (sum(numbers(papers[0])) < sum(numbers(papers[1]))) == is_dark, f"{size}: {papers}"
        )
        self.need(
            "Choose a pair" in self.window.value(TOLD), f"{size}: no word of what can be chosen"
        )
        self.pair()
        self.bar()
        self.drawn()
        self.searched()
        self.entry()
        self.keys()
        self.laid_out(size)

    def pair(self) -> None:
        """A click at a pair."""
        self.window.click("#table tbody tr:nth-child(3) td:nth-of-type(3)")
        why = subprocess.run(
            [TOOLS / "bin" / "plex-why", "exchange.plex", "2", "2"],
            cwd=GUIDE,
            stdout=subprocess.PIPE,
            timeout=LONGEST,
            check=True,
        ).stdout.decode()
        lines = [line for line in why.split("\n") if "exchange.plex:" in line]
        told = [line.split("exchange.plex:")[1] for line in lines] + [
            why.split("what helps: ")[1].split("\n")[0]
        ]
        self.shows(
            ["NEVER VARIABLE FEES.TOTAL", "first 2 BILL FEES", "later 2 BILL FEES", *told],
            "pair 2 2",
        )
        wanted = sorted({int(line.split("exchange.plex:")[1].split(":")[0]) for line in lines})
        self.need(
            self.window.value(LIT) == wanted,
            f"pair 2 2: {self.window.value(LIT)} are lit, and not {wanted}",
        )
        self.need(self.window.value("location.hash") == "#pair=2,2", "pair 2 2: its address")

    def bar(self) -> None:
        """Clicks at a bar and at a time of waiting."""
        self.window.click('[data-bar="9"]')
        self.shows(
            [
                "Job 10: BILL FEES",
                "values 0",
                "forlopp 10",
                "10005 statements",
                "came with line 11",
                "PAIR 1 2 NEVER VARIABLE FEES.RATE",
            ],
            "bar 9",
        )
        self.window.click("[data-wait]:nth-last-of-type(1)")
        self.shows(["The window stood still"], "a time of waiting")

    def drawn(self) -> None:
        """The bars that are in view are where their times say, at first and nearer."""
        for key, code in (("0", 48), ("+", 187), ("+", 187)):
            self.window.value("document.querySelector('svg.drawing').focus()")
            self.window.key(key, code)
            told = self.window.value(DRAWN)
            least = 5 if key == "0" else 2
            self.need(len(told["boxes"]) >= least, f"{len(told['boxes'])} bars are drawn")
            for number, left, width in told["boxes"]:
                begin, end = told["from"][number], told["to"][number]
                scale = (told["width"] - RULE - EDGE) / (told["until"] - told["since"])
                wanted = max(RULE, RULE + scale * (begin - told["since"]))
                last = min(told["width"] - EDGE, RULE + scale * (end - told["since"]))
                self.need(
                    abs(left - wanted) < 0.1 and abs(width - max(1.5, last - wanted - 0.5)) < 0.1,
                    f"bar {number} is at {left}, {width} wide, and not at {wanted} to {last}",
                )
            self.need(self.window.value(WITHIN), f"key {key}: a text of the time line is cut")
        self.need(told["until"] - told["since"] < told["to"][-1] / 2, "+ does not zoom")

    def searched(self) -> None:
        """A word that is looked for."""
        self.window.value("document.querySelector('#time input').focus()")
        self.window.ask("Input.insertText", text="bill")
        self.window.key("Enter", 13)
        self.shows(["BILL FEES"], "a search")
        count = self.window.value("document.querySelector('#time .found').textContent")
        self.need(count.startswith("1 of "), f"a search tells {count!r}")

    def laid_out(self, size: Size) -> None:
        """What is chosen covers nothing, the text goes to it, and no table is cut."""
        for _ in range(CLICKS):
            self.window.click("#table tbody tr:nth-child(3) td:nth-of-type(3)")
            if self.window.value(LIT):
                break
        apart = self.window.value(APART)
        self.need(apart, f"{size}: the panel covers the table")
        self.need(self.window.value(IN_TEXT), f"{size}: the text does not go to the statements")
        if size[0] >= 1400:
            self.need(self.window.value(UNCUT), f"{size}: a table is cut")

    def columns(self) -> None:
        """The names above the columns of the table are whole."""
        exchange = SWITCH / "exchange.plex"
        self.window.open(self.page(exchange, None, "columns.html"))
        cut = self.window.value(CUT_HEADS)
        self.need(not cut, f"names of columns are cut: {cut}")

    def call_flow(self) -> None:
        """The call flow of a forlopp has the arrows of plex-chart, and answers are dashed."""
        exchange, signals = SWITCH / "exchange.plex", SWITCH / "wrong_call" / "signals.txt"
        self.window.open(self.page(exchange, signals, "switch.html") + f"#bar={CALLED}")
        drawn = self.window.value(FLOW)
        wanted = page_text.arrows_of(str(exchange), signals.read_bytes(), 1)
        self.need(len(wanted) > 20, f"the forlopp has {len(wanted)} arrows")
        for one, other in itertools.zip_longest(drawn, wanted):
            self.need(one == other, f"the call flow has {one} and not {other}")
        dashed = self.window.value(DASHED)
        answers = sum(row[0] == "answer" for row in wanted)
        self.need(dashed == answers > 0, f"{dashed} arrows are dashed, of {answers} answers")

    def entry(self) -> None:
        """A click at an entry."""
        self.window.click('[data-entry="1"]')
        self.shows(["Entry 1: PRICE FEES, level B", "WRITE VAR FEES.RATE"], "entry 1")
        reach = self.window.value(LINES.format("#lines .reach"))
        self.need(reach == [19, 20, 21], f"entry 1: the lines {reach} are lit")

    def keys(self) -> None:
        """From the first place of the table two to the right and one down, chosen, and let go."""
        self.window.value("document.querySelector('#table td').focus()")
        for key in ("ArrowRight", "ArrowRight", "ArrowDown", "Enter"):
            self.window.key(key, 13 if key == "Enter" else 0)
        self.shows(["Pair 1 2: never together", "RATE = N;"], "keys")
        self.window.key("Escape", 27)
        self.need(
            "Choose a pair" in self.window.value(TOLD) and not self.window.value(LIT),
            "keys: Escape does not let go",
        )
        self.window.value("document.querySelector('svg.drawing').focus()")
        for key in ("Home", "ArrowRight", " "):
            self.window.key(key, 32 if key == " " else 0)
        self.shows(["Job 2: CALL FEES"], "keys: the second bar")

    def by_address(self, address: str) -> None:
        """Addresses with a choice."""
        self.window.open(address + "#pair=1,2")
        self.shows(["Pair 1 2: never together"], "an address of a pair")
        self.window.open(address + "#pair=99,2")
        self.shows(["Choose a pair"], "an address of no pair")

    def without_scripts(self, address: str) -> None:
        """A reader whose browser runs no scripts."""
        self.window.open(address, scripts=False)
        text = self.window.value("document.body.textContent")
        for word in (
            "Pairs of entries",
            "never together: a variable",
            "NEVER VARIABLE FEES.TOTAL",
            "TOTAL = TOTAL + S;",
            "worker 4",
            "2 BILL FEES",
        ):
            self.need(word in text, f"without scripts: no {word!r}")
        self.need(
            self.window.value("document.getElementById('told').hidden"),
            "without scripts: it asks for a choice",
        )

    def stands_alone(self, name: str) -> None:
        """The page asks for no other file."""
        text = (self.folder / name).read_text()
        for word in ("http:", "https:", "<link", "src=", "@import", "url("):
            self.need(word not in text, f"the page has {word}")

    def strange(self) -> None:
        """A name and a text with all that a page may take for its own."""
        place = self.folder / STRANGE_NAME
        place.write_bytes(STRANGE)
        address = self.page(place, None, "strange.html")
        self.window.size(1400, 900)
        self.window.open(address)
        self.need(
            self.window.value("document.title") == STRANGE_NAME,
            f"the title is {self.window.value('document.title')!r}",
        )
        self.need(
            self.window.value("document.querySelector('h1').innerText") == STRANGE_NAME,
            "the heading is not the name",
        )
        first = STRANGE.split(b"\n")[0].decode("utf-8", "replace")
        self.need(
            self.window.value("document.getElementById('L1').textContent") == first,
            "the first line is not as it is",
        )
        second = self.window.value("document.getElementById('L2').textContent")
        self.need(
            second.startswith("! \x1b[2J") and second.endswith("yy .."),
            f"line 2 is {second[:20]!r}",
        )
        self.need(
            self.window.value("document.documentElement.scrollWidth <= window.innerWidth"),
            "a long line makes the page wider than the window",
        )
        self.need(
            self.window.value(
                "document.querySelectorAll('#lines div div > *, img, main script').length"
            )
            == 0,
            "the text has become a part of the page",
        )
        self.window.click("#table td")
        self.shows(["NEVER VARIABLE K.N"], "a strange text")

    def wide(self) -> None:
        """A page of a large exchange."""
        for name, content in zip(("wide.plex", "wide.txt"), wide_exchange.made()):
            (self.folder / name).write_bytes(content)
        address = self.page(self.folder / "wide.plex", self.folder / "wide.txt", "wide.html")
        size = (self.folder / "wide.html").stat().st_size
        self.need(size <= BYTES, f"the page of a large exchange has {size} bytes")
        times: list[float] = []
        self.window.size(1400, 1000)
        for _ in range(TRIES):
            times.append(self.window.open(address))
            most = SECONDS * measured.pace()
            if times[-1] <= most:
                break
        self.need(
            times[-1] <= most,
            f"the page of a large exchange opens in {min(times):.2f} and not {most:.2f} s",
        )
        self.window.click("#table tbody tr:nth-child(6) td:nth-of-type(5)")
        self.shows(["Pair 5 4: never together", "NEVER VARIABLE B1."], "a pair of a large exchange")
        self.window.value(
            "document.querySelector('#table tbody tr:nth-child(250)').scrollIntoView()"
        )
        places = "document.querySelectorAll('#table tr:nth-child(250) td').length"
        came = self.window.comes_to(places, 256)
        self.need(came == 256, f"a row far below gets {came} places")
        self.window.click("#table tbody tr:nth-child(250) td:nth-of-type(248)")
        self.shows(["Pair 249 247:"], "a pair far below")
        self.window.click('[data-entry="7"]')
        self.shows(["Entry 7: S7 B1"], "an entry of a large exchange")
        print(f"{size / 1e6:.1f} MB, {min(times):.2f} s")

    def common(self, name: str, entries: int, variables: int) -> str:
        """The address of a page of entries that use the same variables."""
        (self.folder / name).mkdir()
        harness.write_files(self.folder / name, tool_cases.common_variables(entries, variables))
        return self.page(self.folder / name / "E", None, f"{name}.html")

    def small(self) -> None:
        """Many pairs with many conflicts, each of which stands in the page once."""
        self.common("common", *COMMON)
        size = (self.folder / "common.html").stat().st_size
        self.need(
            size <= COMMON_BYTES,
            f"the page of {COMMON[0]} entries that use {COMMON[1]} variables has {size} bytes",
        )

    def many_conflicts(self) -> None:
        """A pair with many conflicts, of which the first ones are drawn at first."""
        self.window.open(self.common("many", *MANY))
        drawn = "document.querySelectorAll('#told h3').length"
        last = f"NEVER VARIABLE K.V{MANY[1] - 1}"
        self.window.click("#table tbody tr:nth-child(1) td:nth-of-type(2)")
        self.shows(
            [
                "Pair 0 1: never together",
                f"NEVER VARIABLE K.V{AT_ONCE - 1}",
                f"{MANY[1] - AT_ONCE} more",
            ],
            "many conflicts",
        )
        self.need(
            self.window.value(drawn) == AT_ONCE,
            f"{self.window.value(drawn)} conflicts are drawn at first",
        )
        self.window.value("document.querySelector('#told button.more').click()")
        self.shows([last, f"a field of a file for V{MANY[1] - 1}"], "the other conflicts")
        self.need(
            self.window.value(drawn) == MANY[1],
            f"{self.window.value(drawn)} conflicts are drawn at last",
        )


def numbers(colour: str) -> list[int]:
    """The parts of a colour."""
    return [int(word) for word in colour[4:-1].split(",")[:3]]


@pytest.fixture(scope="module")
def window() -> Iterator[browser.Browser]:
    """One browser for all tests."""
    if not browser.find():
        leave_out("there is no Chromium")
    with browser.Browser() as opened:
        yield opened


@pytest.fixture(scope="module")
def room(plex: pathlib.Path, conflicts: pathlib.Path) -> Iterator[pathlib.Path]:
    """A folder with the texts of the guide, and their page, page.html."""
    with tempfile.TemporaryDirectory() as name:
        for file in ("exchange.plex", "signals.txt"):
            shutil.copyfile(GUIDE / file, pathlib.Path(name, file))
        yield pathlib.Path(name)


@pytest.fixture
def look(window: browser.Browser, room: pathlib.Path, tally: Tally) -> Look:
    """Looks at pages."""
    return Look(window, room, tally)


@pytest.fixture
def address(look: Look) -> str:
    """The address of the page of the guide."""
    return look.page(look.folder / "exchange.plex", look.folder / "signals.txt", "page.html")


@pytest.mark.parametrize("size", SIZES, ids=["wide", "wide, dark", "narrow", "narrow, dark"])
@pytest.mark.counted(TESTS)
@BROWSER
def test_at_a_size(look: Look, address: str, size: Size) -> None:
    """A window of a size."""
    look.at_a_size(address, size)
    look.done()


@pytest.mark.counted(TESTS)
@BROWSER
def test_columns(look: Look) -> None:
    """The table of a whole exchange."""
    look.columns()
    look.done()


@pytest.mark.counted(TESTS)
@BROWSER
def test_by_address(look: Look, address: str) -> None:
    """Addresses with a choice."""
    look.by_address(address)
    look.done()


@pytest.mark.counted(TESTS)
@BROWSER
def test_without_scripts(look: Look, address: str) -> None:
    """A browser that runs no scripts."""
    look.without_scripts(address)
    look.done()


@pytest.mark.counted(TESTS)
@BROWSER
def test_stands_alone(look: Look, address: str) -> None:
    """A page that asks for no other file."""
    look.stands_alone("page.html")
    look.done()


@pytest.mark.counted(TESTS)
@BROWSER
def test_strange(look: Look) -> None:
    """A name and a text with all that a page may take for its own."""
    look.strange()
    look.done()


@pytest.mark.counted(TESTS)
@BROWSER
def test_call_flow(look: Look) -> None:
    """The call flow of a forlopp, beside that of plex-chart."""
    look.call_flow()
    look.done()


@pytest.mark.counted(TESTS)
@BROWSER
def test_many_conflicts(look: Look) -> None:
    """Pages of pairs with many conflicts."""
    look.small()
    look.many_conflicts()
    look.done()


@pytest.mark.counted(1)
@pytest.mark.alone
def test_wide(look: Look) -> None:
    """A page of a large exchange, whose time is measured."""
    look.wide()
    look.done("looks at a wide page", LEAST_WIDE)


def compare_page(folder: pathlib.Path, case: page_text.Case) -> None:
    """Makes a page of the first jobs of a run, and reads it back."""
    page = folder / "page.html"
    check(wrong_page(page, *case, "--jobs", str(page_text.JOBS)))
    check(*page_text.read_back(page, *case))


def test_read_back(plex: pathlib.Path, folder: pathlib.Path) -> None:
    """The page of the guide has what the exchange and its run have."""
    compare_page(folder, page_text.Case(GUIDE / "exchange.plex", GUIDE / "signals.txt"))


@pytest.mark.by_chance(page_text.MADE)
def test_read_back_made(plex: pathlib.Path, folder: pathlib.Path, seed: str, number: int) -> None:
    """So has one of an exchange made by chance."""
    compare_page(folder, page_text.made_case(folder, seed, number))


def test_options(plex: pathlib.Path, folder: pathlib.Path) -> None:
    """The time line is that of so many workers and jobs, and no input is lost."""
    page, files = folder / "page.html", (GUIDE / "exchange.plex", GUIDE / "signals.txt")
    check(wrong_page(page, *files, "--workers", "2", "--jobs", "5"))
    play = page_text.data_of(page.read_text())["play"]
    assert (play["workers"], play["jobs"]) == (2, 5)
    copy = folder / "E"
    shutil.copyfile(files[0], copy)
    assert "would be lost" in str(wrong_page(copy, copy, files[1]))
    assert copy.read_bytes() == files[0].read_bytes()


@BROWSER
def test_pictures(window: browser.Browser, room: pathlib.Path, pytestconfig: pytest.Config) -> None:
    """The documents have pictures of a page with a pair that is chosen, and of its time line;
    `--write` takes them.
    """
    if pytestconfig.option.write:
        take_pictures(window, room)
    for name in ("page_pair.png", "page_time.png"):
        assert (PICTURES / name).is_file()


def take_pictures(window: browser.Browser, folder: pathlib.Path) -> None:
    """Takes the pictures."""
    address = Look(window, folder).page(GUIDE / "exchange.plex", GUIDE / "signals.txt", "page.html")
    window.size(1400, 1000)
    window.open(address + "#pair=2,2")
    window.picture(PICTURES / "page_pair.png")
    window.size(1400, 760, True)
    window.open(address + "#bar=10")
    window.value("document.getElementById('time').scrollIntoView()")
    window.picture(PICTURES / "page_time.png")
