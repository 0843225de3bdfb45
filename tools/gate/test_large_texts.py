"""Time and memory of large files, and of texts that are dear for the programs or for the tools.

A large file (large_cases.py) is of one kind. Told is what was wrong, the time of the processor,
that time beside the one that `wc -l` takes for the same files, and the memory beside the size of
all files. Each is run with a quarter of its size too. A case fails where an answer is not the
wanted one, where the memory is over 60 times the files, and where four times the size take more
than eight times the time, however often both are measured (5 times).

Each product (product_texts.py) is a right text whose cost may be the product of two numbers. It is
run by `single`, by `run` with 1, 4 and 64 workers and with its certificate, by `analyse` and by
`certify`; and with a certificate that has more facts, where a product tells of one. All its reports
must be the same, but for what such a certificate lacks, and each of these runs has a bound: two
seconds, and 64 megabytes beside 60 times the files and what is written. Those that are known to be
above it stand in known_costs.txt with their figures, and fail where they get worse; `--write`
measures them all, and writes that file.

The tools for users have texts of their own (tool_cases.py), each with a bound.

In the gate each run has a figure of its own too, in case_costs.txt, or unproved_costs.txt for a
program that is not proved, and fails where it takes more than twice that time, or one and a half
times its memory, or sleeps; `--write` measures them all.

The gate runs some cases of four megabytes, and the products in smaller sizes, which takes less than
two minutes of the processor. With `--whole` all are run in full size, which takes half an hour, as
some runs of products are known to take minutes.
"""
from __future__ import annotations

import functools
import pathlib
import tempfile
from typing import Any, Callable, Iterator, NamedTuple, Optional, Sequence

import pytest

from gate import costs, harness, proved
from gate.checking import TOOLS, check, check_enough
from gate.makers import large_cases, product_texts, tool_cases
from measure import measured
from measure.measured import Measure
from plextools.limits import MOST_BYTES

pytestmark = pytest.mark.alone

KNOWN = pathlib.Path(__file__).resolve().parent / "known_costs.txt"
SIZES = ("gate", "whole")
LEAST = {"gate": 196, "whole": 275}

# large files

IN_GATE = 4 * 1024 * 1024
MOST_TIMES, MOST_SECONDS = 60, 120
STEP, LINEAR, SHORT = 4, 8, 0.1
# So often both sizes are measured anew, one behind the other: the pace of a machine may change.
PAIRS = 4
GATE_CASES = (
    "statements, too many",
    "labels",
    "shortest lines",
    "lines of one forlopp",
    "facts that flow",
)

# products: the bound of each run, and how much a known one may be above its figure

SECONDS, MEGABYTES, MEGABYTE = 2.0, 64, 1024 * 1024
WORSE, LATER, MORE, BESIDE, NEAR = 1.5, 0.5, 1.1, 16, 0.6
MOST_KNOWN = 600
WAYS = {
    "single": ["single", "E", "S"],
    "run 1": ["run", "E", "S", "--workers", "1"],
    "run 4": ["run", "E", "S", "--workers", "4"],
    "run 64": ["run", "E", "S", "--workers", "64"],
    "certify": ["certify", "E"],
    "with certificate": ["run", "E", "S", "--cert", "F"],
    "analyse": ["analyse", "E"],
    "with more facts": ["run", "E", "S", "--cert", "G"],
}
HEAD = """# The runs of product_texts.py that take more than their bound, or nearly so much, as
# `pytest-3 test_large_texts.py -k known_costs --write` measured them: the size (the one of the
# gate, or the whole one), the seconds of the processor, the megabytes, and which run of which text.
# A run fails where it gets worse. A line is to be left out when its run is within the bound."""
ENDS = {"certify": b"END CERTIFICATE\n", "analyse": b"END PAIRS\n"}


class Cost(NamedTuple):
    """The seconds of the processor and the megabytes that a run is known to take."""

    seconds: float
    megabytes: float


class Machine:
    """Measures runs in a folder, at the pace that this machine has beside that of the known
    figures.
    """

    def __init__(self, plex: pathlib.Path, folder: pathlib.Path, known: costs.Costs) -> None:
        self.plex, self.folder, self.pace = plex, folder, measured.pace()
        self.costs, self.now, self.worse_runs = known, costs.Machine(), 0

    def measured(self, words: Sequence[str], most: float) -> Measure:
        """What a run took, and its status."""
        return measured.measured([self.plex, *words], self.folder, most * self.pace)

    def worse(self, name: str, run: Callable[[], Measure], came: Measure) -> Optional[str]:
        """What is worse than the figure of a run, however often it is made; once where many are
        worse.
        """
        tries = [costs.Try(came, self.now.now())]
        told = self.costs.worse(name, tries)
        while told and len(tries) < costs.TRIES and self.worse_runs < costs.MANY:
            self.now.renew()
            tries.append(costs.Try(run(), self.now.now()))
            told = self.costs.worse(name, tries)
        self.worse_runs += told is not None
        return told

    def written(self) -> pathlib.Path:
        """What the last run wrote."""
        return self.folder / measured.WRITTEN


@pytest.fixture(scope="module")
def machine(plex: pathlib.Path, pytestconfig: pytest.Config) -> Iterator[Machine]:
    """What measures, with one folder for all."""
    is_whole = pytestconfig.option.whole
    known = costs.Costs(None) if is_whole else costs.known(proved.is_proved(plex))
    with tempfile.TemporaryDirectory() as name:
        yield Machine(plex, pathlib.Path(name), known)


def large(is_whole: bool) -> dict[str, Any]:
    """The large files of the gate, or all, each with its group and name."""
    return {
        f"{group}: {case.name}": case
        for group, cases in large_cases.GROUPS.items()
        for case in cases
        if is_whole or case.name in GATE_CASES
    }


def ways_of(product: Any) -> list[str]:
    """The runs of a product."""
    return [way for way in WAYS if product.more or way != "with more facts"]


def pytest_generate_tests(metafunc: pytest.Metafunc) -> None:
    """One test for each large file, and for each run of a product."""
    if "large_case" in metafunc.fixturenames:
        cases = large(metafunc.config.option.whole)
        metafunc.parametrize("large_case", cases.values(), ids=list(cases))
    if "way" in metafunc.fixturenames:
        runs = [(product, way) for product in product_texts.PRODUCTS for way in ways_of(product)]
        names = [f"{way}, {product.name}" for product, way in runs]
        metafunc.parametrize(("product", "way"), runs, ids=names, scope="module")


class Came(NamedTuple):
    """What a large file came to: its measure, the seconds of `wc`, and the bytes of its files."""

    measure: Measure
    base: float
    total: int


def run(machine: Machine, case: Any, size: int) -> Came:
    """Runs a case of a size, whose answer must be right."""
    files, wanted = case.files(size), case.told(size)
    harness.write_files(machine.folder, files)
    counted = measured.measured(["/usr/bin/wc", "-l", *files], machine.folder, MOST_SECONDS)
    words = ["load", str(size)] if case.words[0] == "load" else case.words
    came = machine.measured(words, MOST_SECONDS)
    wrote = machine.written().read_bytes()
    check(f"no end in {MOST_SECONDS} seconds" if came.status is None else None)
    is_right = came.status == case.status and wanted in (None, wrote)
    check(None if is_right else f"status {came.status} and not {case.status}, wrote {wrote[:80]!r}")
    return Came(came, max(counted.seconds, 0.0001), sum(map(len, files.values())))


def growth(machine: Machine, case: Any, size: int, seconds: float) -> float:
    """How much longer a size takes than a quarter of it, at the best of some tries."""
    times: float = seconds / run(machine, case, size // STEP).measure.seconds
    for _ in range(PAIRS):
        if times <= LINEAR:
            break
        before = run(machine, case, size // STEP).measure.seconds
        times = min(times, run(machine, case, size).measure.seconds / before)
    return times


def test_large(machine: Machine, pytestconfig: pytest.Config, large_case: Any) -> None:
    """A large file has the right answer, in time and memory that grow with its size."""
    size = min(large_case.large, MOST_BYTES if pytestconfig.option.whole else IN_GATE)
    came, base, total = run(machine, large_case, size)
    print(f"{came.seconds:.2f} s, {came.seconds / base:.0f} times wc")
    print(f"{came.memory / total:.1f} times the files")
    check(f"over {MOST_TIMES} times its files" if came.memory > MOST_TIMES * total else None)
    if came.seconds > SHORT:
        times = growth(machine, large_case, size, came.seconds)
        print(f"{times:.1f} times the time of a quarter")
        check(f"NOT LINEAR: {times:.1f} times the time of a quarter" if times > LINEAR else None)
    check(machine.worse(large_case.name, lambda: run(machine, large_case, size).measure, came))


# products


def known_costs() -> dict[tuple[str, str], Cost]:
    """What each run that is known to be above its bound takes."""
    costs = {}
    for line in KNOWN.read_text().splitlines():
        if line and not line.startswith("#"):
            size, seconds, megabytes, words = line.split(maxsplit=3)
            costs[size, words] = Cost(float(seconds), float(megabytes))
    return costs


COSTS = known_costs()


def unknown_runs() -> Iterator[str]:
    """The rows of known costs that are of no run."""
    runs = {f"{way}, {product.name}" for way in WAYS for product in product_texts.PRODUCTS}
    for size, words in known_costs():
        if size not in SIZES or words not in runs:
            yield f"{KNOWN.name}: {size} .. {words}: there is no such run"


class Bound:
    """What a run may take."""

    def __init__(self, files: int, known: Optional[Cost]) -> None:
        self.known, self.files = known, files

    def seconds(self, pace: float) -> float:
        """The seconds of the processor."""
        if not self.known:
            return SECONDS * pace
        return max(SECONDS, self.known[0] * WORSE + LATER) * pace

    def megabytes(self, wrote: int) -> float:
        """The memory, where so many bytes are written."""
        usual = MEGABYTES + MOST_TIMES * (self.files + wrote) / MEGABYTE
        return max(usual, self.known[1] * MORE + BESIDE) if self.known else usual

    def broken(self, came: Any, wrote: int, pace: float) -> Optional[str]:
        """What is above the bound, or None."""
        if came.seconds > self.seconds(pace):
            return f"over {self.seconds(pace):.1f} s"
        if came.memory > self.megabytes(wrote) * MEGABYTE:
            return f"over {self.megabytes(wrote):.0f} megabytes"
        return None


class Ran(NamedTuple):
    """What a run came to, what is wrong with it, and how much it wrote."""

    measure: Measure
    wrong: Optional[str]
    wrote: int


class Runs:
    """The runs of one product in one size."""

    def __init__(self, machine: Machine, product: Any, size_name: str) -> None:
        self.machine, self.product, self.size_name = machine, product, size_name
        self.size = product.sizes[SIZES.index(size_name)]
        files = product.files(self.size)
        harness.write_files(machine.folder, files)
        self.files = sum(map(len, files.values()))
        self.report: Optional[tuple[int, bytes]] = None
        self.certified: Optional[int] = None

    def words(self, way: str) -> list[str]:
        """The words of a run."""
        limit: list[str] = self.product.limit(self.size)
        return WAYS[way] + (limit if "S" in WAYS[way] else [])

    def before(self, way: str) -> None:
        """Makes what a run is compared with, or is given, where it is not there."""
        if self.report is None and way not in (*ENDS, "single"):
            self.run("single", MOST_KNOWN)
        if self.certified is None and {"F", "G"} & set(WAYS[way]):
            self.run("certify", MOST_KNOWN)

    def wanted(self, way: str) -> Optional[tuple[int, bytes]]:
        """The status and the text that a run must have, mostly those of `single`."""
        missing = self.product.more.missing(self.size) if way == "with more facts" else b""
        if way == "with certificate" and self.certified and self.certified > MOST_BYTES:
            return 9, b"CERTIFICATE line 0 TOOLARGE\n"
        return (9, b"CERTIFICATE MISSING " + missing) if missing else self.report

    def wrong(self, way: str, came: Any) -> Optional[str]:
        """What is wrong with the status and the text of a run; the first report is that of
        `single`.
        """
        wrote = self.machine.written().read_bytes()
        if came.status is None:
            return "no end"
        if way in ENDS:
            is_whole = came.status == 0 and wrote.endswith(ENDS[way])
            return None if is_whole else f"status {came.status}"
        if way == "single":
            self.report = came.status, wrote
        is_right = (came.status, wrote) == self.wanted(way) and came.status in (0, 5, 9)
        return None if is_right else f"status {came.status}, it wrote {wrote[:80]!r}"

    def run(self, way: str, most: float) -> Ran:
        """Makes a run."""
        self.before(way)
        came = self.machine.measured(self.words(way), most)
        wrong, wrote = self.wrong(way, came), self.machine.written().stat().st_size
        if way == "certify":
            self.keep_certificate(wrote)
        return Ran(came, wrong, wrote)

    def keep_certificate(self, wrote: int) -> None:
        """Keeps what was written as a certificate, and one with more facts."""
        self.certified = wrote
        certificate = self.machine.written().replace(self.machine.folder / "F")
        if self.product.more:
            more = self.product.more.added(certificate.read_bytes(), self.size)
            (self.machine.folder / "G").write_bytes(more)

    def within(self, way: str, bound: Bound) -> Ran:
        """Makes a run, and once more where it is over its bound, at the pace that the machine has
        then.
        """
        for _ in range(2):
            ran = self.run(way, bound.seconds(1) + 1)
            over = bound.broken(ran.measure, ran.wrote, self.machine.pace)
            if not over:
                break
            self.machine.pace = max(self.machine.pace, measured.pace())
        return ran._replace(wrong=over or ran.wrong)


@pytest.fixture(scope="module")
def runs(machine: Machine, pytestconfig: pytest.Config, product: Any) -> Runs:
    """The runs of a product, whose files are written once."""
    return Runs(machine, product, SIZES[pytestconfig.option.whole])


def test_product(runs: Runs, way: str) -> None:
    """A run of a product has the report of all its runs, within its bound."""
    bound = Bound(runs.files, COSTS.get((runs.size_name, f"{way}, {runs.product.name}")))
    ran = runs.within(way, bound)
    print(f"{ran.measure.seconds:.2f} s, {ran.measure.memory / MEGABYTE:.0f} megabytes")
    if bound.known:
        print(f"known with {bound.known.seconds} s and {bound.known.megabytes:.0f} megabytes")
        near = NEAR * runs.machine.pace
        if not ran.wrong and not Bound(runs.files, None).broken(ran.measure, ran.wrote, near):
            print("and is within its bound now")
    check(ran.wrong)
    name, most = f"{way}, {runs.product.name}", bound.seconds(1) + 1
    check(runs.machine.worse(name, lambda: runs.run(way, most).measure, ran.measure))


# tools for users


def broken_by_tool(case: tool_cases.ToolCase, came: Any, wrote: int, pace: float) -> Optional[str]:
    """What is wrong with a run of a tool, or None."""
    if came.status is None or came.seconds > case.seconds * pace:
        return f"over {case.seconds * pace:.1f} s"
    if came.status != case.status:
        return f"status {came.status} and not {case.status}"
    return f"wrote over {case.written:,} bytes" if wrote > case.written else None


@pytest.mark.parametrize("case", tool_cases.CASES, ids=[case.name for case in tool_cases.CASES])
def test_tool(machine: Machine, conflicts: pathlib.Path, case: tool_cases.ToolCase) -> None:
    """A tool keeps its bounds; one that is over them is run again, at the pace of then."""
    harness.write_files(machine.folder, case.files())
    tool = conflicts if case.words[0] == "plex-conflicts" else TOOLS / "bin" / case.words[0]
    words = [tool, *case.words[1:]]
    for _ in range(costs.TRIES):
        came = measured.measured(words, machine.folder, case.seconds * machine.pace * 2)
        if came.status is not None and came.seconds <= case.seconds * machine.pace:
            break
        machine.pace = max(machine.pace, measured.pace())
    page = [machine.folder / tool_cases.PAGE] if tool_cases.PAGE in case.words else []
    files = [machine.written(), *page]
    wrote = sum(path.stat().st_size for path in files if path.exists())
    print(f"{came.seconds:.2f} s, {came.memory / MEGABYTE:.0f} megabytes, {wrote:,} bytes")
    check(broken_by_tool(case, came, wrote, machine.pace))


# all of them


def figures(machine: Machine) -> Iterator[str]:
    """The rows of known_costs.txt, from what each run takes now."""
    for size in SIZES:
        for product in product_texts.PRODUCTS:
            runs = Runs(machine, product, size)
            for way in ways_of(product):
                came, wrong, wrote = runs.run(way, MOST_KNOWN)
                over = Bound(runs.files, None).broken(came, wrote, NEAR * machine.pace)
                seconds, megabytes = came.seconds / machine.pace, came.memory / MEGABYTE
                line = f"{size} {seconds:.1f} {megabytes:.0f} {way}, {product.name}"
                print(line + (f": {wrong}" if wrong else ""))
                if came.status is None or over:
                    yield line


def test_known_costs(machine: Machine, pytestconfig: pytest.Config) -> None:
    """Each row of known_costs.txt is of a run; `--write` writes them anew."""
    if pytestconfig.option.write:
        KNOWN.write_text("\n".join([*HEAD.split("\n"), *figures(machine)]) + "\n")
    check(*unknown_runs())


def figures_of_all(machine: Machine) -> Iterator[tuple[str, costs.Figure]]:
    """The name and the figure of each run of the gate, from what it takes now."""
    for case in large(False).values():
        case_run = functools.partial(run, machine, case, min(case.large, IN_GATE))
        yield case.name, costs.least(lambda: case_run().measure, costs.TURNS)
    for product in product_texts.PRODUCTS:
        runs = Runs(machine, product, "gate")
        for way in ways_of(product):
            way_run = functools.partial(runs.run, way, MOST_KNOWN)
            yield f"{way}, {product.name}", costs.least(lambda: way_run().measure, costs.TURNS)


def test_case_costs(machine: Machine, plex: pathlib.Path, pytestconfig: pytest.Config) -> None:
    """Each figure of a program is of a run of the gate; `--write` makes those of this one anew."""
    if pytestconfig.option.write:
        costs.write(dict(figures_of_all(machine)), proved.is_proved(plex))
    names = [case.name for case in large(False).values()]
    names += [
        f"{way}, {product.name}" for product in product_texts.PRODUCTS for way in ways_of(product)
    ]
    for is_proved in (True, False):
        of, known = costs.place(is_proved).name, costs.known(is_proved)
        check(*(f"{of}: {name}: there is no such run" for name in known.unknown(names)))
        check(*(f"{of}: {name} has no figure" for name in known.missing(names)))


@pytest.mark.parametrize("size", SIZES)
def test_all_cases_are_there(size: str) -> None:
    """No large file and no run of a product is lost."""
    runs = sum(len(ways_of(product)) for product in product_texts.PRODUCTS)
    check_enough("cases", len(large(size == "whole")) + runs + len(tool_cases.CASES), LEAST[size])
