"""Who may follow whom by plex-load, beside the program, and its figures, beside an example by hand.

- cases: which jobs may follow which, and which lists of jobs may be issued, as the tests in
  crates/core_tests/src have it, whose tables are read from their texts (but for those by another
  certificate than the exchange's own, and those with steps)
- verdicts: on exchanges made by chance each two jobs of their loads, by the verdict and the tests
  that oracle.analysis finds
- threads: on these exchanges the program itself, with their certificates, so that its first jobs
  may run at once: it starts none where no two jobs stand in its window at once, one where a run
  begins with two jobs that may run at once, and never as many as there are processors or workers;
  its runs with 2, 3 and 64 workers, and runs of two lines. The threads are counted by ptrace; where
  the system does not allow that, it is left out
- orders: the jobs come in the order of the run for each number of workers, and the load by
  `plex trace` has the same jobs
- figures: the example, and the one of load_examples.py, which also looks at loads that are told by
  a trace
"""
from __future__ import annotations

import functools
import itertools
import operator
import os
import pathlib
import random
import re
from typing import Any, Iterator, NamedTuple

import pytest

from gate import harness, load_examples
from gate.checking import ROOT, Tally, check, check_enough, leave_out
from gate.load_examples import Loads
from gate.makers import made_exchange
from gate.oracle import analysis as oracle_analysis
from gate.oracle import machine as oracle_machine
from measure import count_threads
from plextools.runs import play as load_play
from plextools.runs import report as load_report

GATE = 200
CORE = ROOT / "crates" / "core_tests" / "src"
# A run of so many jobs begins before the program knows whether its jobs are short; then each job
# may be issued beside others.
FEW_JOBS, PATIENCE, TWO_LINES = 60, 100_000, 3
LEAST_CASES, LEAST_FIGURES = 18, 17
# How many of each there must be for each exchange; so many of the exchanges must be compared.
LEAST = {"verdicts": 15, "threads": 3, "together": 1, "orders": 3}
LEAST_SHARE = 0.6

EXAMPLE = load_examples.TEXT
EXAMPLE_LINES = """AFTER 0 WORK K 6 NEW
AFTER 0 ADD K NEW
AFTER 0 ADD K NEW
AFTER 0 WORK K 1 NEW
AFTER 0 ADD K NEW
"""
# An ADD has 3 statements, and WORK of k turns 3 + 2 k: 15, 3, 3, 5 and 3, which are 29. With 4
# workers:
#   0 to 15   the first WORK and an ADD; the second ADD waits for the first one, which retires
#             behind the WORK
#  15 to 18   the second ADD and the second WORK; the third ADD waits for the second one
#  18 to 20   the second WORK and the third ADD; no other job comes
#  20 to 21   the third ADD
# With 2 workers the two are full until 20. Without the variable N: all of the first four until 15,
# and the last ADD until 18.
EXAMPLE_FIGURES: dict[str, Any] = {
    "statements": 29,
    "longest_chain": 15,
    "jobs": 5,
    "time with 1": 29,
    "time with 2": 21,
    "time with 4": 21,
    "time with 64": 21,
    "still with 2": 1,
    "still with 4": 21,
    "pair with 4": 18,
    "end with 4": 3,
    "standing with 4": 15 * 2 + 3 * 2 + 2 * 2 + 1,
    "waited for N": 18,
    "without N": 29 / 18,
    "blockers": 1,
    "entries": [("WORK", 2, 5, 15), ("ADD", 3, 3, 3)],
}


class Follows(NamedTuple):
    """Whether a job may follow another one, by a test of the crate."""

    text: str
    lines: str
    first: int
    later: int
    wanted: bool


class FollowsHolder(NamedTuple):
    """Whether a call may follow one who holds a record of a file."""

    text: str
    lines: str
    file: int
    wanted: bool


class Issues(NamedTuple):
    """What comes of so many issues of jobs."""

    text: str
    lines: str
    workers: int
    number: int
    told: str


def texts_of_crate() -> dict[str, str]:
    """The texts of the tests of the crate, each with its name."""
    text = (CORE / "texts.rt").read_text()
    return dict(re.findall(r'pub const (\w+): &str =\s*"(.*?)";', text, re.S))


def follows() -> Iterator[Follows]:
    """The tables of pairs of jobs."""
    texts = texts_of_crate()
    for test in (CORE / "pairs.rt").read_text().split("#[test]")[1:]:
        called = re.search(r"wrong_pair\(rt\.alloc\(\), (\w+), (\w+), None, &pairs\)", test)
        if called:
            for a, b, c in re.findall(r"\((\d+), (\d+), (true|false)\)", test):
                yield Follows(texts[called[1]], texts[called[2]], int(a), int(b), c == "true")


def follows_holder() -> Iterator[FollowsHolder]:
    """The test of a call that follows one who holds a record."""
    texts, pairs = texts_of_crate(), (CORE / "pairs.rt").read_text()
    holder = re.search(r"holding\(digit, Held \{ file: (\d+), number: \d+ \}\)", pairs)
    wanted = re.search(
        r"call_follows_holder.*assert_eq!\(rt; follows, Some\((true|false)\)\)", pairs, re.S
    )
    assert holder and wanted, "the test call_follows_holder is not there"
    yield FollowsHolder(texts["LINES"], texts["CALLS"], int(holder[1]), wanted[1] == "true")


def issues() -> Iterator[Issues]:
    """The tables of jobs that are issued."""
    texts = texts_of_crate()
    for name, lines, workers, listed, told in re.findall(
        r"\(\s*(\w+),\s*([\w\"]+),\s*(\d+),\s*&\[([a-z, ]+)\],"
        r"\s*Told::(\w+ \{ \w+: \d+ \}),?\s*\)",
        (CORE / "events.rt").read_text(),
    ):
        steps = listed.split(", ")
        if set(steps) == {"issue"}:
            yield Issues(texts[name], texts.get(lines, ""), int(workers), len(steps), told)


FOLLOWS, HOLDERS, ISSUES = list(follows()), list(follows_holder()), list(issues())


@functools.lru_cache(maxsize=1)
def analysed(content: bytes) -> tuple[Any, list[Any]]:
    """An exchange as oracle.analysis has it, with the summaries of its entries."""
    slow = oracle_analysis.Exchange(content)
    entries = range(len(slow.entries))
    return slow, [
        oracle_analysis.Summary(oracle_analysis.Facts(slow, entry).close()) for entry in entries
    ]


class Comparison(Loads):
    """Compares loads with the program."""

    def load(
        self,
        exchange: Any,
        signals: bytes,
        limit: int = 1_000_000,
        patience: int = 10**9,
    ) -> Any:
        """The jobs of a run."""
        return self.load_of(exchange, signals, limit, patience)

    # cases of the crate

    def begun(self, text: str, lines: str) -> tuple[Any, list[Any]]:
        """The jobs of these lines in the order in which they begin, where none retires."""
        exchange = self.exchange(text.encode())
        load = self.load(exchange, lines.encode())
        came = [job for _, ended, job in load.lines if ended == 0]
        return exchange, sorted(came, key=operator.attrgetter("level"))

    def follows(self, row: Follows) -> None:
        """Whether a job may follow another one."""
        exchange, jobs = self.begun(row.text, row.lines)
        got = load_play.Rules(exchange.conflicts).refusal(jobs[row.first], jobs[row.later]) is None
        self.need(got == row.wanted, "cases", f"job {row.later} follows job {row.first}: {got}")

    def follows_holder(self, row: FollowsHolder) -> None:
        """Whether a call follows one who holds a record."""
        exchange, jobs = self.begun(row.text, row.lines)
        names = [
            f"{block.name.text}.{name}" for block in exchange.text.blocks for name in block.files
        ]
        jobs[2].held = (names[row.file],)
        got = load_play.Rules(exchange.conflicts).refusal(jobs[2], jobs[0]) is None
        self.need(got == row.wanted, "cases", f"the call follows the holder: {got}")

    def issues(self, row: Issues) -> None:
        """Which list of jobs may be issued."""
        exchange = self.exchange(row.text.encode())
        rules = load_play.Rules(exchange.conflicts)
        player = load_play.Player(
            self.load(exchange, row.lines.encode()), rules, row.workers, False
        )
        player.arrive()
        got = f"Window {{ jobs: {row.number} }}"
        for place in range(row.number):
            job = player.next_job()
            if player.refusal(job) is not None or job is None:
                got = f"Refused {{ at: {place} }}"
                break
            player.issue(job)
        self.need(got == row.told, "cases", f"{got} and not {row.told}")

    # exchanges made by chance

    def made(self, case: Any, chance: random.Random) -> None:
        """An exchange made by chance."""
        oracle_machine.run(case.exchange, case.signals, case.limit, PATIENCE)
        exchange = self.exchange(case.exchange)
        load = self.load(exchange, case.signals, case.limit)
        self.verdicts(exchange, case.exchange, load, chance)
        self.orders(exchange, load)
        check(*self.wrong)
        self.threads(exchange, case, chance)

    def verdicts(self, exchange: Any, content: bytes, load: Any, chance: random.Random) -> None:
        """Who may follow whom."""
        slow, summaries = analysed(content)
        rules = load_play.Rules(exchange.conflicts)
        known: dict[tuple[int, int], tuple[Any, list[str]]] = {}
        pairs = list(itertools.permutations(load.ran[:60], 2))
        for first, later in chance.sample(pairs, min(60, len(pairs))):
            key = first.entry, later.entry
            if key not in known:
                one, other = (summaries[entry] for entry in key)
                known[key] = oracle_analysis.conflict(slow, one, other), list(
                    oracle_analysis.tests(slow, one, other)
                )
            wanted = passes(*known[key], first, later)
            got = rules.refusal(first, later) is None
            self.need(
                got == wanted,
                "verdicts",
                f"a job of entry {later.entry} follows one of {first.entry}: {got}",
            )

    def orders(self, exchange: Any, load: Any) -> None:
        """The order of the jobs, for each number of workers."""
        for workers in (1, 2, 3, 8, 64):
            made = load_play.play(load, load_play.Rules(exchange.conflicts), workers)
            is_so = (
                made.order == load.ran
                and made.time >= max((job.length for job in load.ran), default=0)
                and made.busy == load.statements
            )
            self.need(
                is_so and made.widest <= workers and (workers > 1 or made.time == load.statements),
                "orders",
                f"with {workers} workers",
            )
        patience = load_examples.half(load)
        traced = self.load(exchange, (self.folder / "S").read_bytes(), load.limit, patience)
        for told in load_examples.of_trace(load, traced, patience, [*self.seizes()]):
            self.need(False, "orders", told)
        same = [
            [
                (job.entry, job.values, job.forlopp, job.fault, list(job.sent), job.line)
                for job in one.ran
            ]
            for one in (load, traced)
        ]
        self.need(
            same[0] == same[1] and load.ending == traced.ending,
            "orders",
            "the trace has other jobs",
        )

    def seizes(self) -> Iterator[set[str]]:
        """The files of which each entry may seize records, by oracle.analysis."""
        slow, summaries = analysed((self.folder / "E").read_bytes())
        for summary in summaries:
            yield {slow.file_name(number) for (number,) in summary.of_kind("seize")}

    def threads(self, exchange: Any, case: Any, chance: random.Random) -> None:
        """The program starts no thread where no two jobs stand in the window of the play at once,
        and else one fewer than may run jobs at most. It starts one where a run has two jobs at
        first, and the second may follow the first.
        """
        loads = [(case.signals, workers, False) for workers in (2, 3, 64)]
        lines = [
            line
            for line in case.signals.replace(b"\r", b"").split(b"\n")
            if line.startswith(b"AFTER")
        ]
        fitting = [
            b" ".join([b"AFTER", b"0", *line.split()[2:]])
            for line in lines
            if line.split()[-2] != b"AS"
        ]
        for _ in range(TWO_LINES if len(fitting) > 1 else 0):
            loads.append((b"\n".join(chance.sample(fitting, 2)) + b"\n", 2, True))
        rules = load_play.Rules(exchange.conflicts)
        (self.folder / "C").write_bytes(
            harness.answer(os.environ["PLEX"], ["certify", "E"], self.folder)[1]
        )
        for signals, workers, is_pair in loads:
            load = self.load(exchange, signals, FEW_JOBS)
            widest = load_play.play(load, rules, workers).widest
            words = [
                os.environ["PLEX"],
                "run",
                "E",
                "S",
                "--workers",
                str(workers),
                "--jobs",
                str(FEW_JOBS),
                "--cert",
                "C",
            ]
            try:
                threads, status = count_threads.started(words, str(self.folder))
            except count_threads.NotTraced:
                leave_out("the threads of the program, as ptrace is not allowed here")
            least = int(is_pair and begin_together(load, rules))
            most = min(workers, max(2, len(os.sched_getaffinity(0)))) - 1 if widest > 1 else 0
            self.counts["together"] += least
            self.need(
                status in harness.SILENT and least <= threads <= most,
                "threads",
                f"with {workers} workers: status {status}, {threads} threads, "
                f"{widest} jobs at once",
            )

    # the example

    def example(self) -> None:
        """The figures of the example."""
        exchange = self.exchange(EXAMPLE.encode())
        load = self.load(exchange, EXAMPLE_LINES.encode())
        told: Any = load_report.figures(exchange, load, (1, 2, 4, 64), 4)
        rows = {row["workers"]: row for row in told["workers"]}
        worst = told["blockers"]["pairs"]
        got = {name: told[name] for name in ("statements", "longest_chain", "jobs")}
        got.update({f"time with {workers}": row["time"] for workers, row in rows.items()})
        got.update({f"still with {workers}": rows[workers]["stood_still"] for workers in (2, 4)})
        got["pair with 4"], got["end with 4"] = (
            rows[4]["stood_still_for"][name] for name in ("pair", "end")
        )
        got["standing with 4"] = rows[4]["jobs_in_window"] * rows[4]["time"]
        got["waited for N"], got["without N"], got["blockers"] = (
            worst[0]["waited"],
            worst[0]["speed_up_without_it"],
            len(worst),
        )
        got["entries"] = [
            (row["signal"], row["jobs"], row["least"], row["most"]) for row in told["entries"]
        ]
        for name, wanted in EXAMPLE_FIGURES.items():
            is_so = (
                abs(got[name] - wanted) < 1e-9 if isinstance(wanted, float) else got[name] == wanted
            )
            self.need(is_so, "figures", f"{name} is {got[name]} and not {wanted}")
        self.need(
            worst[0]["reason"] == "NEVER VARIABLE K.N",
            "figures",
            f"the blocker is {worst[0]['reason']}",
        )

    def second_example(self) -> None:
        """The figures of the example of load_examples.py."""
        exchange = self.exchange(load_examples.TEXT.encode())
        load = self.load(exchange, load_examples.LINES.encode())
        figures: Any = load_report.figures(exchange, load, (1, 2, 4, 64), 4)
        for name, got, wanted in load_examples.compared(figures):
            self.need(got == wanted, "figures", f"{name}: {got} and not {wanted}")


def begin_together(load: Any, rules: Any) -> bool:
    """Whether the first two jobs come with lines, and the second one may follow the first."""
    first = load.ran[:2]
    return (
        len(first) == 2
        and all(job.line is not None for job in first)
        and rules.refusal(*first) is None
    )


def passes(conflict: Any, tests: list[str], first: Any, later: Any) -> bool:
    """Whether a job may follow another one, by the words of oracle.analysis."""
    if conflict or (first.forlopp and first.forlopp == later.forlopp):
        return False
    for test in tests:
        words = test.split(" ")
        if words[0] == "FORLOPP":
            holds = first.forlopp != 0
        elif test.startswith("FIRST HOLDS NO "):
            holds = words[3] not in first.held
        elif words[0] == "LATER":
            holds = later.values[int(words[1])] != int(words[3])
        else:
            holds = first.values[int(words[1])] != (
                later.values[int(words[4])] if words[3] == "LATER" else int(words[3])
            )
        if not holds:
            return False
    return True


@pytest.fixture
def comparison(plex: pathlib.Path, conflicts: pathlib.Path, folder: pathlib.Path) -> Comparison:
    """Compares loads in a folder."""
    return Comparison(folder)


@pytest.mark.parametrize("row", FOLLOWS, ids=[f"{row.first}-{row.later}" for row in FOLLOWS])
def test_follows(comparison: Comparison, row: Follows) -> None:
    """A job follows another one where the test of the crate has it so."""
    comparison.follows(row)
    check(*comparison.wrong)


@pytest.mark.parametrize("row", HOLDERS, ids=["call"])
def test_follows_holder(comparison: Comparison, row: FollowsHolder) -> None:
    """A call follows the holder of a record where the test of the crate has it so."""
    comparison.follows_holder(row)
    check(*comparison.wrong)


@pytest.mark.parametrize("row", ISSUES, ids=[f"{row.workers} workers" for row in ISSUES])
def test_issues(comparison: Comparison, row: Issues) -> None:
    """A list of jobs is issued as the test of the crate has it."""
    comparison.issues(row)
    check(*comparison.wrong)


def test_all_cases_of_the_crate_are_there() -> None:
    """No case of the crate is lost."""
    check_enough("cases of the crate", len(FOLLOWS) + len(HOLDERS) + len(ISSUES), LEAST_CASES)


def test_example(comparison: Comparison) -> None:
    """The figures of the example are those by hand."""
    comparison.example()
    check(*comparison.wrong)
    check_enough("figures", comparison.counts["figures"], LEAST_FIGURES)


def test_second_example(comparison: Comparison) -> None:
    """So are those of the second one."""
    comparison.second_example()
    check(*comparison.wrong)
    check_enough("figures", comparison.counts["figures"], LEAST_FIGURES)


@pytest.mark.by_chance(GATE)
def test_by_chance(comparison: Comparison, seed: str, tally: Tally, number: int) -> None:
    """An exchange made by chance. One whose run is too long is passed over, and counted."""
    case = made_exchange.made_case(random.Random(f"{seed}.{number}"))
    try:
        comparison.made(case, random.Random(f"pairs {seed}.{number}"))
    except oracle_machine.TooLong:
        tally.add("compared load", {"passed over": 1}, {"exchanges": LEAST_SHARE})
        return
    least = {**LEAST, "exchanges": LEAST_SHARE}
    tally.add("compared load", {**comparison.counts, "exchanges": 1}, least)
    check(*comparison.wrong)
