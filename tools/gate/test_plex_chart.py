"""plex-chart: what it draws of examples and of exchanges made by chance, beside `plex trace` and a
second account of runs; its words, refusals and files.
"""
import os
import pathlib
import random
import re
import subprocess
import sys
import xml.etree.ElementTree as ElementTree
from collections import Counter
from typing import Any, Dict, Iterator, List, NamedTuple, Tuple, Union

import pytest

from gate import harness
from gate.checking import Tally, need_command
from gate.makers import made_exchange
from gate.oracle import machine as oracle_machine
from plextools import programs
from plextools.commands import chart as command
from plextools.commands.command_words import BY_NAME
from plextools.runs import choice
from plextools.runs.observed import MOST_STEPS
from plextools.runs.signals import lines_of
from plextools.show import chart, chart_svg, chart_text, chart_words
from plextools.text.statements import Text

TOOL = harness.ROOT / "tools" / "bin" / "plex-chart"
EXAMPLES = harness.ROOT / "examples"
PICTURE = harness.ROOT / "docs" / "pictures" / "chart.svg"
ASK, FORLOPP, FAULTS = "guide/ask", "guide/forlopp", "release_and_restart"
SOON, CASES, LEAST, PATIENCE, MOST_JOBS = harness.WHILE, 40, 15, 60_000, 400
CHOICES, LEAST_SHARE = 10, 0.25
ANSWER = "-->>"
ARROW = re.compile(r"    L(\d+)(-\)|->>|-->>|-x)L(\d+): (?:job (\d+) (F\d+): )?(.*)")
START = re.compile(r"    Note over L(\d+): job (\d+) (F\d+): (.*) \(from job (\d+)\)")
LANE = re.compile(r"    participant L(\d+) as (\w+)")
BESIDE = re.compile(r"    Note right of L(\d+): (.*)")
OVER = re.compile(r"    Note over L0(?:,L\d+)?: (.*)")
ENDS = re.compile(r" \((to job (\d+)|removed|later|never started)(?:, new F(\d+))?\)$")
CUT = re.compile(r"([\d,]+) more steps? of this job left out")
RAIL = re.compile(r'd="M([\d.]+) ([\d.]+)V([\d.]+)H([\d.]+)"')
STORED = re.compile(r"(\w+(?:\(\d+\))?): (\d+) -> (\d+)(?: \((\d+) stores\))?")
MADE: Any = made_exchange
ORACLE: Any = oracle_machine


class Told(NamedTuple):
    """How a call of plex-chart ended, and what it wrote."""

    status: int
    wrote: str
    complaint: str


class Sent(NamedTuple):
    """An arrow of a job: its sign in Mermaid, from which block to which, and the signal with its
    values.
    """

    sign: str
    source: str
    target: str
    signal: str


class Drawn(NamedTuple):
    """A job as a chart has it: its number, its forlopp, its block, its signal, by which job it was
    sent, and its arrows with the jobs to which they lead.
    """

    number: int
    forlopp: str
    block: str
    signal: str
    sender: int
    arrows: List[Sent]
    leads: List[int]


@pytest.fixture(autouse=True)
def program(plex: pathlib.Path) -> None:
    """The program that is asked, by the command and in this process."""


def told(*words: Union[str, pathlib.Path], **more: str) -> Told:
    done = subprocess.run(
        [sys.executable, TOOL, *words],
        env={**os.environ, "PYTHONIOENCODING": "utf-8", **more},
        stdin=subprocess.DEVNULL,
        capture_output=True,
        timeout=SOON,
        check=False,
    )
    assert b"Traceback" not in done.stderr, done.stderr.decode()
    return Told(done.returncode, done.stdout.decode(), done.stderr.decode())


def files(example: str) -> Tuple[str, str]:
    folder = EXAMPLES / example
    return str(folder / "exchange.plex"), str(folder / "signals.txt")


def run_of(exchange: str, signals: str, limit: int = 1_000_000) -> choice.Run:
    text = Text(exchange, pathlib.Path(exchange).read_bytes())
    lines = lines_of(text, pathlib.Path(signals).read_bytes())
    return choice.Run(exchange, signals, text, lines, limit)


def wishes(**more: Any) -> choice.Wishes:
    """What is asked for: all jobs, but for what is said."""
    usual: Dict[str, Any] = {
        "first": 1,
        "last": None,
        "forlopps": [],
        "blocks": [],
        "signals": [],
        "around": None,
        "context": 10,
        "most": MOST_JOBS,
    }
    return choice.Wishes(**{**usual, **more})


def chart_of(run: choice.Run, asked: choice.Wishes, lines: bool = False) -> chart.Chart:
    """A chart with all values."""
    chosen = choice.Chooser(run, asked).chosen()
    machine = command.observed(run, chosen, True)
    return chart.Maker(machine, chosen, chart.Look(lines, True)).chart("title")


# exchanges made by chance


class Arrows(List[Any]):
    """A list of a job of the second account that notes what is put into it or taken from it."""

    def __init__(self, job: Any) -> None:
        super().__init__()
        self.job = job

    def append(self, item: Any) -> None:
        super().append(item)
        if len(item) == 4:  # a signal of the outbox, and no caller
            signal, enter, values, _ = item
            blocks = self.job.exchange.blocks
            target = blocks[enter.block].name.text if enter is not None else "outside"
            self.job.note("-)", target, signal.name, values)

    def pop(self, place: Any = -1) -> Any:
        caller = super().pop(place)
        self.job.note(ANSWER, caller[0].block.name.text, caller[1], self.job.answer)
        return caller


class Job(oracle_machine.Job):
    """A job of the second account, which notes all of its signals."""

    def __init__(self, *words: Any) -> None:
        self.arrows: List[Sent] = []
        self.is_begun = False
        base: Any = super()
        base.__init__(*words)
        self.is_begun = True
        self.callers, self.outbox = Arrows(self), Arrows(self)

    def note(self, sign: str, target: str, signal: str, values: List[int]) -> None:
        source = self.now.block.name.text
        self.arrows.append(Sent(sign, source, target, " ".join([signal, *map(str, values)])))

    def begin(self, enter: Any, given: List[int]) -> Any:
        if self.is_begun:
            target = self.exchange.blocks[enter.block].name.text
            self.note("->>", target, enter.signal.text, given)
        base: Any = super()
        return base.begin(enter, given)


class Account(oracle_machine.Machine):
    """The second account of a run, with the signals of each job."""

    job_of = Job

    def __init__(self, *words: Any) -> None:
        base: Any = super()
        base.__init__(*words)
        self.told: List[List[Sent]] = []

    def retire(self, job: Any, fault: Any) -> None:
        self.told.append(job.arrows)
        base: Any = super()
        base.retire(job, fault)


class Reader:
    """Reads a chart that was written for Mermaid."""

    def __init__(self, lines: List[str]) -> None:
        self.jobs: List[Drawn] = []
        self.marks: List[str] = []
        self.notes: List[Tuple[str, str]] = []
        self.cut: Dict[int, int] = {}  # the jobs of which steps are left out, and how many
        self.lost = 0
        self.lanes = {found[1]: found[2] for found in map(LANE.fullmatch, lines) if found}
        assert lines[0] == "sequenceDiagram"
        for line in lines[1 + len(self.lanes) :]:
            self.take(line)

    def take(self, line: str) -> None:
        arrow, start, beside = (pattern.fullmatch(line) for pattern in (ARROW, START, BESIDE))
        over = OVER.fullmatch(line)
        if arrow and arrow[2] == "-x":
            self.lost += 1
        elif arrow and arrow[4]:
            self.begin(arrow[3], arrow[4], arrow[5], arrow[6], 0)
        elif arrow:
            self.arrow(arrow)
        elif start:
            self.begin(start[1], start[2], start[3], start[4], int(start[5]))
        elif beside:
            self.notes.append((self.lanes[beside[1]], beside[2]))
            left_out = CUT.fullmatch(beside[2])
            if left_out:
                self.cut[self.jobs[-1].number] = int(left_out[1].replace(",", ""))
        elif over:
            self.marks.append(over[1])
            self.notes.append(("", over[1]))
        else:
            assert re.fullmatch(r"    (de)?activate L\d+", line), line

    def begin(self, lane: str, number: str, forlopp: str, signal: str, sender: int) -> None:
        self.jobs.append(Drawn(int(number), forlopp, self.lanes[lane], signal, sender, [], []))

    def arrow(self, found: "re.Match[str]") -> None:
        label = found[6]
        end = ENDS.search(label)
        if end:
            label = label[: end.start()]
            self.jobs[-1].leads.append(int(end[2] or 0))
        job = self.jobs[-1]
        job.arrows.append(Sent(found[2], self.lanes[found[1]], self.lanes[found[3]], label))


class Case:
    """An exchange made by chance, in files; all of its jobs are drawn."""

    def __init__(self, seed: str, number: int, folder: pathlib.Path) -> None:
        made = MADE.made_case(random.Random(f"{seed}.chart.{number}"))
        self.account: Any = Account(
            made.exchange, made.signals, min(made.limit, MOST_JOBS), PATIENCE
        )
        self.ending = self.account.run()
        self.report: List[str] = self.account.report(self.ending).decode().splitlines()
        (folder / "E").write_bytes(made.exchange)
        (folder / "S").write_bytes(made.signals)
        self.run = run_of(str(folder / "E"), str(folder / "S"), min(made.limit, MOST_JOBS))
        self.chart = chart_of(self.run, wishes())
        self.read = Reader(list(chart_words.mermaid(self.chart)))

    def whole_jobs(self) -> List[Drawn]:
        """The jobs that are drawn, with all of their arrows: a chart keeps the first steps of a
        job, stores among them, and a choice looks at the whole job.
        """
        assert len(self.read.jobs) == len(self.account.told)
        return [job._replace(arrows=told) for job, told in zip(self.read.jobs, self.account.told)]

    def trace(self) -> Iterator[List[str]]:
        """The words of the jobs of the trace."""
        for line in choice.traced(self.run, ["SHOW"], self.run.limit):
            if line.startswith(b"JOB "):
                yield line.decode().split(" ")


def compare_jobs(case: Case) -> None:
    """The jobs are those of the trace, and their signals those of the second account."""
    wanted = [
        (int(words[1]), words[-2], words[3], " ".join([words[2], *words[4:-2]]))
        for words in case.trace()
    ]
    assert [job[:4] for job in case.read.jobs] == wanted
    for job, arrows in zip(case.read.jobs, case.account.told):
        drawn = len(job.arrows)
        assert job.arrows == arrows[:drawn]
        assert drawn <= MOST_STEPS
        assert len(arrows) - drawn <= case.read.cut.get(job.number, 0)


def compare_leads(case: Case) -> None:
    """A signal leads to the job that says by which job it was sent, with the same signal. One that
    leads to a job is drawn, but for those among the steps that are left out.
    """
    jobs = {job.number: job for job in case.read.jobs}
    sent = Counter((job.number, to) for job in jobs.values() for to in job.leads if to)
    wanted = Counter((job.sender, job.number) for job in jobs.values() if job.sender)
    assert not sent - wanted
    undrawn = Counter(sender for sender, _ in (wanted - sent).elements())
    assert all(count <= case.read.cut.get(job, 0) for job, count in undrawn.items())
    for job in jobs.values():
        buffered = [
            arrow for arrow in job.arrows if arrow.sign == "-)" and arrow.target != "outside"
        ]
        for arrow, to in zip(buffered, job.leads):
            assert not to or (jobs[to].signal, jobs[to].block) == (arrow.signal, arrow.target)


def compare_events(case: Case) -> None:
    """Releases, restarts and lost lines are those of the report."""
    lines = [line.split(" ") for line in case.report]
    wanted = [
        f"{' '.join(words[: 2 if words[0] == 'RELEASE' else 1])}: job {words[-8]}, {words[-7]} at"
        f" {words[-5]}#59; {counted(words[-3], 'job')} removed,"
        f" {counted(words[-1], 'record')} freed"
        for words in lines
        if words[0] in ("RELEASE", "RESTART")
    ]
    assert [mark for mark in case.read.marks if mark.startswith(("RELEASE", "RESTART"))] == wanted
    assert f"END {case.ending}" in case.read.marks
    assert case.read.lost == sum(words[0] == "LOST" for words in lines)


def counted(number: str, what: str) -> str:
    return f"{int(number):,} {what}{'' if number == '1' else 's'}"


def compare_values(case: Case) -> int:
    """What is stored goes on from what stood there, and comes to the report."""
    stands: Dict[Tuple[str, str], int] = {}
    stores = 0
    for block, text in case.read.notes:
        found = STORED.fullmatch(text.replace("#62;", ">"))
        if found:
            place = block, found[1]
            assert stands.get(place, int(found[2])) == int(found[2]), text
            stands[place], stores = int(found[3]), stores + 1
        elif text.startswith(("RELEASE", "RESTART")) or "freed" in text or "left out" in text:
            stands.clear()
    told = dict(re.findall(r"^VAR (\S+) (\d+)$", "\n".join(case.report), re.M))
    for (block, name), value in stands.items():
        if "(" not in name:
            assert told[f"{block}.{name}"] == str(value)
    return stores


def shapes(case: Case) -> None:
    """Each form is whole, and as wide as its lanes."""
    svg = "\n".join(chart_svg.svg_of(case.chart, 700))
    root = ElementTree.fromstring(svg)
    texts = ["".join(one.itertext()) for one in root.iter("{http://www.w3.org/2000/svg}text")]
    assert texts.count("outside") == 2
    plain = list(chart_text.text_of(case.chart, 80, True, False))
    assert all(line.isascii() and line == line.rstrip() for line in plain)
    lanes = len(case.chart.lanes)
    assert max(map(len, plain)) <= max(82, (lanes + 1) * (chart_text.LEAST + 1) + 20)
    msc = "\n".join(chart_words.msc(case.chart))
    assert msc.startswith("msc {") and msc.endswith("}")


@pytest.mark.by_chance(CASES)
def test_exchange_made_by_chance(
    tmp_path: pathlib.Path, seed: str, tally: Tally, number: int
) -> None:
    """Jobs, signals, events and values of a chart are those of trace, report and second account.
    An exchange whose run is too long is passed over, and counted.
    """
    least = dict.fromkeys(("cases", "-)", "->>", ANSWER, "stores"), LEAST / CASES)
    try:
        case = Case(seed, number, tmp_path)
    except ORACLE.TooLong:
        tally.add("charts", {"passed over": 1}, least)
        return
    compare_jobs(case)
    compare_leads(case)
    compare_events(case)
    signs = Counter(arrow.sign for job in case.read.jobs for arrow in job.arrows)
    tally.add("charts", {"cases": 1, "stores": compare_values(case), **signs}, least)
    shapes(case)


def numbers(run: choice.Run, **asked: Any) -> List[int]:
    return list(choice.Chooser(run, wishes(**asked)).chosen().numbers)


@pytest.mark.by_chance(CHOICES)
def test_choice_made_by_chance(
    tmp_path: pathlib.Path, seed: str, tally: Tally, number: int
) -> None:
    """A choice has the jobs that a chart of all jobs has for it."""
    chance, least = random.Random(f"{seed}.choice.{number}"), {"choices": LEAST_SHARE}
    try:
        case = Case(seed, number, tmp_path)
    except ORACLE.TooLong:
        tally.add("choices of jobs", {"passed over": 1}, least)
        return
    jobs = case.whole_jobs()
    arrows = [arrow for job in jobs for arrow in job.arrows]
    signal = chance.choice([*(arrow.signal for arrow in arrows), jobs[0].signal]).split(" ")[0]
    block = chance.choice([*(arrow.target for arrow in arrows), jobs[0].block])
    forlopp = chance.choice(jobs).forlopp
    first, last = sorted(chance.choices(range(1, len(jobs) + 1), k=2))
    wanted = {
        "forlopps": [job.number for job in jobs if job.forlopp == forlopp],
        "signals": [job.number for job in jobs if signal in signals_in(job)],
        "first": list(range(first, last + 1)),
    }
    assert numbers(case.run, forlopps=[int(forlopp[1:])]) == wanted["forlopps"]
    assert numbers(case.run, signals=[signal]) == wanted["signals"]
    assert numbers(case.run, first=first, last=last) == wanted["first"]
    if block != "outside":
        there = [job.number for job in jobs if block in blocks_in(job)]
        if there:
            assert numbers(case.run, blocks=[block]) == there
        else:  # what was sent there started no job
            with pytest.raises(programs.Wrong, match=f"is in block {block}"):
                numbers(case.run, blocks=[block])
    both = sorted({*wanted["signals"]} & {*wanted["forlopps"]})
    if both:
        asked = numbers(case.run, signals=[signal], forlopps=[int(forlopp[1:])])
        assert asked == both
    tally.add("choices of jobs", {"choices": 1}, least)


def signals_in(job: Drawn) -> List[str]:
    return [job.signal.split(" ")[0], *(arrow.signal.split(" ")[0] for arrow in job.arrows)]


def blocks_in(job: Drawn) -> List[str]:
    return [job.block, *(arrow.target for arrow in job.arrows if arrow.sign == "->>")]


def test_a_difference_is_told(monkeypatch: pytest.MonkeyPatch) -> None:
    """Where the account of the tool is not that of plex, nothing is drawn."""
    run = run_of(*files(FAULTS))
    chosen = choice.Chooser(run, wishes()).chosen()
    right = choice.traced

    def altered(*words: Any) -> Iterator[bytes]:
        for line in right(*words):
            yield line.replace(b"DIGIT REG 0 8", b"DIGIT REG 0 7").replace(b"RANGE", b"DIVIDE")

    monkeypatch.setattr(choice, "traced", altered)
    with pytest.raises(programs.Wrong, match="differs from that of plex.*job 5"):
        command.observed(run, chosen, False)
    kept = [*right(run, ["SHOW"], command.AHEAD)]
    monkeypatch.setattr(choice, "traced", lambda *words: iter(kept))
    monkeypatch.setattr(programs, "lines_of", lambda *words: iter([b"JOBS 8"]))
    with pytest.raises(programs.Wrong, match="differs from that of plex.*the report"):
        command.observed(run, chosen, False)


# text


def lines_in(*words: Union[str, pathlib.Path]) -> List[str]:
    got = told(*words)
    assert got.status == 0, got
    return got.wrote.splitlines()


def test_values_over_idle_lanes() -> None:
    """In narrow lanes a value stands over those without a job, and no further."""
    names = EXAMPLES / "switch" / "exchange.plex", EXAMPLES / "switch/wrong_call/signals.txt"
    lines = lines_in(*names, "--around", "FAULT", "--context", "2", "--values", "--ascii")
    assert any("# PATIENCE(10): 10 -> 10 " in line for line in lines)
    assert any(line.endswith("# CALLED(0): 255 -> 20") for line in lines)
    assert any("# PEER(20): 255 -> 10      :" in line for line in lines)


def test_all_kinds_of_signals_in_text() -> None:
    """Buffered, direct and combined signals, answers and what waits have marks of their own."""
    lines = lines_in(*files(ASK), "--ascii", "--values", "--lines", "--jobs", "2")
    short = [re.sub(r"([-=. ])\1+", r"\1\1", line.rstrip("| ")).strip() for line in lines]
    for part in (
        "2 F1  |-- CALL 4 S:3 -->#",
        "|  #== PRICE 4 :19 ==>#",
        "|  :  # ASKED: 0 -> 1 :34",
        "|  #<== WHICH 4 :35 ==#",
        "|  #.. KIND 1 :24 ..>#",
        "|  #<.. COST 2 :37 ..#",
        "|  # SUM(4): 0 -> 2 :21",
        ".  1 job left out: 1  .  .",
        ".  1 job left out: 3  .  .",
    ):
        assert part in short, short
    assert lines[-1] == "1 of 3 jobs drawn: 2"


def test_faults_releases_and_restarts_in_text() -> None:
    got = told(*files(FAULTS), "--around", "fault", "--context", "1")
    assert got.complaint == "plex-chart: 2 jobs ended by a fault: the first is job 5, RANGE\n"
    assert "✗ fault RANGE at REG:23" in got.wrote
    assert "══ RELEASE F2: job 5, RANGE at REG:23; 1 job removed, 1 record freed" in got.wrote
    assert "DIGIT 1 6 lost: F2 is dead" in got.wrote
    assert "══ RESTART: job 6, DIVIDE at REG:26; 2 jobs removed, 1 record freed" in got.wrote
    assert got.wrote.endswith("3 of 8 jobs drawn: 4-6\n")


def test_a_restart_between_the_jobs_is_told() -> None:
    assert "; restart by job 6" in told(*files(FAULTS), "--forlopp", "4").wrote


def test_a_width() -> None:
    """A chart fits the width where its labels and blocks let it."""
    for width in (60, 80, 200):
        lines = lines_in(*files(ASK), "--width", str(width), "--values")
        assert max(map(len, lines)) <= width


def test_many_lanes() -> None:
    """Seven lanes fit a terminal of 80 columns; where not even narrow lanes fit, they stay wide."""
    folder = EXAMPLES / "switch"
    words = [str(folder / "exchange.plex"), str(folder / "wrong_call" / "signals.txt")]
    words += ["--forlopp", "F1", "--width"]
    widths = [max(map(len, lines_in(*words, width))) for width in ("60", "80", "200")]
    assert widths[1] <= 80 < widths[0] <= widths[2] <= 200


def test_colours() -> None:
    """Colours are there where they are wanted, and change nothing else."""
    plain = told(*files(FAULTS))
    assert "\033" not in plain.wrote
    coloured = told(*files(FAULTS), "--color", "always").wrote
    assert "\033[36m" in coloured and "\033[1;31m" in coloured
    assert re.sub(r"\033\[[0-9;]*m", "", coloured) == plain.wrote


def test_no_box_characters_where_the_output_cannot_take_them() -> None:
    got = subprocess.run(
        [sys.executable, TOOL, *files(ASK)],
        env={**os.environ, "PYTHONIOENCODING": "ascii"},
        capture_output=True,
        timeout=SOON,
        check=True,
    )
    assert got.stdout.isascii() and b"\\u" not in got.stdout and b"==>" in got.stdout


# pictures and files


def test_files_of_all_forms(tmp_path: pathlib.Path) -> None:
    """The ending of a file tells its form, and what is written is what the option writes."""
    for ending, option in ((".svg", "--svg"), (".mmd", "--mermaid"), (".msc", "--msc")):
        path = tmp_path / f"chart{ending}"
        assert told(*files(ASK), "-o", path) == (0, "", "")
        assert path.read_text() == told(*files(ASK), option).wrote
    path = tmp_path / "chart.txt"
    assert told(*files(ASK), "-o", path).status == 0
    assert path.read_text() == told(*files(ASK)).wrote


def test_png(tmp_path: pathlib.Path) -> None:
    """A chart as PNG is drawn by a command of the system."""
    need_command("rsvg-convert")
    assert told(*files(ASK), "-o", tmp_path / "chart.PNG") == (0, "", "")
    assert (tmp_path / "chart.PNG").read_bytes().startswith(b"\x89PNG")


def test_no_png(tmp_path: pathlib.Path) -> None:
    """Where that command is not there, a chart as PNG is refused."""
    got = told(*files(ASK), "-o", tmp_path / "none.png", PATH="")
    told_so = "plex-chart: rsvg-convert draws PNG, and is not there; -o FILE.svg writes SVG\n"
    assert got == (2, "", told_so) and not (tmp_path / "none.png").exists()


def test_the_picture_of_the_guide() -> None:
    """`plex-chart exchange.plex signals.txt --values -o docs/pictures/chart.svg` makes it."""
    assert told(*files(ASK), "--values", "--svg").wrote == PICTURE.read_text()


MSC_ARROW = re.compile(r"    L(\d+)(->|=>|>>|-x)L(\d+) \[")
MERMAID_SIGNS = {"->": "-)", "=>": "->>", ">>": "-->>", "-x": "-x"}


@pytest.mark.parametrize("example", [ASK, FORLOPP, FAULTS])
def test_arrows_of_msc(example: str) -> None:
    """The arrows for mscgen are those for Mermaid, one after the other."""
    msc, mermaid = (told(*files(example), option).wrote for option in ("--msc", "--mermaid"))
    arrows = [(one, MERMAID_SIGNS[sign], other) for one, sign, other in MSC_ARROW.findall(msc)]
    wanted = [
        (found[1], found[2], found[3]) for found in map(ARROW.match, mermaid.split("\n")) if found
    ]
    assert arrows == wanted and arrows


@pytest.mark.parametrize(("context", "most"), [(0, 9), (1, 9), (2, 9), (2, 3)])
def test_jobs_around_one(context: int, most: int) -> None:
    """As many jobs as are asked for stand before and behind a job."""
    asked = wishes(around="3", context=context, most=most)
    numbers = choice.Chooser(run_of(*files("guide/levels")), asked).chosen().numbers
    beside = min(context, most // 2)
    assert list(numbers) == list(range(3 - beside, 4 + beside))


def test_jobs_around_the_first_fault() -> None:
    """Of several jobs that ended by a fault, the first one is taken."""
    names = files(FAULTS)
    report = programs.answer(["run", *names], programs.ENDINGS).decode()
    faulted = [
        int(number) for number in re.findall(r"^(?:RELEASE F\d+|RESTART) job (\d+)", report, re.M)
    ]
    asked = wishes(around=choice.ANY, context=0)
    assert len(faulted) > 1
    assert list(choice.Chooser(run_of(*names), asked).chosen().numbers) == faulted[:1]


def test_rails_lead_to_the_jobs_that_start() -> None:
    """A path goes down beside a lane for each buffered signal whose job is drawn."""
    made = chart_of(run_of(*files("guide/levels")), wishes())
    leading = [row for row in made.rows if isinstance(row, chart.Arrow) and row.receiver]
    svg = "\n".join(chart_svg.svg_of(made, None))
    rails = [tuple(map(float, found)) for found in RAIL.findall(svg)]
    assert len(rails) == len(leading)
    for place, (x, top, bottom, lane) in enumerate(rails):
        assert x < lane and top < bottom
        beside = [other for other in rails[:place] if other[0] == x]
        assert all(bottom <= other[1] or other[2] <= top for other in beside), "one over another"


def test_strange_names_and_comments_draw_safely(tmp_path: pathlib.Path) -> None:
    """Names of files and comments steer neither a terminal nor a page."""
    names = ['<script>alert("1")\'\x1b[31m\x1b]0;x\x07\n', "x" * 250]
    exchange, signals = (pathlib.Path(name).read_bytes() for name in files(ASK))
    comment = b"! <script>alert(1)</script> \x1b[2J ]]> --> \" ' " + b"y" * 4096 + b"\n"
    for name in names:
        path, lines = tmp_path / name.replace("/", ""), tmp_path / f"S{name[:200]}"
        path.write_bytes(comment + exchange)
        lines.write_bytes(comment + signals)
        for option in ("--svg", "--mermaid", "--msc", "--ascii", "--lines"):
            got = told(path, lines, option, "--values")
            assert got.status == 0 and "\x1b" not in got.wrote and "\x07" not in got.wrote
            assert "<script" not in got.wrote or option in ("--msc", "--ascii", "--lines")
            if option == "--svg":
                ElementTree.fromstring(got.wrote)


def test_inputs_are_never_written_over(tmp_path: pathlib.Path) -> None:
    copies = [tmp_path / name for name in ("E.svg", "S.svg")]
    for path, source in zip(copies, files(ASK)):
        path.write_bytes(pathlib.Path(source).read_bytes())
    for path in copies:
        before = path.read_bytes()
        got = told(*copies, "-o", path)
        assert got.status == 2 and "is read, and would be lost" in got.complaint
        assert path.read_bytes() == before


# choices and refusals


def test_signals_and_blocks_without_jobs_are_told() -> None:
    """Where no job starts by a signal, the jobs that send it are drawn, and it is said."""
    for option, name, what in (
        ("--signal", "WHICH", "no job starts by WHICH, which is a combined signal"),
        ("--signal", "COST", "no job starts by COST, which is an answer"),
        ("--block", "FEES", "no job starts in block FEES"),
    ):
        got = told(*files(ASK), option, name)
        assert got.complaint.startswith(f"plex-chart: {what}: the jobs that "), got
        assert got.wrote.endswith("2 of 3 jobs drawn: 2-3\n")
    assert told(*files("guide/direct"), "--signal", "CHARGE").complaint.startswith(
        "plex-chart: no job starts by CHARGE, which is a direct signal"
    )


def test_a_long_load_draws_a_part(tmp_path: pathlib.Path) -> None:
    """Of a long load the chosen part is drawn, with how much was left out."""
    exchange, signals = tmp_path / "E", tmp_path / "S"
    exchange.write_text(
        "SIGNAL GO SINGLE BUFFERED B DATA 1;\nBLOCK B;\n"
        "DECLARE; VARIABLE N WIDTH 32; TEMPORARY P;\nSURVEY; RECEIVE GO; SEND GO;\nPROGRAM;\n"
        "ENTER GO WITH P; N = N + P; SEND GO WITH P; EXIT;\nEND BLOCK;\n"
    )
    signals.write_text("AFTER 0 GO B 1 NEW\nAFTER 0 GO B 2 NEW\n")
    lines = lines_in(exchange, signals, "--jobs", "10-40", "--limit", "30000")
    assert "9 jobs left out: 1 to 9" in lines[3]
    assert any("29,960 jobs left out: 41 to 30000" in line for line in lines)
    assert lines[-1] == "31 of 30,000 jobs drawn: 10-40"
    lines = lines_in(exchange, signals, "--forlopp", "F2", "--most", "2", "--limit", "30000")
    assert lines[-2:] == [
        "2 of 30,000 jobs drawn: 2, 4",
        "14,998 more fit and are left out: --most N draws more",
    ]
    lines = lines_in(exchange, signals, "--signal", "GO", "--most", "2", "--limit", "3000")
    assert lines[-1] == "jobs after 2 were not looked at"
    lines = lines_in(exchange, signals, "--around", "2990", "--context", "2", "--limit", "3000")
    assert lines[-1] == "5 of 3,000 jobs drawn: 2988-2992"
    assert len(lines_in(exchange, signals, "--limit", "30000", "--ascii")) < 500


@pytest.mark.parametrize(
    "words, status, complaint",
    [
        (["--forlopp", "F9"], 1, "no job of jobs 1 to 3 is in forlopp F9"),
        (["--jobs", "7-"], 1, "the run has 3 jobs, and none from 7 on"),
        (["--around", "RANGE"], 1, "no job of the run ended by RANGE"),
        (["--around", "9"], 2, "there is no job 9: the run has 3"),
        (["--block", "FEE"], 2, "no block of the exchange is called FEE; FEES is one"),
        (["--signal", "\x1b[2J"], 2, 'no signal of the exchange is called "\\u{1b}[2J"'),
        (["--jobs", "9-7"], 2, "argument --jobs: '9-7' is no range of jobs from 1 on"),
        (["--jobs", "-"], 2, "argument --jobs: '-' is no range of jobs, as 10-40"),
        (["--jobs", "0"], 2, "argument --jobs: '0' is no range of jobs from 1 on"),
        (["--around", "RAGE"], 2, "argument --around: 'RAGE' is no fault and no job"),
        (["--around", "0"], 2, "argument --around: '0' is no fault and no job"),
        (["--forlopp", "X"], 2, "argument --forlopp: 'X' is no forlopp, as F5"),
        (["--most", "0"], 2, "argument --most: '0' is no number from 1 to 10000"),
        (["--width", "5"], 2, "argument --width: '5' is no number from 20 to 10000"),
        (["--svg", "-o", "x.png"], 2, "x.png is to be PNG, and --svg writes another form"),
        (["--svg", "--ascii"], 2, "argument --ascii: not allowed with argument --svg"),
        (["-o", "/no/such/folder/x"], 2, "/no/such/folder/x could not be written"),
    ],
)
def test_refusals(words: List[str], status: int, complaint: str) -> None:
    got = told(*files(ASK), *words)
    assert (got.status, got.wrote) == (status, "")
    assert got.complaint.startswith(f"plex-chart: {complaint}"), got.complaint


def test_refused_texts_and_missing_files(tmp_path: pathlib.Path) -> None:
    """What plex refuses, it tells itself."""
    exchange, signals = files("guide/first_refusal")
    got = told(exchange, signals)
    assert got.status == 2 and got.wrote.startswith("SOURCE ") and "plex-chart" not in got.complaint
    (tmp_path / "S").write_text("AFTER 0 NONE SUCH\n")
    got = told(files(ASK)[0], tmp_path / "S")
    assert got.status == 3 and got.wrote.startswith("SIGNALS ")
    assert "plex-chart" not in got.complaint
    got = told(files(ASK)[0], tmp_path / "missing")
    assert got.status == 2 and "could not be read" in got.complaint
    (tmp_path / "S").write_text("")
    got = told(files(ASK)[0], tmp_path / "S")
    assert got == (1, "", "plex-chart: the run has no jobs\n")


def test_help_tells_each_option() -> None:
    got = told("--help")
    assert got.status == 0
    options = got.wrote.partition("\noptions:\n")[2]
    names = set(re.findall(r"^  (--?\w+)", options, re.MULTILINE)) - {"-h"} | {"--help"}
    assert names == {option.names[-1] for option in BY_NAME["plex-chart"].options}
