"""Reads a page of plex-page back, without a browser, and compares it. For `test_look_at_page.py`.

`made_case(folder, seed, number)` makes an exchange by chance, and `read_back(page, exchange,
signals)` gives what is wrong with a page of one. It reads the data and what is drawn. The entries,
the letters, the reasons and the lines that are reached are those of `oracle.analysis` and
`oracle.why`; the bars and the waits are those of the jobs of the run, and fit each other: a bar is
as wide as its job is long, and whenever the window stood still that ended when a job ended. What
jobs sent is that of a run whose jobs are all observed statement by statement.
"""
import json
import pathlib
import random
import re
from typing import Any, Dict, Iterator, List, NamedTuple, Optional, Tuple

from gate.makers import made_exchange
from gate.oracle import analysis as oracle_analysis
from gate.oracle import why as oracle_why
from plextools.analysis.why import Exchange
from plextools.runs.jobs import jobs_of
from plextools.runs.choice import Chosen
from plextools.runs.machine import Job, Machine
from plextools.runs.observed import Message, Observed, Seen
from plextools.runs.play import Bar, Play, Rules, play
from plextools.runs.signals import lines_of
from plextools.runs.steps import Program
from plextools.show import chart
from plextools.text.statements import Text

DATA = re.compile(r'<script type="application/json" id="data">(.*?)</script>', re.S)
SHAPE = r'x="([\d.]+)" y="(\d+)" width="([\d.]+)" height="\d+"'
BAR = re.compile(rf'<rect class="bar" data-bar="(\d+)" {SHAPE}[^>]*><title>([^<]*)</title>')
WAIT = re.compile(rf'<rect class="wait[^"]*" data-wait="(\d+)" {SHAPE}><title>([^<]*)</title>')
CELL = re.compile(r"<td class=\w+(?: title=\"[^\"]*\")?>(.)")
LINE = re.compile(r"<div id=L(\d+) data-n=\d+(?: data-by=\"([^\"]*)\")?>")
MADE, WORKERS, JOBS, DRAWN = 6, 4, 300, 200  # so many bars are drawn without scripts
LEFT, LEAST_WIDTH, NEAR = 80.0, 2.0, 0.15  # where bars begin, and how wide and how exact they are


class Drawn(NamedTuple):
    """A box that is drawn: its number, where it begins, how wide it is, and its title."""

    number: int
    left: float
    width: float
    title: str


def drawn(pattern: "re.Pattern[str]", page: str) -> List[Drawn]:
    return [
        Drawn(int(found[1]), float(found[2]), float(found[4]), found[5])
        for found in pattern.finditer(page)
    ]


def expanded(ranges: List[int]) -> List[int]:
    """The numbers of pairs of a first and a last one."""
    pairs = zip(ranges[::2], ranges[1::2])
    return [number for first, last in pairs for number in range(first, last + 1)]


# facts


class Facts:
    """What an exchange text has by the second account."""

    def __init__(self, content: bytes) -> None:
        oracle: Any = oracle_analysis
        self.exchange = oracle.Exchange(content)
        count = len(self.exchange.entries)
        facts = [oracle.Facts(self.exchange, entry).close() for entry in range(count)]
        self.summaries = [oracle.Summary(one) for one in facts]
        self.lines = [list(summary.lines()) for summary in self.summaries]

    def reach(self, entry: int) -> List[int]:
        return sorted({node.first.line for node in self.summaries[entry].reached})

    def letter(self, i: int, j: int) -> str:
        """The letter of a pair in the table."""
        reasons = oracle_why.told(self.exchange, self.summaries, i, j)
        words = [reason.words.split(" ")[0] for reason in reasons]
        if not words:
            return "."
        return words[0][0] if words[0] in ("VARIABLE", "FIELD", "SEIZE", "LEVEL") else "?"


def of_entries(data: Any, facts: Facts) -> Iterator[str]:
    """The entries, their lines, and the lines of the text that they reach."""
    if len(data["entries"]) != len(facts.summaries):
        yield f"{len(data['entries'])} entries and not {len(facts.summaries)}"
        return
    for number, (entry, lines) in enumerate(zip(data["entries"], facts.lines)):
        told = [data["words"][word] for word, _ in data["kinds"][entry["kind"]]["lines"]]
        head = f"ENTRY {number} {entry['name']} LEVEL {entry['level']}"
        if [head, *told] != lines:
            yield f"entry {number}: {[head, *told]} and not {lines}"
        if expanded(entry["reach"]) != facts.reach(number):
            yield f"entry {number} reaches {expanded(entry['reach'])} and not {facts.reach(number)}"


def reasons_of(data: Any, i: int, j: int) -> List[List[int]]:
    """The reasons of a pair: whether each is a conflict, its words, both sides and what helps."""
    place = data["rows"][data["pairs"][i]][j]
    parts = data["lists"][place] if place >= 0 else []
    return [parts[begin : begin + 5] for begin in range(0, len(parts), 5)]


def of_names(first: Any, later: Any) -> Dict[str, str]:
    """What stands in a page for the names of the entries of a pair."""
    return {
        "{first}": first["name"],
        "{first signal}": first["signal"],
        "{later}": later["name"],
        "{later signal}": later["signal"],
    }


def named(words: str, names: Dict[str, str]) -> str:
    """Words with the names of the entries."""
    return re.sub(r"\{[a-z ]*\}", lambda found: names[found[0]], words)


def of_pairs(page: str, data: Any, facts: Facts) -> Iterator[str]:
    """The letters of the table, and the reasons of each pair with what helps."""
    count, words = len(facts.summaries), data["words"]
    letters = CELL.findall(page.partition('<table id="table"')[2].partition("</table>")[0])
    wanted = [facts.letter(i, j) for i in range(count) for j in range(count)]
    if letters != wanted:
        yield f"the letters of the table are {''.join(letters)} and not {''.join(wanted)}"
    for i in range(count):
        for j in range(count):
            names = of_names(data["entries"][i], data["entries"][j])
            parts = reasons_of(data, i, j)
            told = [(words[one[1]], named(words[one[4]], names)) for one in parts]
            reasons = oracle_why.told(facts.exchange, facts.summaries, i, j)
            if told != [(reason.words, reason.cure) for reason in reasons]:
                yield f"pair {i} {j}: {told} and not {[reason.words for reason in reasons]}"


def of_lines(page: str, facts: Facts) -> Iterator[str]:
    """Which entries reach each line of the text."""
    for number, by in LINE.findall(page):
        pairs = [one.split("-") for one in by.split()]
        told = expanded([int(one[place]) for one in pairs for place in (0, -1)])
        wanted = [
            entry for entry in range(len(facts.summaries)) if int(number) in facts.reach(entry)
        ]
        if told != wanted:
            yield f"line {number} is reached by {told} and not by {wanted}"


# the play


def rows_of(columns: Dict[str, List[Any]]) -> List[Dict[str, Any]]:
    """Bars or waits, each with its parts."""
    return [dict(zip(columns, parts)) for parts in zip(*columns.values())]


def of_bar(told: Dict[str, Any], bar: Bar, place: Dict[int, int]) -> Dict[str, Any]:
    """What of a bar of the data is otherwise."""
    job: Job = bar.job
    wanted = {
        "entry": job.entry,
        "row": bar.row,
        "from": bar.begin,
        "to": bar.begin + job.length,
        "values": list(job.values),
        "forlopp": job.forlopp,
        "line": job.line,
        "sender": place[job.sender] if job.sender is not None else None,
        "held": list(job.held),
        "fault": job.fault,
    }
    return {name: told[name] for name, value in wanted.items() if told[name] != value}


def of_bars(play: Any, made: Play, boxes: List[Drawn]) -> Iterator[str]:
    """The bars in the data, and the first ones as a reader without scripts sees them."""
    place = {job.number: number for number, job in enumerate(made.order, 1)}
    bars = rows_of(play["bars"])
    if not len(bars) == len(made.bars) or len(boxes) != min(len(bars), DRAWN):
        yield f"{len(bars)} bars, {len(boxes)} drawn, and not {len(made.bars)}"
        return
    for number, (told, bar) in enumerate(zip(bars, made.bars), 1):
        wrong = of_bar({**told, "held": play["files"][told["held"]]}, bar, place)
        if wrong or place[bar.job.number] != number:
            yield f"the bar of job {place[bar.job.number]}, which is bar {number}, has {wrong}"
    yield from of_boxes([(told["from"], told["to"]) for told in bars[:DRAWN]], boxes)


def of_boxes(times: List[Tuple[int, int]], boxes: List[Drawn]) -> Iterator[str]:
    """Boxes begin and are as wide as their times say, all by one scale."""
    last = max(range(len(times)), key=lambda place: times[place][0], default=None)
    if last is None or times[last][0] == 0:
        return
    scale = (boxes[last].left - LEFT) / times[last][0]
    for (begin, end), box in zip(times, boxes):
        width = max(LEAST_WIDTH, scale * (end - begin) - 1)
        near = NEAR + (end - begin) * NEAR / times[last][0]
        if abs(box.left - LEFT - scale * begin) > NEAR or abs(box.width - width) > near:
            yield f"box {box.number}, {begin} to {end}, is at {box.left}, {box.width} wide"
        if f"from {begin} to {end}" not in box.title:
            yield f"box {box.number}, {begin} to {end}, is called {box.title}"


Sent = Tuple[str, str, str, str, int, Tuple[int, ...], Optional[int]]


def flow_of(flows: Any, place: int) -> Iterator[Sent]:
    """The signals of a job in the data: the kind, the name, the blocks, the line, the values, and
    the job that a buffered one started.
    """
    words, receivers = [*flows["words"], "outside"], iter(flows["receivers"][place])
    for number in flows["lists"][flows["jobs"][place]]:
        kind, name, source, target, line, *values = flows["signals"][number]
        names = words[kind], words[name], words[source], words[target]
        yield (*names, line, tuple(values), next(receivers) if words[kind] == "buffered" else None)


def observed_flow(text: Text, seen: Seen) -> Iterator[Sent]:
    """The same of a job that was observed."""
    blocks = [*(block.name.text for block in text.blocks), "outside"]
    for step in seen.steps:
        if isinstance(step, Message):
            names = step.kind.value, step.signal, blocks[step.source], blocks[step.target]
            receiver = step.receiver.place if step.receiver else None
            yield (*names, step.line, step.values, receiver)


def of_flows(flows: Any, text: Text, signals: bytes, limit: int, count: int) -> Iterator[str]:
    """What the jobs of a run sent, by a run that observes each statement."""
    machine = Observed(text, lines_of(text, signals), limit, range(1, limit + 1))
    for _ in machine.jobs():
        pass
    if len(flows["jobs"]) != count or len(machine.seen) != count:
        yield f"{len(flows['jobs'])} jobs have a flow, {len(machine.seen)} are seen, of {count}"
        return
    for place, seen in enumerate(machine.seen):
        got, wanted = list(flow_of(flows, place)), list(observed_flow(text, seen))
        left = len(wanted) - len(got) + seen.left_out
        if got != wanted[: len(got)] or flows["left_out"].get(str(place), 0) != left:
            yield f"job {place + 1} sent {got} and not {wanted}; {left} are left out"


def arrows_of(name: str, signals: bytes, forlopp: int) -> List[List[Optional[str]]]:
    """The arrows that plex-chart draws of a forlopp: the style, the lanes and the label of each;
    None stands for outside, and nothing for the lane of one that begins a job another has sent.
    """
    text = Text(name, pathlib.Path(name).read_bytes())
    lines = lines_of(text, signals)
    run = Machine(Program(text), lines, JOBS)
    numbers = [job.place for job in run.jobs() if job.forlopp == forlopp]
    machine = Observed(text, lines, JOBS, numbers)
    jobs = sum(1 for _ in machine.jobs())
    chosen = Chosen(numbers, 0, False, (), jobs, machine.ending)
    made = chart.Maker(machine, chosen, chart.Look(lines=False, values=False)).chart(name)
    lanes = [None, *made.lanes[1:]]
    return [
        [
            row.style.value,
            "" if row.source is None else lanes[row.source],
            lanes[row.target],
            chart.plain(row.label),
        ]
        for row in made.rows
        if isinstance(row, chart.Arrow) and row.job
    ]


def of_waits(play: Any, boxes: List[Drawn], facts: Facts) -> Iterator[str]:
    """Each wait begins where the window was begun or a job ended, and ends where one ended; one for
    a pair tells a reason of that pair.
    """
    ends = set(play["bars"]["to"])
    waits = [{**wait, **of_told(play, wait)} for wait in rows_of(play["waits"])]
    last = max(play["bars"]["to"][:DRAWN], default=0)
    for place, wait in enumerate(waits):
        told = f"from {wait['from']} to {wait['to']}: {wait['reason']}"
        if wait["from"] not in ends | {0} or wait["to"] not in ends:
            yield f"a wait {told}, when no job ended"
        if place < len(boxes) and boxes[place].title.replace("&amp;", "&") != told:
            yield f"a wait {told} is called {boxes[place].title}"
        yield from of_reason(wait, facts)
    if len(boxes) != sum(wait["from"] < last for wait in waits):
        yield f"{len(boxes)} waits are drawn, of {len(waits)}"


def of_told(play: Any, wait: Any) -> Dict[str, Any]:
    """The reason of a wait with its pair and its letter."""
    told = play["reasons"][wait["reason"]]
    return {"reason": told["told"], "pair": told["pair"], "kind": told["kind"]}


def of_reason(wait: Any, facts: Facts) -> Iterator[str]:
    """The reason of a wait for a pair, and its letter."""
    found = re.fullmatch(r"PAIR (\d+) (\d+) (NEVER|IF) (.*)", wait["reason"])
    if not found:
        if wait["kind"]:
            yield f"a wait for {wait['reason']} has the letter {wait['kind']!r}"
        return
    i, j = int(found[1]), int(found[2])
    words = [one.words for one in oracle_why.told(facts.exchange, facts.summaries, i, j)]
    letter = found[4][0] if found[3] == "NEVER" else "?"
    if found[4] not in words or wait["pair"] != [i, j] or wait["kind"] != letter:
        yield f"a wait for {wait['reason']}: pair {wait['pair']}, letter {wait['kind']!r}"


def data_of(page: str) -> Any:
    """The data of a page, or None where it has none."""
    found = DATA.search(page)
    return json.loads(found[1]) if found else None


def differences(page: str, content: bytes, made: Play) -> Iterator[str]:
    """What of a page is otherwise than the exchange text and the play of its load have it."""
    data, facts = data_of(page), Facts(content)
    if not data:
        yield "it has no data"
        return
    lines = oracle_why.signal_lines(content)
    facts.exchange.lines = lines
    yield from of_entries(data, facts)
    yield from of_pairs(page, data, facts)
    yield from of_lines(page, facts)
    bars, waits = drawn(BAR, page), drawn(WAIT, page)
    yield from of_bars(data["play"], made, bars)
    yield from of_waits(data["play"], waits, facts)


class Case(NamedTuple):
    """An exchange with its signal file."""

    exchange: pathlib.Path
    signals: pathlib.Path


def made_case(folder: pathlib.Path, seed: str, number: int) -> Case:
    """An exchange made by chance."""
    made = made_exchange.made_case(random.Random(f"{seed}.page.{number}"))
    case = Case(folder / "made.plex", folder / "made.txt")
    case.exchange.write_bytes(made.exchange)
    case.signals.write_bytes(made.signals)
    return case


def read_back(page: pathlib.Path, exchange: pathlib.Path, signals: pathlib.Path) -> List[str]:
    """What is wrong with the page of an exchange and its first jobs."""
    told = Exchange(str(exchange))
    load = jobs_of(told, str(signals), JOBS)
    made = play(load, Rules(told.conflicts), WORKERS, keep_bars=True)
    text, sent = page.read_text(), signals.read_bytes()
    found = DATA.search(text)
    flows = json.loads(found[1])["play"]["flows"] if found else None
    wrong = of_flows(flows, told.text, sent, JOBS, len(made.bars)) if flows else ["it has no flows"]
    return [*differences(text, exchange.read_bytes(), made), *wrong]
