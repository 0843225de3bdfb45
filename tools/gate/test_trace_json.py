"""`plex-load --trace-json`: what it writes keeps the rules of the trace event format, and has the
jobs, waits and signals of the play.

The rules are those by which Perfetto and speedscope read a file: an object with a list of events;
of each event its phase, and the fields that this phase needs, with numbers that are whole and not
negative; events of a thread one in the other or apart; the begin and the end of a flow in an event
of their threads, with one number, the end not before the begin; and names for all threads.
"""
from __future__ import annotations

import collections
import json
import pathlib
import random
import subprocess
import sys
from typing import Any, Dict, Iterator, List, Sequence, Tuple

import pytest

from gate import harness
from gate.checking import Tally, check
from gate.makers import made_exchange
from plextools.analysis.why import Exchange
from plextools.runs.jobs import jobs_of
from plextools.runs.play import Play, Rules, play
from plextools.show.trace_json import Trace

TOOL = harness.ROOT / "tools" / "bin" / "plex-load"
EXAMPLE = harness.ROOT / "examples" / "guide" / "which_change"
CASES, JOBS, SOON, LEAST_SHARE = 20, 60, 300, 0.4
NEEDED = {
    "X": {"ts", "dur", "name", "cat", "tid", "pid", "args"},
    "M": {"name", "tid", "pid", "args"},
    "i": {"ts", "name", "tid", "pid", "s"},
    "s": {"ts", "id", "name", "cat", "tid", "pid"},
    "f": {"ts", "id", "name", "cat", "tid", "pid", "bp"},
}
NUMBERS = ("ts", "dur", "tid", "pid", "id")
MADE: Any = made_exchange
Event = Dict[str, Any]


@pytest.fixture(autouse=True)
def programs(plex: pathlib.Path, conflicts: pathlib.Path) -> None:
    """The programs that the tool takes."""


def of_phase(events: Sequence[Event], phase: str) -> List[Event]:
    return [event for event in events if event["ph"] == phase]


def of_fields(events: Sequence[Event]) -> Iterator[str]:
    """Each event has what its phase needs."""
    for event in events:
        missing = NEEDED.get(event.get("ph", ""), {"a known ph"}) - set(event)
        if missing:
            yield f"{event} lacks {', '.join(sorted(missing))}"
        for name in NUMBERS:
            number = event.get(name, 0)
            if type(number) is not int or number < 0:
                yield f"{event} has a {name} that is no whole number"


def of_threads(events: Sequence[Event]) -> Iterator[str]:
    """Complete events of a thread are one in the other or apart, and their threads have names."""
    names = {event["tid"] for event in of_phase(events, "M") if event["name"] == "thread_name"}
    threads: Dict[int, List[Tuple[int, int]]] = collections.defaultdict(list)
    for event in of_phase(events, "X"):
        threads[event["tid"]].append((event["ts"], event["ts"] + event["dur"]))
    for thread, spans in threads.items():
        if thread not in names:
            yield f"thread {thread} has no name"
        ends: List[int] = []
        for begin, end in sorted(spans, key=lambda one: (one[0], -one[1])):
            while ends and ends[-1] <= begin:
                ends.pop()
            if ends and ends[-1] < end:
                yield f"thread {thread} has an event from {begin} to {end} across another"
            ends.append(end)


def is_within(event: Event, events: Sequence[Event]) -> bool:
    """Whether an event of a flow stands in a complete event of its thread."""
    return any(
        one["tid"] == event["tid"] and one["ts"] <= event["ts"] < one["ts"] + one["dur"]
        for one in of_phase(events, "X")
    )


def of_flows(events: Sequence[Event]) -> Iterator[str]:
    """Flows begin and end once, in events, and do not go back in time."""
    begins = {event["id"]: event for event in of_phase(events, "s")}
    ends = {event["id"]: event for event in of_phase(events, "f")}
    if not len(begins) == len(ends) == len(of_phase(events, "s")) == len(of_phase(events, "f")):
        yield "a flow begins or ends several times, or never"
    for number, event in ends.items():
        begin = begins.get(number)
        if begin is None or begin["ts"] > event["ts"]:
            yield f"flow {number} ends before it begins"
    for event in [*begins.values(), *ends.values()]:
        if not is_within(event, events):
            yield f"a flow stands in no event: {event}"


def faults(content: str) -> List[str]:
    """What of a file breaks the rules of the format."""
    told = json.loads(content)
    events = told["traceEvents"]
    return [*of_fields(events), *of_threads(events), *of_flows(events)]


def differences(content: str, exchange: Exchange, made: Play) -> Iterator[str]:
    """What of a file is otherwise than the play has it."""
    events = json.loads(content)["traceEvents"]
    place = {job.number: number for number, job in enumerate(made.order, 1)}
    names = [entry.name for entry in exchange.analysis.entries]
    jobs = [
        (place[bar.job.number], names[bar.job.entry], bar.row + 1, bar.begin, bar.end - bar.begin)
        for bar in made.bars
    ]
    boxes = of_phase(events, "X")
    told = [
        (one["args"]["job"], one["name"], one["tid"], one["ts"], one["dur"])
        for one in boxes
        if one["cat"] == "job"
    ]
    if told != jobs:
        yield "other jobs"
    waits = [(one["ts"], one["dur"]) for one in boxes if one["cat"] == "wait"]
    if waits != [(wait.begin, wait.end - wait.begin) for wait in made.waits]:
        yield "other waits"
    flows = {one["id"] for one in of_phase(events, "s")}
    if flows != {place[bar.job.number] for bar in made.bars if bar.job.sender is not None}:
        yield "other flows"
    faulted = [one["args"]["job"] for one in of_phase(events, "i")]
    if faulted != [place[bar.job.number] for bar in made.bars if bar.job.fault]:
        yield "other faults"


@pytest.mark.by_chance(CASES)
def test_exchange_made_by_chance(
    tmp_path: pathlib.Path, seed: str, tally: Tally, number: int
) -> None:
    """The file of an exchange made by chance keeps the rules, and has what the play has."""
    made = MADE.made_case(random.Random(f"{seed}.trace.{number}"))
    harness.write_files(tmp_path, {"E": made.exchange, "S": made.signals})
    exchange = Exchange(str(tmp_path / "E"))
    load = jobs_of(exchange, str(tmp_path / "S"), JOBS)
    done = play(load, Rules(exchange.conflicts), 1 + number % 8, keep_bars=True)
    content = "".join(Trace(exchange.analysis.entries, "a title", done).parts())
    check(*faults(content), *differences(content, exchange, done))
    events = json.loads(content)["traceEvents"]
    least = dict.fromkeys(("cases", "X", "s", "i"), LEAST_SHARE)
    counts = {phase: len(of_phase(events, phase)) for phase in ("X", "s", "i")}
    tally.add("traces", {"cases": 1, **counts}, least)


def test_faults_are_told() -> None:
    """The rules of the format can be broken."""
    good = {"ph": "X", "ts": 1, "dur": 5, "name": "n", "cat": "job", "tid": 1, "pid": 1, "args": {}}
    name = {"ph": "M", "name": "thread_name", "tid": 1, "pid": 1, "args": {"name": "w"}}
    begin = {"ph": "s", "ts": 5, "id": 1, "name": "n", "cat": "c", "tid": 1, "pid": 1}
    end = {**begin, "ph": "f", "ts": 5, "bp": "e"}
    assert not faults(json.dumps({"traceEvents": [name, good, begin, end]}))
    wrong: List[List[Event]] = [
        [good],
        [name, {**good, "ts": -1}],
        [name, {**good, "ts": 1.5}],
        [name, {**good, "ph": "Y"}],
        [name, good, {**good, "ts": 3}],
        [name, good, begin],
        [name, good, begin, {**end, "ts": 4}],
        [name, good, {**begin, "ts": 6}, {**end, "ts": 6}],
    ]
    for events in wrong:
        assert faults(json.dumps({"traceEvents": events})), events


def called(*words: object) -> "subprocess.CompletedProcess[bytes]":
    return subprocess.run(
        [sys.executable, TOOL, *map(str, words)], capture_output=True, timeout=SOON, check=False
    )


def test_file(tmp_path: pathlib.Path) -> None:
    """The command writes the file beside its figures, and never over what it reads."""
    names = EXAMPLE / "exchange.plex", EXAMPLE / "signals.txt"
    done = called(*names, "--trace-json", tmp_path / "t.json", "--workers", "2")
    assert done.returncode == 0 and done.stdout == called(*names, "--workers", "2").stdout
    content = (tmp_path / "t.json").read_text()
    events = json.loads(content)["traceEvents"]
    assert not faults(content)
    assert {event["tid"] for event in of_phase(events, "X")} <= {1, 2, 3}
    copy = tmp_path / "S"
    copy.write_bytes(names[1].read_bytes())
    done = called(names[0], copy, "--trace-json", copy)
    assert done.returncode == 2 and b"would be lost" in done.stderr
    assert copy.read_bytes() == names[1].read_bytes()
