"""plex-step: its places, states and motions beside a full trace of runs made by chance, which is
taken here statement by statement; its scripts, refusals and bounds.

Of each exchange all places are noted as one fresh run comes to them: the statement, how many
callers wait, and what the cells hold; and each store. Then plex-step goes forward to the end by
statements and back to the start, and must stand at the same places with the same cells; each other
motion must lead where the notes say; and a watchpoint must be met at each store that is noted, and
at no other place.
"""
from __future__ import annotations

import os
import pathlib
import random
import subprocess
import sys
from typing import Any, Callable, Iterator, List, NamedTuple, Optional, Sequence

import pytest

from gate import harness
from gate.checking import Tally
from gate.makers import made_exchange
from gate.oracle import machine as oracle_machine
from plextools.commands import step as command
from plextools.commands.step_session import Refused, Session
from plextools.runs import check, choice, kept
from plextools.runs.machine import Job, Machine
from plextools.runs.running import Activation, Context, Watch
from plextools.runs.searches import FIRST, Place, Watched, Wish
from plextools.runs.signals import lines_of
from plextools.runs.stepping import Stepper, last_place
from plextools.runs.steps import Program
from plextools.text.statements import Text

TOOL = harness.ROOT / "tools" / "bin" / "plex-step"
GUIDE = harness.ROOT / "examples" / "guide"
SOON, CASES, LEAST_SHARE, PATIENCE, MOST_JOBS, MOST_PLACES = 300, 20, 0.4, 60_000, 25, 400
MOTIONS, WATCHES, SEVERAL = 40, 4, 3
MADE: Any = made_exchange
ORACLE: Any = oracle_machine


class Noted(NamedTuple):
    """A place of the full trace: the statement, how many callers wait, whether it is a fault, and
    the cells.
    """

    place: Place
    point: int
    depth: int
    is_fault: bool
    cells: Sequence[int]


class Store(NamedTuple):
    """A store of the full trace: by the statement at which place, where the run is behind it, and
    the cell with its value before and after.
    """

    place: Place
    behind: Place
    cell: int
    old: int
    new: int


class Notes(Watch):
    """The full trace of a run."""

    def __init__(self, text: Text, lines: Sequence[Any], limit: int) -> None:
        self.machine = NotedRun(self, text, lines, limit)
        self.places: List[Noted] = []
        self.stores: List[Store] = []
        self.depth, self.count = 0, 0
        self.pending: List[Store] = []
        self.run()

    @property
    def now(self) -> Place:
        return Place(self.machine.ended + 1, self.count)

    def note(self, place: Place, point: int, is_fault: bool = False) -> None:
        cells = tuple(self.machine.context.cells)
        self.places.append(Noted(place, point, self.depth, is_fault, cells))
        self.stores += [one._replace(behind=place) for one in self.pending]
        self.pending = []

    def step(self, job: Context, activation: Activation, point: int) -> None:
        self.count += 1
        self.note(self.now, point)

    def store(self, cell: int, old: int, new: int) -> None:
        self.pending.append(Store(self.now, self.now, cell, old, new))

    def signal(self, point: int, enter: int, values: tuple[int, ...], waits: bool) -> None:
        self.depth += waits

    def answer(self, point: int, values: tuple[int, ...]) -> None:
        self.depth -= 1

    def run(self) -> None:
        """Notes the run; what a release stores is noted by the cells before and behind it."""
        machine = self.machine
        for job in machine.jobs():
            if job.fault:
                before, place = self.places[-1].cells, self.places[-1].place
                for cell, (old, new) in enumerate(zip(before, machine.context.cells)):
                    if old != new:
                        self.pending.append(Store(place, place, cell, old, new))
        self.end = Place(machine.ended + 1, 1)
        self.stores += [one._replace(behind=self.end) for one in self.pending]


class NotedRun(Machine):
    """A run that notes its faults."""

    def __init__(self, notes: Notes, text: Text, lines: Sequence[Any], limit: int) -> None:
        super().__init__(Program(text, watched=True), lines, limit, watch=notes)
        self.notes = notes

    def perform(self, job: Job) -> None:
        self.notes.count = 0
        super().perform(job)
        if job.fault:
            self.notes.note(last_place(self.ended + 1, job), job.point, True)
        self.notes.depth = 0


class Case:
    """An exchange made by chance with its full trace, and a stepper of it."""

    def __init__(self, seed: str, number: int, folder: pathlib.Path) -> None:
        made = MADE.made_case(random.Random(f"{seed}.step.{number}"))
        self.limit = min(made.limit, MOST_JOBS)
        account = ORACLE.Machine(made.exchange, made.signals, self.limit, PATIENCE)
        self.report: bytes = account.report(account.run())
        harness.write_files(folder, {"E": made.exchange, "S": made.signals})
        self.text, self.content = Text(str(folder / "E"), made.exchange), made.exchange
        lines = lines_of(self.text, made.signals)
        names = str(folder / "E"), str(folder / "S")
        self.run = choice.Run(*names, self.text, lines, self.limit)
        self.notes = Notes(self.text, lines, self.limit)


@pytest.fixture(autouse=True)
def program(plex: pathlib.Path) -> None:
    """The program that is asked, by the command and in this process."""


def stands(stepper: Stepper) -> Noted:
    """Where a stepper stands, as a full trace has it."""
    cells = tuple(stepper.machine.context.cells)
    depth = len(stepper.frames) - 1
    return Noted(stepper.place, stepper.point, depth, stepper.fault is not None, cells)


def walk(case: Case) -> None:
    """Forward to the end by statements, and back: the same places in the same states."""
    stepper, by_statement = Stepper(case.run), Wish(points=None, begins=True)
    for noted in case.notes.places:
        assert stands(stepper) == noted
        stop = stepper.forward(by_statement)
    assert stop.is_over and stepper.is_over and stepper.place == case.notes.end
    assert stepper.is_compared and stepper.machine.report() == case.report
    for noted in reversed(case.notes.places):
        assert stepper.backward(by_statement)
        assert stands(stepper) == noted
    assert stepper.backward(by_statement) is None and stepper.place == FIRST


class Motion(NamedTuple):
    """A motion: whether it goes forward, what it looks for, and the places that it may come to, of
    all of the full trace, from a place on.
    """

    is_forward: bool
    wish: Wish
    fits: Callable[[Noted, Noted], bool]


def motions(case: Case, chance: random.Random, here: Noted) -> Motion:
    """A motion made by chance."""
    points = frozenset(chance.choices([noted.point for noted in case.notes.places], k=2))
    entries = frozenset(range(len(case.text.entries)))
    is_forward = chance.random() < 0.5
    kinds: List[Any] = [
        (Wish(None, begins=True), lambda now, one: True),
        (Wish(begins=True), lambda now, one: one.place.step == 1 or one.is_fault),
        (Wish(entries=entries), lambda now, one: one.is_fault),
        (
            Wish(points, entries=entries),
            lambda now, one: one.is_fault or one.point in points,
        ),
        (
            Wish(breaks=points, begins=True, entries=entries),
            lambda now, one: one.is_fault or one.place.step == 1 or one.point in points,
        ),
        (
            Wish(None, depth=here.depth, begins=is_forward),
            lambda now, one: one.is_fault
            or one.depth <= now.depth
            or one.place.job != now.place.job,
        ),
    ]
    return Motion(is_forward, *chance.choice(kinds))


def wanted(case: Case, motion: Motion, here: Noted) -> Optional[Noted]:
    """Where a motion leads from a place by the full trace; None for the end or the beginning."""
    every: Iterator[Noted] = iter(case.notes.places)
    if motion.is_forward:
        return next(
            (one for one in every if one.place > here.place and motion.fits(here, one)), None
        )
    behind = [one for one in every if one.place < here.place and motion.fits(here, one)]
    return behind[-1] if behind else None


def wander(case: Case, chance: random.Random) -> int:
    """Motions made by chance lead to where the full trace has them."""
    stepper, here = Stepper(case.run), case.notes.places[0]
    ends = 0
    for _ in range(MOTIONS):
        motion = motions(case, chance, here)
        to = wanted(case, motion, here)
        stop = (stepper.forward if motion.is_forward else stepper.backward)(motion.wish)
        if to is None and motion.is_forward:
            assert stop and stop.is_over and stepper.place == case.notes.end
            stepper.go(here.place)
            ends += 1
        elif to is None:
            assert stop is None
            here = case.notes.places[0]
        else:
            here = to
        assert stands(stepper) == here
    return ends


def watch(case: Case, chance: random.Random) -> int:
    """A watchpoint is met at each store into its cells, forward behind it and backward before it,
    and nowhere else.
    """
    entries, stores = frozenset(range(len(case.text.entries))), 0
    if not case.notes.stores:
        return 0
    for _ in range(WATCHES):
        cells = sorted({chance.choice(case.notes.stores).cell for _ in range(2)})
        noted = [one for one in case.notes.stores if one.cell in cells]
        wish = Wish(watched=[Watched(1, cells)], entries=entries, faults=False)
        stepper = Stepper(case.run)
        told: List[Store] = []
        while not stepper.is_over:
            stop = stepper.forward(wish)
            told += [Store(one.place, stop.place, *one[3:]) for one in stop.writes]
        assert told == noted
        told = []
        while True:
            back = stepper.backward(wish)
            if back is None:
                break
            assert back.place == back.writes[0].place
            writes = reversed(back.writes)
            told += [Store(one.place, one.place, *one[3:]) for one in writes]
        assert told[::-1] == [one._replace(behind=one.place) for one in noted]
        stores += len(noted)
    return stores


@pytest.mark.by_chance(CASES)
def test_exchange_made_by_chance(
    tmp_path: pathlib.Path, seed: str, tally: Tally, number: int
) -> None:
    """Places, states, motions and stores are those of a full trace. An exchange whose run is long
    is passed over, and counted.
    """
    names = ("cases", "places", "stores", "faults", "waits")
    least = dict.fromkeys(names, LEAST_SHARE / SEVERAL)
    chance = random.Random(f"{seed}.motions.{number}")
    try:
        case = Case(seed, number, tmp_path)
    except ORACLE.TooLong:
        tally.add("steps", {"passed over": 1}, least)
        return
    places = case.notes.places
    if not 0 < len(places) <= MOST_PLACES:
        tally.add("steps", {"passed over": 1}, least)
        return
    walk(case)
    wander(case, chance)
    counts = {
        "cases": 1,
        "places": len(places),
        "stores": watch(case, chance),
        "faults": sum(one.is_fault for one in places),
        "waits": sum(one.depth > 0 for one in places),
    }
    tally.add("steps", counts, least)


# what is compared with plex, and what is kept


def guide(name: str) -> choice.Run:
    folder = GUIDE / name
    exchange, signals = str(folder / "exchange.plex"), str(folder / "signals.txt")
    text = Text(exchange, pathlib.Path(exchange).read_bytes())
    return choice.Run(
        exchange, signals, text, lines_of(text, pathlib.Path(signals).read_bytes()), 1000
    )


@pytest.mark.parametrize("place", (0, 3, -1))
def test_difference_is_told(monkeypatch: pytest.MonkeyPatch, place: int) -> None:
    """A run that differs in a job, a send or the report from that of plex is no run."""
    traced = choice.traced

    def altered(*words: Any) -> Iterator[bytes]:
        lines = list(traced(*words))
        lines[place] = lines[place][:-1] + b"#"
        yield from lines

    monkeypatch.setattr(choice, "traced", altered)
    stepper = Stepper(guide("forlopp"))
    with pytest.raises(check.Different):
        stepper.forward(Wish(faults=False))


def many_lines(folder: pathlib.Path, count: int) -> choice.Run:
    """A run of so many jobs."""
    exchange = GUIDE / "ask" / "exchange.plex"
    signals = folder / "S"
    signals.write_text("".join(f"AFTER {n} CALL DESK {n % 8} NONE\n" for n in range(count)))
    text = Text(str(exchange), exchange.read_bytes())
    lines = lines_of(text, signals.read_bytes())
    return choice.Run(str(exchange), str(signals), text, lines, count)


def test_kept_states_are_bounded(tmp_path: pathlib.Path, monkeypatch: pytest.MonkeyPatch) -> None:
    """However long a run is, no more than so many states are kept, and no heavier ones; a step back
    at the end of it makes but a part of its jobs once more.
    """
    monkeypatch.setattr(kept, "LEAST_WORK", 200)
    stepper = Stepper(many_lines(tmp_path, 2000))
    states = stepper.states
    states.apart = 200
    stepper.forward(Wish())
    assert stepper.is_over
    assert kept.MOST_OF_GRID / 2 <= len(states.grid) <= kept.MOST_OF_GRID
    turns: List[int] = []
    turn = stepper.machine.turn

    def counted() -> Optional[Job]:
        turns.append(1)
        return turn()

    monkeypatch.setattr(stepper.machine, "turn", counted)
    for _ in range(30):
        stepper.backward(Wish(begins=True))
        assert len(states.near) <= kept.MOST_NEAR
    assert stepper.place == Place(1971, 1)
    assert len(turns) < 2000 / 4 + 30 * 12
    monkeypatch.setattr(kept, "MOST_WEIGHT", 100)
    stepper = Stepper(many_lines(tmp_path, 2000))
    stepper.states.apart = 200
    stepper.forward(Wish())
    assert len(stepper.states.grid) <= kept.LEAST_KEPT + 1


# commands


class Told(NamedTuple):
    """How a call ended, and what it wrote."""

    status: int
    wrote: str
    complaint: str


def told(*words: object, typed: str = "") -> Told:
    done = subprocess.run(
        [sys.executable, TOOL, *map(str, words)],
        env={**os.environ, "PYTHONIOENCODING": "utf-8"},
        input=typed.encode(),
        capture_output=True,
        timeout=SOON,
        check=False,
    )
    assert b"Traceback" not in done.stderr, done.stderr.decode()
    return Told(done.returncode, done.stdout.decode(), done.stderr.decode())


def session(name: str) -> Session:
    run = guide(name)
    return Session(run, pathlib.Path(run.exchange).read_bytes())


def lines(held: Session, *commands: str) -> List[str]:
    """What commands tell."""
    return [line for one in commands for line in held.do(one)]


ASKED = (
    (("b WHICH", "c", "p P"), "P = 0"),
    (("b WHICH", "c", "s", "p P"), "P = 4"),
    (("b 24", "c", "where"), "job 2, statement 7: CALL 4 to DESK, level B, F1, line 3"),
    (("u SUM(4)",), "DESK:22  EXIT;"),
    (("u ASKED changes",), "FEES:35  SEND WHICH WITH P;"),
    (("b 24", "c", "f"), "FEES:36  RETRIEVE KIND WITH K;"),
    (("b 19", "c", "n"), "DESK:20  RETRIEVE COST WITH N;"),
    (("b 19", "c", "n", "rn"), "DESK:19  SEND PRICE WITH P;"),
    (("b 19", "c", "n", "rs"), "FEES:37  RETURN COST WITH 2;"),
    (("c", "rj"), "DESK:18  ENTER CALL WITH P;"),
    (("c", "ru WHICH", "p sum"), "DESK.SUM = 0 in 7 other records"),
    (("g 3", "info jobs"), "0 lines of the signal file to come"),
    (("g end",), "The run is over after 3 jobs: END DONE"),
    (("c", "run"), "DESK:15  ENTER SET WITH P, N;"),
    (("s", "", ""), "DESK:18  ENTER CALL WITH P;"),
    (("info block FEES",), "FEES.ASKED = 0"),
    (("info breakpoints",), "no breakpoints"),
    (("watch LINES(4)", "c", "info breakpoints"), "1  watchpoint  DESK.LINES(4), met 1 time"),
)


@pytest.mark.parametrize("commands, last", ASKED, ids=[" ".join(one) for one, _ in ASKED])
def test_command(commands: Sequence[str], last: str) -> None:
    """The last line that commands tell."""
    assert lines(session("ask"), *commands)[-1].startswith(last)


WRONG = (
    ("foo", "no command foo: help tells all"),
    ("stp", "no command stp; step is one: help tells all"),
    ("s 0", "it takes a number from 1 to 10,000, and not 0"),
    ("s one", "it takes a number from 1 to 10,000, and not one"),
    ("b NOWHERE", "NOWHERE is no line, signal or block"),
    ("b 999", "no statement stands at line 999 or behind it"),
    ("b CALS", "CALS is no line, signal or block; CALL is one"),
    ("p SUN", "no data SUN"),
    ("p SUM(8)", "DESK.SUM has 8 records, from 0 on, and no record 8"),
    ("p ASKED(1)", "FEES.ASKED is a variable, which has no records"),
    ("p FEE.ASKED", "no block FEE; FEES is one"),
    ("p SUM(X)", "X is no number and no temporary of the block"),
    ("p \x1b[31m", r"\u{1b}[31M is no name"),
    ("watch", "it takes a name"),
    ("u", "it takes a line, a signal, a block, or a name"),
    ("u SUM grows", "it takes a line, a signal, a block, or a name"),
    ("d 1", "there is no breakpoint 1"),
    ("info", "it takes one of jobs, buffers"),
    ("info jobs now", "info jobs takes no word"),
    ("g", "it takes the number of a job, or `end`"),
    ("g 10000001", "it takes a number from 1 to 10,000,000, and not 10000001"),
    ("s 10001", "it takes a number from 1 to 10,000, and not 10001"),
    ("run fast", "it takes no word, and not fast"),
)


@pytest.mark.parametrize("line, message", WRONG, ids=[ascii(line)[1:-1] for line, _ in WRONG])
def test_wrong_command(line: str, message: str) -> None:
    """A wrong command says what is wrong, and changes nothing."""
    held = session("ask")
    with pytest.raises(Refused) as refused:
        lines(held, line)
    assert str(refused.value).startswith(message)
    assert held.stepper.place == FIRST


def test_script(tmp_path: pathlib.Path) -> None:
    """A script is echoed, writes the same each time, and ends at a wrong command."""
    folder = GUIDE / "ask"
    words = [folder / "exchange.plex", folder / "signals.txt"]
    script = tmp_path / "script"
    script.write_text("! a comment\n\nb WHICH\nc\nwhere\n")
    first = told(*words, "-x", script, "-e", "quit", "-e", "s")
    assert first == told(*words, "-x", script, "-e", "quit", "-e", "s")
    assert first.status == 0 and not first.complaint
    commands = [line for line in first.wrote.splitlines() if line.startswith("(plex)")]
    assert commands == ["(plex) b WHICH", "(plex) c", "(plex) where", "(plex) quit"]
    wrong = told(*words, "-e", "foo", "-e", "s")
    assert wrong.status == 1 and wrong.wrote.endswith("no command foo: help tells all\n")
    typed = told(*words, typed="foo\ns\n\n")
    assert typed.status == 0 and typed.wrote.splitlines()[-1] == "DESK:17  EXIT;"


def test_limit() -> None:
    """The run ends after so many jobs."""
    folder = GUIDE / "ask"
    done = told(folder / "exchange.plex", folder / "signals.txt", "--limit", "2", "-e", "c")
    assert done.status == 0 and "over after 2 jobs: END LIMIT" in done.wrote


def test_table_of_periodic_signals() -> None:
    """With a table the run is that of both files, merged."""
    folder = GUIDE / "time_out"
    names = [folder / name for name in ("exchange.plex", "signals.txt", "ticks.txt")]
    assert names[2].exists()
    done = told(*names, "-e", "c")
    assert done.status == 0 and "report are those of plex" in done.wrote


def test_faults_of_files(tmp_path: pathlib.Path) -> None:
    """Faults are told as plex-check tells them, with the status of plex."""
    text = GUIDE / "first_refusal" / "exchange.plex"
    signals = GUIDE / "ask" / "signals.txt"
    done = told(text, signals, "-e", "c")
    assert done.status == 2
    assert ":8:3: NOTINSURVEY: the survey of block METER has no line RECEIVE CALL;" in done.wrote
    strange = tmp_path / "strange"
    strange.write_text("AFTER 0 CALL DESK\n")
    done = told(GUIDE / "ask" / "exchange.plex", strange)
    assert done.status == 3 and ":1:" in done.wrote
    assert told(tmp_path / "none", signals).status == 2


def test_escapes(tmp_path: pathlib.Path) -> None:
    """What would steer a terminal is told by escapes: in comments, and in names of files."""
    text = (GUIDE / "ask" / "exchange.plex").read_bytes()
    name = tmp_path / "a\x1b[31m\"' <script>"
    comment = b"! \x1b[2J\x9b <script>\"' " + b"y" * 4096 + b"\n  ENTER CALL"
    name.write_bytes(text.replace(b"ENTER CALL", comment))
    done = told(name, GUIDE / "ask" / "signals.txt", "-e", "l 18", "-e", "\x1b]0;x\x07")
    assert done.status == 1 and r"\u{1b}[2J" in done.wrote
    assert not any(letter in done.wrote + done.complaint for letter in "\x1b\x07\x9b")


def test_completion() -> None:
    """The begin of a word is completed to commands, signals, blocks and names."""
    held = session("ask")
    found = [command.complete(held, "W", place) for place in range(3)]
    assert found == ["watch", "w", "where"] or "WHICH" in found
    assert command.complete(held, "DES", 0) == "DESK"
    assert command.complete(held, "zz", 0) is None
