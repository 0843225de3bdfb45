"""A load whose figures are worked out by hand, and loads that are told by a trace. For
`test_compare_load.py` and `test_compare_bounds.py`.

`Loads` makes loads of texts, counts what is compared of them, and notes what does not hold.
`compared(figures)` gives each figure of the load `TEXT` with `LINES`, with what it must be.
`of_trace(load, traced, patience)` gives what of a load that is told by a trace is otherwise than
the run has it.
"""
import pathlib
from collections import Counter
from typing import Any, Dict, Iterator, List, NamedTuple, Sequence, Set

from plextools.analysis.why import Exchange
from plextools.runs.jobs import Load, jobs_of
from plextools.runs.report import Figures

TEXT = """SIGNAL ADD SINGLE BUFFERED B DATA 0;
SIGNAL SUB SINGLE BUFFERED B DATA 0;
SIGNAL WORK SINGLE BUFFERED B DATA 1;
BLOCK K;
DECLARE; VARIABLE N WIDTH 32; TEMPORARY T; TEMPORARY I; TEMPORARY S;
SURVEY; RECEIVE ADD; RECEIVE SUB; RECEIVE WORK;
PROGRAM;
ENTER ADD;
N = N + 1;
EXIT;
ENTER SUB;
N = N - 1;
EXIT;
ENTER WORK WITH T;
ON I FROM 1 UPTO T DO
  S = S + I;
NO;
EXIT;
END BLOCK;
"""
LINES = """AFTER 0 WORK K 6 NEW
AFTER 0 ADD K NEW
AFTER 0 SUB K NEW
AFTER 0 WORK K 1 NEW
AFTER 0 ADD K NEW
AFTER 0 WORK K 1 AS 1
"""
# An ADD and a SUB have 3 statements, and WORK of k turns 3 + 2 k: 15, 3, 3, 5, 3 and 5, which are
# 34. The first and the last WORK are of one forlopp, and the longest chain: 20. With 4 workers:
#   0 to 15   the first WORK and an ADD; the SUB waits for the ADD, which retires behind the WORK
#  15 to 18   the SUB and the second WORK; the second ADD waits for the SUB
#  18 to 20   the second WORK, the second ADD and the third WORK; no other job comes
#  20 to 21   the second ADD and the third WORK
#  21 to 23   the third WORK
# With 2 workers the two are full until 21, when the third WORK has 4 statements left. Without the
# variable N the first four begin at 0 and the other two at 15; so they do where one of the two
# pairs alone is left out, or where the other one is.
STATEMENTS, TIME, WITHOUT = 34, 23, 20
PAIRS: List[Dict[str, Any]] = [
    {"first": 0, "later": 1, "waited": 15},
    {"first": 1, "later": 0, "waited": 3},
]
CHANGE: Dict[str, Any] = {"change": "VARIABLE K.N", "waited": 18, "pairs": 2}
WORKERS = {1: 34, 2: 25, 4: TIME, 64: TIME}


class Compared(NamedTuple):
    """A figure, what it is and what it must be."""

    name: str
    got: object
    wanted: object


class Loads:
    """Compares loads whose files stand in a folder."""

    keeps_facts = False

    def __init__(self, folder: pathlib.Path) -> None:
        self.folder, self.counts, self.wrong = folder, Counter[str](), list[str]()

    def need(self, holds: object, what: str, told: str) -> None:
        """Counts what is compared, and notes what does not hold."""
        self.counts[what] += 1
        if not holds:
            self.wrong.append(f"{what}: {told}")

    def exchange(self, content: bytes) -> Exchange:
        """An exchange as plex-load has it."""
        (self.folder / "E").write_bytes(content)
        return Exchange(str(self.folder / "E"), keeps_facts=self.keeps_facts)

    def load_of(
        self,
        exchange: Exchange,
        signals: bytes,
        limit: int,
        patience: int,
        touches: bool = False,
    ) -> Load:
        """The jobs of a run."""
        (self.folder / "S").write_bytes(signals)
        return jobs_of(exchange, str(self.folder / "S"), limit, patience, touches)


def compared(told: Figures) -> Iterator[Compared]:
    """Each figure of the example."""
    yield Compared("statements", told["statements"], STATEMENTS)
    yield Compared("longest chain", told["longest_chain"], 15 + 5)
    for row in told["workers"]:
        yield Compared(f"time with {row['workers']}", row["time"], WORKERS[row["workers"]])
    four = next(row for row in told["workers"] if row["workers"] == 4)
    waits = four["stood_still_for"]
    yield Compared("waits", (waits["pair"], waits["end"]), (15 + 3, 2 + 1 + 2))
    standing = round(four["jobs_in_window"] * four["time"])
    yield Compared("in the window", standing, 2 * 15 + 2 * 3 + 3 * 2 + 2 * 1 + 1 * 2)
    speed = round(STATEMENTS / WITHOUT, 9)
    pairs = told["blockers"]["pairs"]
    yield Compared("pairs", len(pairs), len(PAIRS))
    for got, wanted in zip(pairs, PAIRS):
        some: Dict[str, Any] = dict(got)
        yield Compared("a pair", {name: some[name] for name in wanted}, wanted)
        yield Compared("its reason", some["reason"], "NEVER VARIABLE K.N")
        yield Compared("its speed-up", round(some["speed_up_without_it"], 9), speed)
    changes: List[Dict[str, Any]] = [dict(row) for row in told["blockers"]["changes"]]
    got_changes = [{name: row[name] for name in CHANGE} for row in changes]
    yield Compared("the changes", got_changes, [CHANGE])
    yield Compared(
        "their speed-up", [round(row["speed_up_without_it"], 9) for row in changes], [speed]
    )
    entries = [(row["signal"], row["jobs"], row["least"], row["most"]) for row in told["entries"]]
    wanted_entries = [("WORK", 3, 5, 15), ("ADD", 2, 3, 3), ("SUB", 1, 3, 3)]
    yield Compared("entries", entries, wanted_entries)


# loads by a trace


def half(load: Load) -> int:
    """A patience by which about half of a load is done statement by statement; below 0 where its
    first job is all of it.
    """
    return load.statements // 2 if len(load.ran) > 1 else -1


def of_trace(load: Load, traced: Load, patience: int, seizes: Sequence[Set[str]]) -> Iterator[str]:
    """The lengths of the jobs, by the mean of those of their entry that were done within patience,
    and the files of which their forlopps may have seized records before them.
    """
    done: Dict[int, List[int]] = {}
    count = 0
    for job in load.ran:
        count += job.length
        if count > patience:
            break
        done.setdefault(job.entry, []).append(job.length)
    every = [length for lengths in done.values() for length in lengths]
    mean = max(1, round(sum(every) / len(every))) if every else 1
    held: Dict[int, Set[str]] = {}
    for job in traced.ran:
        lengths = done.get(job.entry)
        wanted = max(1, round(sum(lengths) / len(lengths))) if lengths else mean
        if job.length != wanted:
            yield f"a traced job of entry {job.entry} is {job.length} long and not {wanted}"
        files = held.setdefault(job.forlopp, set())
        if set(job.held) != (files if job.forlopp else set()):
            yield f"a traced job of entry {job.entry} holds {job.held} and not {sorted(files)}"
        files |= seizes[job.entry]
