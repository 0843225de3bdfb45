"""The limits of the tools are those of the program: `plextools.limits` beside the sources of its
crates."""
import pathlib
import re

import pytest

from gate import harness
from plextools import limits

CRATES = harness.ROOT / "crates"
CONSTANT = re.compile(r"^pub const (\w+): \w+ = ([\d_]+);$", re.M)
# What the crate plex_limits does not have: a name of the tools, a file of the program, and what
# stands there with the number in its group.
ELSEWHERE = [
    ("MOST_LETTERS", "plex_num/src/name.rt", r"ArrayVec<u8, (\d+)>"),
    ("MOST_PERIODIC_SIGNALS", "job_table/src/period.rt", r"pub const MOST_LINES: u64 = ([\d_]+);"),
    ("LEAST_LENGTH", "offload_policy/src/lengths.rt", r"\nconst LEAST: u64 = ([\d_]+);"),
    ("LENGTH_ALONE", "offload_policy/src/lengths.rt", r"\nconst ALONE: u64 = ([\d_]+);"),
    ("USUAL_JOBS", "command_words/src/command.rt", r"pub const USUAL_JOBS: u32 = ([\d_]+);"),
]
# What follows from a number being of 32 bits.
NUMBERS = {
    "MOST_WIDTH": 32,
    "NUMBERS": 2**32,
    "LARGEST_NUMBER": 2**32 - 1,
    "MOST_DIGITS": len(str(2**32 - 1)),
}
# From how many statements on a job is handed to another worker: what is chosen for that, and where
# documents say so, each with the words around the number.
CHOSEN = ("USUAL_WORKERS", "INSTRUCTIONS_OF_STATEMENT", "LONG_JOB")
LENGTH = "LEAST.saturating_add(ALONE / u64::from(workers).max(1))"
TOLD = [
    ("docs/guide/17-which-change-pays.md", r"only if it has some ([\d,]+) statements or more"),
    ("docs/plex-load.1", r"only where it has some ([\d,]+) statements\nor more with four workers"),
    ("docs/PERFORMANCE.md", r"the former are some ([\d,]+) statements"),
    ("examples/guide/charging/load.txt", r"hands jobs to other workers from some (\d+) on"),
]
IN_INSTRUCTIONS = [
    ("docs/PERFORMANCE.md", r"([\d,]+)\s+instructions in the mean with 4 workers, ([\d,]+) with"),
    ("docs/THREADS.md", r"([\d,]+) with four workers, ([\d,]+) with 64"),
]


def named(path: pathlib.Path) -> dict[str, int]:
    """The constants of a source, each with its number."""
    return {name: int(number) for name, number in CONSTANT.findall(path.read_text())}


def told() -> dict[str, int]:
    """All limits of the tools."""
    return {name: value for name, value in vars(limits).items() if name.isupper()}


def test_limits_of_the_crate() -> None:
    """Those of plex_limits are all there, with its numbers."""
    ours = told()
    assert {name: ours.get(name) for name in named(CRATES / "plex_limits/src/limits.rt")} == named(
        CRATES / "plex_limits/src/limits.rt"
    )


@pytest.mark.parametrize(("name", "file", "pattern"), ELSEWHERE, ids=[row[0] for row in ELSEWHERE])
def test_limits_elsewhere(name: str, file: str, pattern: str) -> None:
    """A limit that stands elsewhere in the program is the same there."""
    found = re.search(pattern, (CRATES / file).read_text())
    assert found and int(found[1]) == told()[name]


def test_no_other_limits() -> None:
    """There is no limit that is compared with nothing."""
    crate = named(CRATES / "plex_limits/src/limits.rt")
    assert set(told()) == {*crate, *(row[0] for row in ELSEWHERE), *NUMBERS, *CHOSEN}


def test_numbers() -> None:
    """What follows from the width of a number."""
    assert {name: told()[name] for name in NUMBERS} == NUMBERS


def number(words: str) -> int:
    return int(words.replace(",", ""))


def length(workers: int) -> int:
    """How many instructions a job makes that is handed to another one of so many workers."""
    return limits.LEAST_LENGTH + limits.LENGTH_ALONE // workers


def test_how_a_long_job_is_told() -> None:
    """The program reckons the length of a long job as the tools do."""
    source = " ".join((CRATES / "offload_policy/src/lengths.rt").read_text().split())
    assert LENGTH in source
    assert limits.LONG_JOB == length(limits.USUAL_WORKERS) // limits.INSTRUCTIONS_OF_STATEMENT


@pytest.mark.parametrize(("name", "pattern"), TOLD, ids=[name for name, _ in TOLD])
def test_documents_tell_a_long_job(name: str, pattern: str) -> None:
    """A document, or what plex-load prints, has the number of the tools."""
    found = re.findall(pattern, (harness.ROOT / name).read_text())
    assert [number(words) for words in found] == [limits.LONG_JOB]


@pytest.mark.parametrize(
    ("name", "pattern"), IN_INSTRUCTIONS, ids=[name for name, _ in IN_INSTRUCTIONS]
)
def test_documents_tell_instructions(name: str, pattern: str) -> None:
    """A document has the instructions of a long job for 4 workers and for 64."""
    found = re.findall(pattern, (harness.ROOT / name).read_text())
    assert [[number(one) for one in row] for row in found] == [[length(4), length(64)]]
