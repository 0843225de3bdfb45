"""The programs on each folder below examples/, as a user runs them: with real files and a real
standard output.

A folder that has a file `words`, `merge` or `conflicts` is a case. `words` has the words of plex,
one a line. What it writes must be `report.txt`, byte for byte; what it says on the standard error
must be `error.txt`, or nothing where there is no such file; and its exit status must be the number
in `status`. A run without a certificate is made by `single` too, and one that names no workers with
one worker too; they must write the same. Words that have no shape are tried as they stand. `merge`
has the words of plex-merge. Where there are `words` too, what it writes must be `merged.txt`, its
status 0, and plex is run next; else it is compared as plex is. `conflicts` has the words of
plex-conflicts, which is compared as plex is. Where no variable names another program, the launchers
are called, as a user calls them.
"""
from __future__ import annotations

import functools
import os
import pathlib
import subprocess
from typing import NamedTuple, Sequence

import pytest

from gate import harness
from gate.checking import EXAMPLES, check, check_enough, read_words
from plextools import programs

FOLDERS = {path.parent for item in programs.PROGRAMS for path in EXAMPLES.rglob(item.words)}
NAMES = sorted(str(folder.relative_to(EXAMPLES)) for folder in FOLDERS)
DONE, USAGE, LEAST, LONGEST = 0, 1, 90, harness.WHILE
ANSWERED = "--help", "-h", "--version"
ENVIRONMENT = {name: value for name, value in os.environ.items() if name != "PLEX_PROGRESS"}


class Wanted(NamedTuple):
    """What a run must come to."""

    status: int
    report: bytes
    error: bytes


def wanted_in(folder: pathlib.Path) -> Wanted:
    """What the run of a folder must come to."""
    error = folder / "error.txt"
    return Wanted(
        int((folder / "status").read_text()),
        (folder / "report.txt").read_bytes(),
        error.read_bytes() if error.exists() else b"",
    )


def without_workers(words: Sequence[str]) -> list[str]:
    """The words without those that name the workers."""
    if "--workers" not in words:
        return list(words)
    place = words.index("--workers")
    return [*words[:place], *words[place + 2 :]]


def run(
    called: pathlib.Path, words: Sequence[str], folder: pathlib.Path
) -> subprocess.CompletedProcess[bytes] | None:
    """A run of a program as it ended; None where no answer came in time."""
    try:
        return subprocess.run(
            [called, *words],
            cwd=folder,
            env=ENVIRONMENT,
            stdin=subprocess.DEVNULL,
            stdout=subprocess.PIPE,
            stderr=subprocess.PIPE,
            timeout=LONGEST,
        )
    except subprocess.TimeoutExpired:
        harness.late()
        return None


@functools.lru_cache(maxsize=None)
def launcher(program: programs.Program) -> pathlib.Path:
    """What a user calls; it is looked once whether all that it is built of is fresh."""
    return harness.find_launcher(program)


def called_for(program: programs.Program, words: Sequence[str]) -> pathlib.Path:
    """What these words are given to. Help and the version are what the launcher answers by itself,
    so the program is asked for these.
    """
    alone = words[0] if len(words) == 1 else ""
    return harness.found(program) if alone in ANSWERED else launcher(program)


class Runner:
    """Runs the programs in the folder of an example, and compares what comes of it."""

    def __init__(self, folder: pathlib.Path) -> None:
        self.folder, self.wanted = folder, wanted_in(folder)

    def compare(
        self, program: programs.Program, words: Sequence[str], wanted: Wanted | None = None
    ) -> None:
        """Fails where a run comes to something else than this, or than what the files say."""
        done = run(called_for(program, words), words, self.folder)
        shown = " ".join([program.name, *words])
        if done is None:
            check(f"{shown}: no answer in time")
            return
        got = Wanted(done.returncode, done.stdout, done.stderr)
        check(
            *(
                f"{shown}: {part} {one!r} and not {other!r}"
                for part, one, other in zip(Wanted._fields, got, wanted or self.wanted)
                if one != other
            )
        )

    def compare_plex(self) -> None:
        """The same of plex, and of `single` and one worker beside it."""
        words = read_words(self.folder / "words")
        self.compare(harness.PLEX, words)
        if words[:1] != ["run"] or self.wanted.status == USAGE:
            return
        if "--cert" not in words:
            self.compare(harness.PLEX, ["single", *without_workers(words[1:])])
        if "--workers" not in words:
            self.compare(harness.PLEX, [*words, "--workers", "1"])


@pytest.mark.parametrize("name", NAMES)
def test_example(name: str) -> None:
    """An example comes to what its files say."""
    folder = EXAMPLES / name
    runner = Runner(folder)
    if (folder / "conflicts").exists():
        runner.compare(harness.CONFLICTS, read_words(folder / "conflicts"))
    elif not (folder / "merge").exists():
        runner.compare_plex()
    elif not (folder / "words").exists():
        runner.compare(harness.MERGER, read_words(folder / "merge"))
    else:
        merged = Wanted(DONE, (folder / "merged.txt").read_bytes(), b"")
        runner.compare(harness.MERGER, read_words(folder / "merge"), merged)
        runner.compare_plex()


def test_all_examples_are_there() -> None:
    """No example is lost."""
    check_enough("examples", NAMES, LEAST)
