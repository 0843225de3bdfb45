"""The tools for users where a standard stream cannot be used: full, closed, or read by nobody."""
import os
import pathlib
import subprocess
import sys
from typing import Dict, NamedTuple, Tuple

import pytest

from gate import harness

BIN = harness.ROOT / "tools" / "bin"
SOON = 120
NO_SPACE = "the output could not be written: No space left on device\n"
CLOSED = "the output could not be written: Bad file descriptor\n"
OUTPUTS = {">/dev/full": NO_SPACE, ">&-": CLOSED}
FILES = {
    "E": (harness.ROOT / "examples/guide/ask/exchange.plex").read_bytes(),
    "S": (harness.ROOT / "examples/guide/ask/signals.txt").read_bytes(),
    "refused": b"BLOCK\n",
}
USAGE = 2  # where the words are wrong
Words = Tuple[str, ...]


class Tool(NamedTuple):
    """The status of a tool where its output cannot be written, and words by which it writes one;
    that of wrong words.
    """

    unwritten: int
    uses: Tuple[Words, ...]
    usage: int = USAGE


TOOLS: Dict[str, Tool] = {
    "plex-check": Tool(3, (("refused",),), 3),
    "plex-format": Tool(2, (("--diff", "E"),)),
    "plex-lsp": Tool(2, (("--version",),)),
    "plex-why": Tool(2, (("E",), ("refused",))),
    "plex-load": Tool(2, (("E", "S"), ("E", "E"))),
    "plex-page": Tool(2, ()),
    "plex-chart": Tool(2, (("E", "S"),)),
    "plex-step": Tool(2, (("E", "S"), ("-e", "where", "E", "S"), ("refused", "S"))),
    "plex-test": Tool(1, (("case",), ("--list", "case"))),
    "pairs_dot": Tool(1, (("A",),)),
    "pairs_table": Tool(1, (("A",),)),
}
CALLS = [(name, words) for name, tool in TOOLS.items() for words in (("--help",), *tool.uses)]


class Told(NamedTuple):
    """How a call ended, and what it wrote."""

    status: int
    wrote: str
    complaint: str


@pytest.fixture
def place(
    tmp_path: pathlib.Path, plex: pathlib.Path, merger: pathlib.Path, conflicts: pathlib.Path
) -> pathlib.Path:
    """A folder with the files that are named."""
    analysis = harness.answer(plex, ["analyse", harness.ROOT / "examples/pairs/exchange.plex"])
    harness.write_files(tmp_path, {**FILES, "A": analysis.wrote})
    case = tmp_path / "case"
    case.mkdir()
    harness.write_files(case, {"exchange.plex": FILES["E"], "signals.txt": FILES["S"]})
    return tmp_path


def told(place: pathlib.Path, name: str, words: Words, streams: str = "") -> Told:
    """A call of a tool, with the streams as the shell has them."""
    line = [sys.executable, str(BIN / name), *words]
    done = subprocess.run(
        ["sh", "-c", f'exec "$@" {streams}', "sh", *line],
        cwd=place,
        stdin=subprocess.DEVNULL,
        capture_output=True,
        timeout=SOON,
        check=False,
    )
    return Told(done.returncode, done.stdout.decode(), done.stderr.decode())


def told_by(name: str, complaint: str) -> str:
    """What a tool complains of, without what plex says of a text that it refuses."""
    assert "Traceback" not in complaint
    lines = complaint.splitlines(keepends=True)
    return "".join(line for line in lines if line.startswith(f"{name}: "))


def test_each_tool_is_here() -> None:
    assert {*TOOLS} == {path.name for path in BIN.iterdir() if path.is_file()}


@pytest.mark.parametrize("output", OUTPUTS)
@pytest.mark.parametrize(("name", "words"), CALLS, ids=lambda one: str(one))
def test_output(place: pathlib.Path, name: str, words: Words, output: str) -> None:
    """An output that cannot be written is told in one line, and by the status. Where plex refuses
    a text it has told so before.
    """
    got = told(place, name, words, output)
    assert (got.status, got.wrote) == (TOOLS[name].unwritten, "")
    assert told_by(name, got.complaint) == f"{name}: {OUTPUTS[output]}"


@pytest.mark.parametrize(("name", "words"), CALLS, ids=lambda one: str(one))
def test_pipe(place: pathlib.Path, name: str, words: Words) -> None:
    """Where nobody reads the pipe any more, the status alone tells it."""
    reader, writer = os.pipe()
    os.close(reader)
    with open(writer, "wb") as pipe:
        done = subprocess.run(
            [sys.executable, BIN / name, *words],
            cwd=place,
            stdin=subprocess.DEVNULL,
            stdout=pipe,
            stderr=subprocess.PIPE,
            timeout=SOON,
            check=False,
        )
    assert done.returncode == TOOLS[name].unwritten
    assert told_by(name, done.stderr.decode()) == ""


@pytest.mark.parametrize("output", ("2>/dev/full", ">&- 2>&- <&-"))
@pytest.mark.parametrize("name", TOOLS)
def test_standard_error(place: pathlib.Path, name: str, output: str) -> None:
    """What cannot be told changes no status."""
    assert told(place, name, ("--no-such-option",), output) == (TOOLS[name].usage, "", "")


def test_closed_input(place: pathlib.Path) -> None:
    """A closed input is an empty one."""
    assert told(place, "plex-format", (), "<&-") == (0, "", "")
    got = told(place, "pairs_table", (), "<&-")
    assert got.status == 1 and got.complaint.startswith("pairs_table: ")
    got = told(place, "plex-step", ("E", "S"), "<&-")
    assert got.status == 0 and got.wrote.startswith("[job 1: ")


@pytest.mark.parametrize("output", ("", ">file", "| cat", ">/dev/full", ">&-"))
def test_output_as_a_file(place: pathlib.Path, output: str) -> None:
    """The standard output can be named as a file, whatever it is."""
    wanted = told(place, "plex-page", ("E", "-o", "page"))
    assert wanted == (0, "", "")
    page = (place / "page").read_text()
    got = told(place, "plex-page", ("E", "-o", "/dev/stdout"), output)
    if output == ">file":
        assert got == (0, "", "") and (place / "file").read_text() == page
    elif output.startswith(">"):
        complaint = "plex-page: /dev/stdout could not be written: No space left on device\n"
        assert got == (2, "", complaint)
    else:
        assert got == (0, page, "")
