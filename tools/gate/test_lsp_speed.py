"""How much of the processor plex-lsp takes for an edit of a text of 20,000 statements.

The server waits for 0.05 seconds without a key, and then tells the faults near the edit. What it
takes of the processor until these are told is bounded, so that they are there within 0.2 seconds
where a processor is free; time of a clock would tell how much else the machine does. On a machine
that is slower than the one of the known figures (measured.py) the bound is as much larger. It holds
too where the edit comes while the server looks at the whole text behind an earlier one, and where
that earlier one was in another block.
"""
from __future__ import annotations

import itertools
import os
import re
import time
from typing import Callable, Iterator

import pytest

from gate.lsp_client import LONGEST, Client, Json
from gate.lsp_example import need_module
from measure import measured
from plextools.lsp.checks import PAUSE

pytestmark = pytest.mark.alone

BLOCKS, ENTRIES, TURNS = "ABCDEFGHIJ", 20, 24
MOST_SECONDS = 0.2 - PAUSE
TRIES, MOST_TRIES = 3, 10  # the least of them counts; more are made where it is too much
INTO_WHOLE = 0.1  # so long a look at the whole text has gone on
MOST_OF_ALL = 0.6  # of the time for all blocks, where one of ten has changed
URI = "file:///nowhere/of/all/long.plex"
TICKS = os.sysconf("SC_CLK_TCK")


def statements(entry: int) -> Iterator[str]:
    """What an entry does; no statement stands twice."""
    for turn in range(TURNS):
        number = 1000 * entry + turn
        yield f"  V{turn} = V{turn + 1} + T * {number};"
        yield f"  IF V{turn} > {number} THEN"
        yield f"    S(T) = V{turn} MOD {number + 1};"
        yield f"    SEND OUT WITH V{turn} + {number};"
        yield "  FI;"


def block(name: str) -> Iterator[str]:
    yield from (f"BLOCK {name};", "DECLARE;")
    yield from (f"  VARIABLE V{number} WIDTH 16;" for number in range(TURNS + 1))
    yield from ("  TEMPORARY T;", "  FILE F SIZE 64;", "    FIELD S WIDTH 8;", "SURVEY;")
    yield from (f"  RECEIVE G{name}{entry};" for entry in range(ENTRIES))
    yield from ("  SEND OUT;", "PROGRAM;")
    for entry in range(ENTRIES):
        yield f"  ENTER G{name}{entry} WITH T;"
        yield from statements(entry)
        yield "  EXIT;"
    yield "END BLOCK;"


def text() -> str:
    signals = [f"SIGNAL G{name}{entry}" for name in BLOCKS for entry in range(ENTRIES)]
    lines = [f"{signal} SINGLE BUFFERED B DATA 1;" for signal in signals]
    lines += ["SIGNAL OUT OUTSIDE DATA 1;", *(line for name in BLOCKS for line in block(name))]
    return "\n".join(lines) + "\n"


STATEMENT = re.compile(r"^ *(?:ENTER|EXIT|END|IF|V\d+ =|S\(T\) =|SEND \w+ WITH)", re.M)
TEXT, VERSIONS = text(), itertools.count(2)
# what is edited, what stands there then, and the word that must be told for it, if any
EDITS = {
    "statement": ("  V5 = V6 + T * 19005;", "  V5 = V66 + T * 19005;", "N6"),
    "first of an entry": ("  V0 = V1 + T * 7000;", "  V0 = V1 + T * 7000", "UNEXPECTED"),
    "entry": ("  ENTER GC7 WITH T;", "  ENTER GC7 WITH T, T;", "N11"),
    "variable": ("  VARIABLE V3 WIDTH 16;", "  VARIABLE V3 WIDTH 99;", "N2"),
    "name of a variable": ("  VARIABLE V4 WIDTH 16;", "  VARIABLE V5 WIDTH 16;", "N1"),
    "line of a survey": ("  RECEIVE GB5;", "  RECEIVE GB55;", "N10"),
    "signal": (
        "SIGNAL GD9 SINGLE BUFFERED B DATA 1;",
        "SIGNAL GD9 SINGLE BUFFERED B DATA 9;",
        "N16",
    ),
}


def seconds(client: Client) -> float:
    """What the server has taken of the processor."""
    with open(f"/proc/{client.process.pid}/stat", encoding="ascii") as file:
        numbers = file.read().rpartition(")")[2].split()
    return (int(numbers[11]) + int(numbers[12])) / TICKS


def change(old: str, new: str, find: Callable[[str], int] = TEXT.rindex) -> Json:
    """A change of the last place where a text stands, or of another one."""
    at = find(old)
    line, start = TEXT.count("\n", 0, at), at - TEXT.rfind("\n", 0, at) - 1
    span = {"line": line, "character": start}, {"line": line, "character": start + len(old)}
    return {"range": {"start": span[0], "end": span[1]}, "text": new}


@pytest.fixture(scope="module")
def client() -> Iterator[Client]:
    need_module()
    made = Client()
    made.open(URI, TEXT)
    assert made.diagnostics(URI, 1) == []
    yield made
    made.end()


def test_length() -> None:
    """The text has some 20,000 statements."""
    assert 19500 <= len(STATEMENT.findall(TEXT)) <= 20000


def told_of(client: Client, made: Json) -> set[str]:
    """The words that are told first behind a change."""
    version = next(VERSIONS)
    client.change(URI, version, [made])
    return {one["code"] for one in client.diagnostics(URI, version)}


@pytest.mark.parametrize("name", EDITS)
def test_processor_time(client: Client, name: str) -> None:
    """The faults near an edit come soon, and are gone soon behind its undoing."""
    old, new, word = EDITS[name]
    taken, most = list[float](), 0.0
    while len(taken) < TRIES or min(taken) > most and len(taken) < MOST_TRIES:
        begun = seconds(client)
        told = told_of(client, change(old, new))
        taken.append(seconds(client) - begun)
        assert word in told
        assert word not in told_of(client, undone(old, new))
        most = MOST_SECONDS * measured.pace()
    assert min(taken) <= most, (taken, most)


def undone(old: str, new: str, find: Callable[[str], int] = TEXT.rindex) -> Json:
    """What takes a change back."""
    made = change(old, old, find)
    made["range"]["end"]["character"] += len(new) - len(old)
    return made


def begun(client: Client) -> float:
    """Waits until the look at the whole text has begun; what the server has taken by then."""
    start, end = seconds(client), time.monotonic() + LONGEST
    while seconds(client) < start + INTO_WHOLE:
        assert time.monotonic() < end, "the whole text is not looked at"
        time.sleep(0.01)
    return seconds(client)


def test_whole_given_up(client: Client) -> None:
    """The look at the whole text is given up at an edit. Where that is far from the edit before,
    the faults near both are told.
    """
    old, new, word = EDITS["statement"]
    far_old, far_new = (text.replace("19005", "4005") for text in (old, new))
    taken = []
    for _ in range(TRIES):
        assert told_of(client, change(old, new)) == {word}
        for made, faults in ((change(far_old, far_new, TEXT.index), 2), (undone(old, new), 1)):
            start, version = begun(client), next(VERSIONS)
            client.change(URI, version, [made])
            told = client.diagnostics(URI, version)
            taken.append(seconds(client) - start)
            assert [one["code"] for one in told] == [word] * faults
        assert not told_of(client, undone(far_old, far_new, TEXT.index))
    most = MOST_SECONDS * measured.pace()
    assert sorted(taken)[TRIES - 1] <= most, (taken, most)


def whole(client: Client, made: Json, several: int) -> float:
    """What the server takes until the whole text has been looked at behind a change."""
    start, version = seconds(client), next(VERSIONS)
    client.change(URI, version, [made])
    assert client.diagnostics(URI, version, several) == []
    return seconds(client) - start


def test_other_blocks_kept(client: Client) -> None:
    """The ways through blocks that did not change are not looked at again."""
    everything = [whole(client, {"text": text}, 1) for text in (TEXT.replace("MOD", "+"), TEXT)]
    edits = [("T * 19005;", "T * 9;"), ("T * 19006;", "T * 8;")]
    one_block = [whole(client, change(*edit), 2) for edit in edits]
    assert min(one_block) <= MOST_OF_ALL * min(everything), (one_block, everything)
