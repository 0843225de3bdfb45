"""What plex-load and plex-why tell by their options, beside figures worked out by hand: counters,
changes of a text, machines whose workers cost time, loads that are dense, and jobs that do not
count.
"""
from __future__ import annotations

import json
import pathlib
import re
from typing import Any, Iterator, Sequence

import pytest

from gate.checking import check_enough
from gate.document_texts import OUTPUTS
from gate.test_compare_load import EXAMPLE, EXAMPLE_LINES
from gate.test_tool_examples import run
from plextools.runs import load_changes, machine_costs, precision, report

LEAST_COUNTERS = 14

TEXT = """SIGNAL GO SINGLE BUFFERED B DATA 2;
BLOCK K;
DECLARE; VARIABLE V WIDTH {width}; VARIABLE U WIDTH 32; TEMPORARY P; TEMPORARY T;
FILE R SIZE 8; FIELD F WIDTH {width}; FIELD G WIDTH 32;
SURVEY; RECEIVE GO;
PROGRAM;
ENTER GO WITH P, T;
{statement}
EXIT;
END BLOCK;
"""
# A statement, the variable or the field, and whether it is a counter where it is so wide.
COUNTERS: Sequence[tuple[str, str, bool]] = (
    ("V = V + 1;", "V", True),
    ("V = T + V;", "V", True),
    ("V = V - T;", "V", True),
    ("V = 2 * T + V - T / 3;", "V", True),
    ("V = (V + T);", "V", False),
    ("V = V + U;", "V", True),
    ("V = T - V;", "V", False),
    ("V = V + V;", "V", False),
    ("V = V * 2 + 1;", "V", False),
    ("V = V + (V - 1);", "V", False),
    ("V = V + T; T = V;", "V", False),
    ("V = V;", "V", True),
    ("V = T;", "V", False),
    ("V = (V + T) MOD 8;", "V", False),
    ("F(P) = F(P) + T; P = P + 1; F(P) = F(P) + 1;", "F", True),
    ("P = P + 1; F(P) = F(P) + G(P);", "F", True),
    ("P = P + 1; F(P) = F(P) + F(T);", "F", False),
    ("P = P + 1; F(P) = F(T) + 1;", "F", False),
)

# Machines for the first example with 4 workers: a WORK of 15 statements, two ADD of 3, a WORK of 5
# and an ADD of 3, where an ADD follows no other one. Handing out a job takes 2 statements. By the
# verdicts: WORK from 2 to 17, ADD from 4 to 7; at 17 the WORK retires, and the ADD behind it; ADD
# from 19 to 22 and WORK from 21 to 26; ADD from 24 to 27. Where additions commute, and an access to
# N takes 1 more: 2 to 17, 4 to 8, 6 to 10, 8 to 13; four are in the window until 17; 19 to 23.
COSTS = ["--cost-job", "2", "--cost-sync", "1"]
BY_VERDICTS, COMMUTING = 29 / 27, 29 / 23
MACHINES = """! name, a job, a signal, an access
near 20 2 1
plex 4000 20 10
far 100000 5000 500 100
"""
PAYS_FROM = {"near": 21, "plex": 4001, "far": 1001}


@pytest.fixture(autouse=True)
def programs(plex: pathlib.Path, conflicts: pathlib.Path) -> None:
    """The programs that the tools take."""


def told(folder: pathlib.Path, *words: str) -> Any:
    """What a tool writes as JSON."""
    done = run([words[0], "--json", *words[1:]], folder)
    assert (done.returncode, done.stderr) == (0, b"")
    return json.loads(done.stdout)


def write(folder: pathlib.Path, **files: str) -> None:
    for name, content in files.items():
        (folder / name).write_text(content)


@pytest.mark.parametrize("width", [32, 16])
@pytest.mark.parametrize("row", COUNTERS, ids=[row[0] for row in COUNTERS])
def test_counter(folder: pathlib.Path, row: tuple[str, str, bool], width: int) -> None:
    """A conflict is about a counter where both only add to it, and it has 32 bits."""
    statement, name, is_counter = row
    write(folder, E=TEXT.format(statement=statement, width=width))
    pair = told(folder, "plex-why", "E", "0", "0")[0]
    about = [one["counter"] for one in pair["reasons"] if f" K.{name}" in one["reason"]]
    assert about and set(about) == {is_counter and width == 32}
    wrote = run(["plex-why", "E", "0", "0"], folder).stdout.decode()
    assert ("  a counter: both only add to" in wrote) == (is_counter and width == 32)


def test_all_counters_are_there() -> None:
    """No row is lost."""
    check_enough("rows of counters", COUNTERS, LEAST_COUNTERS)


def test_behind(folder: pathlib.Path) -> None:
    """What stands behind a counter is told: the other conflicts, or else the tests."""
    statement = "V = V + 1; G(P) = T; U = T;"
    write(folder, E=TEXT.format(statement=statement, width=32))
    assert told(folder, "plex-why", "E", "0", "0")[0]["behind"] == ["VARIABLE K.U"]
    write(folder, E=TEXT.format(statement="V = V + 1; G(P) = T;", width=32))
    behind = told(folder, "plex-why", "E", "0", "0")[0]["behind"]
    assert behind == ["IF FIRST 0 NOT LATER 0", "IF FORLOPP"]


def test_verdict_with_additions(folder: pathlib.Path) -> None:
    """What a pair is with additions is told where it is something else, of a test too."""
    write(folder, E=TEXT.format(statement="F(P) = F(P) + T; V = V + 1;", width=32))
    pair = told(folder, "plex-why", "E", "0", "0")[0]
    assert pair["later"]["adds"] == ["VAR K.V", "FIELD K.F"]
    assert pair["adding"] == pair["behind"] == ["IF FORLOPP"]
    write(folder, E=TEXT.format(statement="F(P) = F(P) + T;", width=32))
    pair = told(folder, "plex-why", "E", "0", "0")[0]
    assert [one["counter"] for one in pair["reasons"]] == [True, False]
    wrote = run(["plex-why", "E", "0", "0"], folder).stdout.decode()
    assert "  a counter: both only add to F: in either order F is the same;" in wrote
    assert "  behind what is added to: IF FORLOPP\n" in wrote
    write(folder, E=TEXT.format(statement="P = 1; F(P) = F(P) + T;", width=32))
    assert told(folder, "plex-why", "E", "0", "0")[0]["adding"] == ["ALWAYS"]
    write(folder, E=TEXT.format(statement="V = T;", width=32))
    pair = told(folder, "plex-why", "E", "0", "0")[0]
    assert (pair["first"]["adds"], pair["adding"]) == ([], [])


def test_changes_of_pairs(folder: pathlib.Path) -> None:
    """A pair is free, never together or still so, with what is gone and new."""
    write(folder, E=EXAMPLE, E2=EXAMPLE.replace("N = N + 1;", "").replace("S = S + I", "N = N + I"))
    changes = told(folder, "plex-why", "--diff", "E", "E2")
    got = {(row["first"], row["later"]): row for row in changes["pairs"]}
    assert {pair: row["change"] for pair, row in got.items()} == {
        ("ADD K", "ADD K"): "FREE",
        ("ADD K", "SUB K"): "FREE",
        ("SUB K", "ADD K"): "FREE",
        ("SUB K", "WORK K"): "NEVER",
        ("WORK K", "SUB K"): "NEVER",
        ("WORK K", "WORK K"): "NEVER",
    }
    assert got["ADD K", "ADD K"]["gone"] == got["WORK K", "WORK K"]["new"] == ["VARIABLE K.N"]
    # An ADD behind a WORK, which may fault, has a test in both.
    assert changes["counts"] == {"FREE": 3, "NEVER": 3, "STILL": 1, "TESTS": 1}
    back = told(folder, "plex-why", "--diff", "E", "E")
    assert back["pairs"] == [] and back["counts"]["STILL"] == 4


def test_changes_of_a_load(folder: pathlib.Path) -> None:
    """The figures of both texts stand beside one another."""
    write(folder, E=EXAMPLE, E2=EXAMPLE.replace("N = N + 1;", "S = S + 1;"), S=EXAMPLE_LINES)
    changes = told(folder, "plex-load", "--diff", "E", "S", "E2", "--workers", "4")
    assert [changes[side]["workers"][0]["time"] for side in ("before", "after")] == [21, 18]
    row = {"first": "ADD K", "later": "ADD K", "reason": "NEVER VARIABLE K.N"}
    waited: dict[str, Any] = {"before": 18, "after": 0, **row}
    assert changes["waited"] == [waited]


def test_changes_of_statements(folder: pathlib.Path) -> None:
    """The jobs of the second text are its own: each of three ADD has a statement more."""
    write(folder, E=EXAMPLE, E2=EXAMPLE.replace("N = N + 1;", "N = N + 1; N = N;"), S=EXAMPLE_LINES)
    changes = told(folder, "plex-load", "--diff", "E", "S", "E2", "--workers", "4")
    assert [changes[side]["statements"] for side in ("before", "after")] == [29, 29 + 3]


def test_costs_of_a_machine(folder: pathlib.Path) -> None:
    """A load on a machine whose workers cost time."""
    write(folder, E=EXAMPLE, S=EXAMPLE_LINES)
    (row,) = told(folder, "plex-load", "E", "S", *COSTS, "--workers", "4")
    got = row["by_verdicts"][0], row["additions_commute"][0]
    assert got == pytest.approx((BY_VERDICTS, COMMUTING))
    in_ns = ["--cost-job", "50", "--cost-sync", "25", "--statement", "25", "--workers", "4"]
    (other,) = told(folder, "plex-load", "E", "S", *in_ns)
    assert other == row


def test_machines(folder: pathlib.Path) -> None:
    """Each machine tells from which length of jobs workers pay there."""
    write(folder, E=EXAMPLE, S=EXAMPLE_LINES, M=MACHINES)
    rows = told(folder, "plex-load", "E", "S", "--machines", "M", "--workers", "4")
    assert {row["machine"]: row["pays_from"] for row in rows} == PAYS_FROM
    for row in rows:
        assert row["load_pays_from"] > row["load_pays_from_where_additions_commute"] > row["job"]


def test_cost_of_a_signal(folder: pathlib.Path) -> None:
    """A cost is the same by its option and in a file of machines."""
    write(folder, E=EXAMPLE, S=EXAMPLE_LINES, M="near 20 2 1\n")
    (row,) = told(folder, "plex-load", "E", "S", "--machines", "M")
    words = ["--cost-job", "20", "--cost-send", "2", "--cost-sync", "1"]
    (other,) = told(folder, "plex-load", "E", "S", *words)
    assert other == {**row, "machine": other["machine"]} and row["signal"] == 2


def test_jobs_and_workers(folder: pathlib.Path) -> None:
    """The run ends after so many jobs; the figures are those of each count of workers, and what
    jobs waited for is that of the last one.
    """
    write(folder, E=EXAMPLE, S=EXAMPLE_LINES)
    got = told(folder, "plex-load", "E", "S", "--jobs", "4", "--workers", "1", "2", "3")
    assert (got["jobs"], got["ending"]) == (4, "LIMIT")
    assert [row["workers"] for row in got["workers"]] == [1, 2, 3]
    assert got["blockers"]["workers"] == 3


def test_dense(folder: pathlib.Path) -> None:
    """A line of a dense load is there in time, and a load that is spread is told so."""
    write(folder, E=EXAMPLE, S="AFTER 0 WORK K 6 NEW\nAFTER 1 WORK K 6 NEW\n")
    words = ["plex-load", "E", "S", "--workers", "2"]
    spread, dense = told(folder, *words), told(folder, *words, "--dense")
    assert [one["workers"][0]["time"] for one in (spread, dense)] == [30, 15]
    wrote = run(["plex-load", "E", "S", "--workers", "2"], folder).stdout.decode()
    assert "The load is spread: in 50 % of the time with 2 workers" in wrote


def test_skip(folder: pathlib.Path) -> None:
    """The first jobs run but do not count: time begins when the first WORK has retired."""
    write(folder, E=EXAMPLE, S=EXAMPLE_LINES)
    got = told(folder, "plex-load", "E", "S", "--skip", "1", "--workers", "4")
    assert (got["jobs"], got["statements"]) == (4, 14)
    assert got["workers"][0]["time"] == 21 - 15
    assert got["longest_chain"] == 5


def test_precision(folder: pathlib.Path) -> None:
    """Pairs of the example: a WORK beside any job is allowed and commutes; two ADD commute, and are
    allowed with additions alone.
    """
    write(folder, E=EXAMPLE, S=EXAMPLE_LINES)
    got = told(folder, "plex-load", "--precision", "E", "S")
    assert (got["pairs"], got["commuting"], got["allowed"]) == (10, 10, 7)
    assert got["allowed_wrongly"] == 0
    assert got["with_additions"] == {"allowed": 10, "share": 1.0, "allowed_wrongly": 0}
    assert got["with_sums"] == got["with_additions"]
    assert [(row["cause"], row["pairs"]) for row in got["lost"]] == [("COUNTER", 3)]


SUMS: Sequence[tuple[str, int]] = (
    ("P = T MOD 4; G(P) = T;", 2),
    ("P = (T - 1); G(P) = T;", 3),
    ("P = T / 2; G(P) = T;", 3),
    ("P = P + 1; G(P) = T;", 0),
    ("P = T * T; G(P) = T;", 0),
    ("P = 4 + T; G(P) = T;", 0),
    ("P = T MOD 4 + 1; G(P) = T;", 0),
    ("P = T MOD 4; U = T; G(P) = T;", 0),
    ("FOR FIRST P IN R WHERE G = 9 GOTO L; L) G(P) = T;", 0),
)


@pytest.mark.parametrize("row", SUMS, ids=[row[0] for row in SUMS])
def test_precision_with_sums(folder: pathlib.Path, row: tuple[str, int]) -> None:
    """Pairs of jobs that would pass by a start value with one operation and a number."""
    statement, wanted = row
    write(folder, E=TEXT.format(statement=statement, width=32))
    write(folder, S="AFTER 0 GO K 0 1 NEW\nAFTER 0 GO K 0 3 NEW\nAFTER 0 GO K 0 5 NEW\n")
    got = told(folder, "plex-load", "--precision", "E", "S")
    assert (got["pairs"], got["with_additions"]["allowed"]) == (3, 0)
    assert got["with_sums"]["allowed"] == wanted
    assert got["with_sums"]["allowed_wrongly"] == 0


def test_precision_of_order(folder: pathlib.Path) -> None:
    """A pair of which the later job's value stays does not commute."""
    write(folder, E=TEXT.format(statement="V = T;", width=32))
    write(folder, S="AFTER 0 GO K 0 1 NEW\nAFTER 0 GO K 0 2 NEW\n")
    got = told(folder, "plex-load", "--precision", "E", "S")
    assert (got["pairs"], got["commuting"], got["allowed"]) == (1, 0, 0)


WRONG = {
    "three texts": (["--diff", "E", "S", "E", "S", "E"], "--diff takes E S E2 [S2]"),
    "both": (["--diff", "--precision", "E", "S", "E"], "do not go together"),
    "a cost": (["E", "S", "--cost-job", "-1"], "-1 is no cost from 0 to 1000000000"),
    "no cost": (["E", "S", "--cost-job", "x"], "x is no cost from 0 to 1000000000"),
    "no time": (["E", "S", "--cost-job", "1", "--statement", "0"], "takes more than 0 ns"),
    "a statement": (["E", "S", "--statement", "1"], "--statement goes with --cost-job"),
    "no machines": (["E", "S", "--machines", "S"], "S:1: a machine is a name"),
}


@pytest.mark.parametrize("name", WRONG)
def test_wrong_words(folder: pathlib.Path, name: str) -> None:
    """Words that do not fit are refused in one message."""
    write(folder, E=EXAMPLE, S=EXAMPLE_LINES)
    words, message = WRONG[name]
    done = run(["plex-load", *words], folder)
    assert done.returncode == 2 and not done.stdout
    assert message in done.stderr.decode() and done.stderr.count(b"\n") <= 2


# What plex-load writes as JSON, by its form, and the words of OUTPUTS.md that are no members.
DICTIONARIES: Sequence[Any] = (
    report.Figures,
    report.OfPlay,
    report.Blocks,
    report.PairBlocks,
    report.ChangePays,
    report.Exact,
    report.Bound,
    report.OfEntry,
    precision.Figures,
    precision.OfCause,
    machine_costs.OfMachine,
    load_changes.Changes,
    load_changes.Waited,
)
OTHER_WORDS = {"null", "plex trace", "plex-load --json", "--skip", "--precision", "--diff"}


def members(told: object) -> Iterator[str]:
    """The members of objects in JSON, but for those of `reasons`, which are reasons."""
    for one in told if isinstance(told, list) else ():
        yield from members(one)
    for name, value in told.items() if isinstance(told, dict) else ():
        yield name
        yield from members(value) if name != "reasons" else ()


def test_members_are_documented(folder: pathlib.Path) -> None:
    """OUTPUTS.md has each member that plex-load may write, each cause, and no other word."""
    part = OUTPUTS.split("\n## Loads as JSON\n", 1)[1].split("\n## ", 1)[0]
    wanted = {name for one in DICTIONARIES for name in one.__annotations__}
    waits, causes = set(report.WAITS), {cause.name for cause in precision.Cause}
    assert set(re.findall(r"`([^`]+)`", part)) - OTHER_WORDS == wanted | waits | causes
    write(folder, E=EXAMPLE, S=EXAMPLE_LINES, M=MACHINES)
    kinds = "E S", "--precision E S", "E S --machines M", "--diff E S E"
    answers = [told(folder, "plex-load", *kind.split()) for kind in kinds]
    got = {name for answer in answers for name in members(answer)}
    assert got <= wanted | waits and {"exact", "commuting", "pays_from", "before"} <= got
