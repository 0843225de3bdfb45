"""The planted faults: each is one of a check, an edit fits its file, and README.md lists all."""
import pathlib
import re

import pytest

from gate.planted import tables
from gate.planted.checks import ALONE, CHECKS, TESTS, file_of
from gate.planted.planted import Edit, Planted
from plextools import programs
from plextools.commands.command_words import COMMANDS, OF_PLEX, Command

ROOT = pathlib.Path(__file__).resolve().parents[2]
README = ROOT / "tools" / "gate" / "planted" / "README.md"
GATE = ROOT / ".ci" / "run"
WHOLE = ("not alone", "alone")  # the gate runs all tests, in two parts
LEAST = 240
OPTION = re.compile(r"--?[a-z][a-z-]*")
QUOTED = re.compile(r"`([^`]*)`")
SHARED = {"--help", "--version"}  # what all tools take in the same way


def test_names() -> None:
    """No name stands twice, and there are as many as there were."""
    names = [row.name for row in tables.PLANTED]
    assert len(set(names)) == len(names) >= LEAST


@pytest.mark.parametrize("row", tables.PLANTED, ids=lambda row: str(row.name))
def test_row(row: Planted) -> None:
    """A row names a check and a program that are there, and an edit fits its file once, which is of
    the tools, since they alone are copied.
    """
    assert row.check in CHECKS
    if isinstance(row, Edit):
        assert row.file.startswith("tools/")
        text = (ROOT / row.file).read_text()
        assert text.count(row.old) == 1 and row.new != row.old
    else:
        assert row.program in programs.BY_NAME


@pytest.mark.parametrize("name", TESTS)
def test_alone(name: str) -> None:
    """Planted faults of a check that measures time are tried alone, as the check itself is run."""
    assert (name in ALONE) == ("pytest.mark.alone" in (ROOT / file_of(name)).read_text())


def planted_in(tool: str) -> set[str]:
    """The commands and the options of a tool that rows are about: those which stand in what is
    told of them, in backquotes.
    """
    found: set[str] = set()
    for row in tables.PLANTED:
        if tool == (row.tool if isinstance(row, Edit) else row.program):
            found.update(() if isinstance(row, Edit) else row.commands)
            found.update(OPTION.findall(" ".join(QUOTED.findall(row.told))))
    return found


@pytest.mark.parametrize("command", COMMANDS, ids=lambda one: str(one.name))
def test_options(command: Command) -> None:
    """Each tool has rows, and so has each option; of plex each command and each of their
    options.
    """
    assert any(command.name in (row.of.split("`")) for row in tables.PLANTED)
    parts = OF_PLEX if command.name == "plex" else [command]
    needed = [set(option.names) - SHARED for part in parts for option in part.options]
    needed += [{part.name} for part in parts if part is not command]
    found = planted_in(command.name)
    assert not [names for names in needed if names and not names & found]


def test_shared_options() -> None:
    """What all tools take in the same way has rows."""
    assert SHARED <= {word for one in COMMANDS for word in planted_in(one.name)}


@pytest.mark.parametrize("name", CHECKS)
def test_check(name: str) -> None:
    """A check is one that the gate runs."""
    text = GATE.read_text()
    if name in TESTS:
        assert (ROOT / file_of(name)).is_file()
        for part in WHOLE:
            assert re.search(rf'^ *step pytest-3 .*-m "?{part}"? tools/gate$', text, re.M)
    else:
        assert f"step {' '.join(CHECKS[name])}\n" in text


def test_readme() -> None:
    """README.md has the list that `run --list` writes."""
    assert tables.listed() in README.read_text(), "tools/gate/planted/run --list writes another one"
