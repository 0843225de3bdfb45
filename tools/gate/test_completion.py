"""The table of words that shells complete and --help tells, beside --help, the manual pages, and
what bash completes; the files that are made of it; and what --version tells.
"""
import importlib
import os
import pathlib
import re
import shutil
import subprocess
import sys
from typing import List, Set

import pytest

from gate import harness
from plextools.commands.command_words import COMMANDS, OF_PLEX, Command

MAINTAIN = harness.ROOT / "tools" / "maintain"
PLACE = MAINTAIN / "completions"
OPTION = re.compile(r"(?<![\w-])--?[a-z][a-z-]*")
PAGE_OPTION = re.compile(r"Fl (-?[a-z-]+)")
PAGE_VALUE = re.compile(r"Fl (-?[a-z-]+) Ar ([a-z]+)")
ALWAYS = {"-h", "--help", "--version"}  # a manual page need not have them
WITH_OPTIONS = [command for command in COMMANDS if command.options]
SHELLS = {"zsh": ["_plex"], "fish": ["*.fish"], "bash": ["*.bash"]}
OF_BASH = ("plex", "plex-merge", "plex-conflicts", "plex-tools")
LONGEST = harness.WHILE


def name_of(command: Command) -> str:
    return command.name


def options(command: Command) -> Set[str]:
    """The options of a command, by the table."""
    return {name for option in command.options for name in option.names}


def page(name: str) -> str:
    return (harness.ROOT / "docs" / f"{name}.1").read_text()


def in_page(text: str) -> Set[str]:
    """The options of a manual page, which begin a paragraph there."""
    lines = [line for line in text.split("\n") if line.startswith(".It Fl ")]
    return {f"-{found}" for line in lines for found in PAGE_OPTION.findall(line)}


def offered(command: str, *words: str) -> List[str]:
    """What bash completes behind some words, the last of which is begun."""
    place = next(path for path in PLACE.glob("*.bash") if is_for(path, command))
    script = (
        f'. {place}; COMP_WORDS=({command} "$@"); COMP_CWORD=$#; '
        "$(complete -p "
        f"{command} | sed 's/.*-F \\([^ ]*\\).*/\\1/'); echo ${{COMPREPLY[@]}}"
    )
    got = subprocess.run(
        ["bash", "-c", script, "bash", *words],
        capture_output=True,
        text=True,
        timeout=LONGEST,
        check=True,
    )
    return got.stdout.split()


def is_for(path: pathlib.Path, command: str) -> bool:
    """Whether a file has what bash completes for a command."""
    lines = path.read_text().splitlines()
    return any(line.startswith("complete -F ") and line.endswith(f" {command}") for line in lines)


def written(command: Command, word: str) -> str:
    """What a tool writes for one word."""
    tool = harness.ROOT / "tools" / "bin" / command.name
    got = subprocess.run(
        [sys.executable, tool, word],
        capture_output=True,
        text=True,
        timeout=LONGEST,
        check=True,
        env={**os.environ, "COLUMNS": "1000"},
    )
    return got.stdout


@pytest.mark.parametrize("command", WITH_OPTIONS, ids=name_of)
def test_help(command: Command) -> None:
    """The options are those that --help tells, with what the head of the command says of it."""
    told = written(command, "--help")
    assert options(command) | ALWAYS == set(OPTION.findall(told)) | ALWAYS
    words = " ".join(told.split())
    for option in command.options:
        value = f" {option.value.upper()}" if option.value else ""
        assert option.names[0] in ALWAYS or f"{option.names[-1]}{value} " in words
        assert option.names[0] in ALWAYS or option.told in words
    module = importlib.import_module(f"plextools.commands.{command.name.partition('-')[2]}")
    assert (module.__doc__ or "").split("\n", 2)[2].strip() in told


@pytest.mark.parametrize("command", WITH_OPTIONS, ids=name_of)
def test_version(command: Command) -> None:
    """The version is that of the sources."""
    assert written(command, "--version") == f"{command.name} {harness.version()}\n"


@pytest.mark.parametrize("command", WITH_OPTIONS, ids=name_of)
def test_page(command: Command) -> None:
    """The options are those of the manual page, and what stands behind each."""
    assert options(command) | ALWAYS == in_page(page(command.name)) | ALWAYS
    values = dict(PAGE_VALUE.findall(page(command.name)))
    for option in command.options:
        for name in set(option.names) - ALWAYS:
            assert values.get(name[1:], "") == option.value, name


@pytest.mark.parametrize("command", WITH_OPTIONS, ids=name_of)
def test_bash(command: Command) -> None:
    """bash offers the same options."""
    assert set(offered(command.name, "-")) | ALWAYS == options(command) | ALWAYS


@pytest.mark.parametrize("command", WITH_OPTIONS, ids=name_of)
def test_values(command: Command) -> None:
    """bash offers the same words behind an option."""
    for option in command.options:
        if option.offered:
            for name in option.names:
                assert set(offered(command.name, name, "")) == set(option.offered), name


def test_commands_of_plex() -> None:
    """The commands of plex and their options are those of its manual page, and of bash."""
    names = [command.name for command in OF_PLEX]
    assert (
        re.findall(r"^\.It Cm (\w+)$", page("plex").split(".Sh DESCRIPTION")[1], re.M)[: len(names)]
        == names
    )
    assert offered("plex", "") == names
    known = {name for command in OF_PLEX for name in options(command)}
    assert known == in_page(page("plex"))
    for command in OF_PLEX:
        got = offered("plex", command.name, *["1"] * command.files, "-")
        assert set(got) == options(command), command.name


def test_files() -> None:
    """The files of shells are the ones that are made of the table."""
    got = subprocess.run(
        [sys.executable, MAINTAIN / "completion", "--check"], capture_output=True, timeout=LONGEST
    )
    assert (got.returncode, got.stdout) == (0, b"")
    made = {path.name for path in PLACE.iterdir()}
    fish = {f"{one.name}.fish" for one in [COMMANDS[0], *WITH_OPTIONS]}
    assert made == {"_plex", *fish, *(f"{name}.bash" for name in OF_BASH)}


@pytest.mark.parametrize("shell", SHELLS)
def test_syntax(shell: str) -> None:
    """A shell reads its files, where it is there."""
    if not shutil.which(shell):
        return
    for pattern in SHELLS[shell]:
        for path in PLACE.glob(pattern):
            subprocess.run([shell, "-n", path], timeout=LONGEST, check=True)
