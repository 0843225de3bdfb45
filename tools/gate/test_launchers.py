"""The launchers' own answers: help and the version, on the standard output with status 0.

The launchers are the scripts ./plex, ./plex-merge, ./plex-conflicts and the script that is
installed under these names. What they tell is made of what the programs say: here it is compared
with the usage lines and the sentences of examples/usage_help, and with the synopsis of docs/plex.1.
"""
from __future__ import annotations

import pathlib
import re
import shutil
import subprocess

import pytest

from gate import harness
from gate.checking import EXAMPLES, ROOT, TOOLS
from plextools import programs

HELP = EXAMPLES / "usage_help"
USAGE = (HELP / "report.txt").read_text().strip()[len("usage: ") :].split(" | ")
SENTENCES = (HELP / "error.txt").read_text().splitlines()
COMMANDS = [line.split()[1] for line in USAGE]
MANUAL = SENTENCES[-1]
SECONDS = harness.WHILE


@pytest.fixture(scope="module", name="installed")
def placed(tmp_path_factory: pytest.TempPathFactory) -> pathlib.Path:
    """The folder of the launchers as tools/install lays them out, in front of the programs."""
    folder = tmp_path_factory.mktemp("prefix")
    for name in ("bin", "lib/plex"):
        (folder / name).mkdir(parents=True)
    for item in programs.PROGRAMS:
        (folder / "lib/plex" / item.name).symlink_to(harness.found(item))
        shutil.copy(TOOLS / "maintain/plex.sh", folder / "bin" / item.name)
    shutil.copy(TOOLS / "maintain/start.sh", folder / "lib/plex")
    return folder / "bin"


def told(launcher: pathlib.Path, *words: str, folder: pathlib.Path = ROOT) -> tuple[int, str, str]:
    """The status of a launcher, and what it writes on its two outputs."""
    done = subprocess.run(
        [launcher, *words],
        cwd=folder,
        stdin=subprocess.DEVNULL,
        stdout=subprocess.PIPE,
        stderr=subprocess.PIPE,
        timeout=SECONDS,
        text=True,
        check=False,
    )
    return done.returncode, done.stdout, done.stderr


def help_of(command: str) -> str:
    """What is told of one command of plex."""
    usage = next(line for line in USAGE if line.split()[1] == command)
    sentence = next(line for line in SENTENCES if line.split()[1] == command)
    return f"usage: {usage}\n\n{sentence[len('plex ') :]}\n{MANUAL}\n"


@pytest.mark.parametrize("word", ["--help", "-h", "help"])
def test_help(installed: pathlib.Path, word: str) -> None:
    """All commands are told, each with its words and what it does."""
    forms = "\n       ".join(USAGE)
    sentences = "\n".join(SENTENCES)
    assert told(installed / "plex", word) == (0, f"usage: {forms}\n\n{sentences}\n", "")


@pytest.mark.parametrize("command", COMMANDS)
def test_help_of_a_command(installed: pathlib.Path, command: str) -> None:
    """One command is told, however it is asked for."""
    for words in ([command, "--help"], [command, "-h"], ["help", command]):
        assert told(installed / "plex", *words) == (0, help_of(command), ""), words


def test_synopsis_of_the_manual() -> None:
    """The manual page has the same commands, with the same options."""
    page = (ROOT / "docs/plex.1").read_text()
    synopsis = page[page.index(".Sh SYNOPSIS") : page.index(".Sh DESCRIPTION")]
    told_there = {
        found[1]: re.findall(r"Fl -(\w+)", found[2])
        for found in re.finditer(r"^\.Nm\n\.Cm (\w+)((?:\n(?!\.Nm).*)*)", synopsis, re.M)
    }
    wanted = {line.split()[1]: re.findall(r"--(\w+)", line) for line in USAGE}
    assert told_there == wanted


@pytest.mark.parametrize("name", [item.name for item in programs.PROGRAMS])
def test_version(installed: pathlib.Path, name: str) -> None:
    """The version is that of the sources."""
    version = f"{name} {harness.version()}\n"
    assert told(installed / name, "--version") == (0, version, "")
    launcher = harness.find_launcher(programs.BY_NAME[name])
    if launcher == ROOT / name:  # where no variable names another program
        status, out, _ = told(launcher, "--version")
        assert (status, out) == (0, version)


@pytest.mark.parametrize("name", ["plex-merge", "plex-conflicts"])
def test_help_of_the_others(installed: pathlib.Path, name: str) -> None:
    """They tell their words, what they do, and their manual page."""
    status, out, error = told(installed / name, "--help")
    assert (status, error) == (0, "")
    assert out.startswith(f"usage: {name} E ") and f"\nman {name} " in out


def test_words_that_ask_for_no_help(installed: pathlib.Path, tmp_path: pathlib.Path) -> None:
    """What is no question for help goes to the program: other words, words that are no command, and
    a file of such a name.
    """
    plex = installed / "plex"
    assert told(plex, "help", "nothing")[0] == 1
    assert told(plex, "run", "E", "--help", folder=tmp_path)[0] == 6
    (tmp_path / "--help").write_text("")
    assert told(plex, "analyse", "--help", folder=tmp_path) == (0, "END PAIRS\n", "")
    (tmp_path / "--help").unlink()
    assert told(plex, "analyse", "--help", folder=tmp_path)[1].startswith("usage: plex analyse E\n")
