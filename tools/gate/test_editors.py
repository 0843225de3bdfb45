"""The files of editors/ that lead to the faults that plex tells.

Vim and Emacs must jump to the place of a fault of an exchange text, of a signal file, and of a text
that is too large. The patterns of the tasks for VS Code must read the lines that the examples have
on the standard error; VS Code itself is not run.
"""
from __future__ import annotations

import json
import os
import pathlib
import re
import shutil
import subprocess
from typing import Callable, Iterator, NamedTuple, Optional, Sequence

import pytest

from gate import harness
from gate.checking import EXAMPLES, ROOT, check, check_enough, need_command
from plextools.limits import MOST_BYTES

EDITORS = ROOT / "editors"
LONGEST, LEAST_LINES = harness.WHILE, 15
LARGE, PARTS = "large.plex", ("file", "line", "code", "message")


class Fault(NamedTuple):
    """Words of plex, the file and the line to which they lead, and the message there."""

    words: str
    file: str
    line: int
    message: str


FAULTS = [
    Fault(
        "analyse exchange.plex",
        "exchange.plex",
        8,
        "NOTINSURVEY: the survey lacks what is sent or entered",
    ),
    Fault("run right.plex signals.txt", "signals.txt", 2, "BADLINE: a word is missing"),
    Fault(f"analyse {LARGE}", LARGE, 1, "TOOLARGE: the text is over 16,777,216 bytes"),
]


class Place(NamedTuple):
    """Where an editor goes, and what it shows there."""

    file: Optional[str]
    line: Optional[int]
    shown: str


@pytest.fixture
def texts(folder: pathlib.Path) -> pathlib.Path:
    """A folder with the texts, and a `plex` on the path."""
    shutil.copy(EXAMPLES / "guide" / "first_refusal" / "exchange.plex", folder)
    shutil.copy(EXAMPLES / "three_ticks" / "exchange.plex", folder / "right.plex")
    (folder / "signals.txt").write_text("AFTER 0 TICK COUNTER NONE\nAFTER 0 TICK COUNTER\n")
    (folder / LARGE).write_bytes(b"!" * (MOST_BYTES + 1))
    (folder / "bin").mkdir()
    (folder / "bin" / "plex").symlink_to(harness.find_launcher(harness.PLEX))
    return folder


def run(words: Sequence[str], folder: pathlib.Path) -> str:
    """What an editor writes."""
    path = f"{folder / 'bin'}{os.pathsep}{os.environ['PATH']}"
    try:
        done = subprocess.run(
            words,
            cwd=folder,
            env={**os.environ, "PATH": path, "HOME": str(folder), "TERM": "dumb"},
            stdin=subprocess.DEVNULL,
            stdout=subprocess.PIPE,
            stderr=subprocess.STDOUT,
            timeout=LONGEST,
        )
    except subprocess.TimeoutExpired:
        return f"nothing, and did not end in {LONGEST} seconds"
    return done.stdout.decode(errors="replace")


def vim(folder: pathlib.Path, words: str) -> Place:
    """The file, the line and the message to which `:make` leads in Vim."""
    home = folder / ".vim" / "compiler"
    home.mkdir(parents=True, exist_ok=True)
    shutil.copy(EDITORS / "compiler.vim", home / "plex.vim")
    script = (
        f"let g:plex_words = '{words}'",
        "compiler plex",
        "silent make",
        "let first = getqflist()[0]",
        "call writefile([expand('%:t'), line('.'), first.text, len(getqflist())], 'told')",
        "qa!",
    )
    begin = ["vim", "-es", "-N", "-u", "NONE", "-i", "NONE"]
    begin += ["--cmd", f"set rtp^={folder / '.vim'}"]
    commands = [word for command in script for word in ("-c", command)]
    return told_in(folder, run([*begin, *commands, "right.plex"], folder))


EMACS = """
(progn
  (load "{init}")
  (require 'compile)
  (let ((large-file-warning-threshold nil) (done nil))
    (add-hook 'compilation-finish-functions (lambda (&rest _) (setq done t)))
    (with-current-buffer (compile "plex {words}")
      (while (not done) (accept-process-output nil 0.05)))
    (next-error)
    (let ((place (window-buffer)))
      (with-current-buffer place
        (write-region (format "%s\\n%s\\n" (file-name-nondirectory buffer-file-name) (line-number-at-pos))
                      nil "told" nil 'silent)))
    (with-current-buffer "*compilation*"
      (write-region (buffer-string) nil "told" t 'silent))))
"""  # noqa: E501


def emacs(folder: pathlib.Path, words: str) -> Place:
    """The file and the line to which the first error of `M-x compile` leads in Emacs."""
    script = EMACS.format(init=EDITORS / "plex.el", words=words)
    return told_in(folder, run(["emacs", "-Q", "--batch", "--eval", script], folder))


def told_in(folder: pathlib.Path, wrote: str) -> Place:
    """Where an editor went, which its script has written into a file."""
    path = folder / "told"
    if not path.exists():
        return Place(None, None, f"it wrote {wrote[-300:]!r}")
    name, line, *rest = path.read_text().split("\n")
    return Place(name, int(line), "\n".join(rest))


@pytest.mark.parametrize("fault", FAULTS, ids=[fault.words for fault in FAULTS])
@pytest.mark.parametrize("jump", [vim, emacs], ids=["vim", "emacs"])
def test_jump(
    texts: pathlib.Path,
    jump: Callable[[pathlib.Path, str], Place],
    fault: Fault,
) -> None:
    """An editor goes to the place of a fault."""
    need_command(jump.__name__)
    found = jump(texts, fault.words)
    is_there = (found.file, found.line) == (fault.file, fault.line) and fault.message in found.shown
    check(None if is_there else f"it goes to {found}, not to {fault}")


class Line(NamedTuple):
    """A line that tells a fault of a file, with its parts."""

    text: str
    parts: tuple[Optional[str], ...]


def lines_of_examples() -> Iterator[Line]:
    """What the examples have on the standard error: the lines that tell a fault of a file."""
    for path in sorted(EXAMPLES.rglob("error.txt")):
        text = path.read_text()
        if not text.startswith("plex"):
            told, *_ = text.splitlines()
            file, rest = told.split(":", 1)
            line = re.match(r"\d+(?=: )", rest)
            word, message = rest[line.end() + 2 if line else 1 :].split(": ", 1)
            yield Line(told, (file, line[0] if line else None, word, message))


LINES = list(lines_of_examples())
OTHER_LINES = [
    "plex: signls.txt: no such file",
    "plex-check exchange.plex signals.txt tells all faults, with columns",
    "RELEASE F2 job 5 RANGE at REG:23 jobs 1 records 1",
    "JOBS 3",
]


def found_by_tasks(text: str) -> Optional[tuple[Optional[str], ...]]:
    """What the patterns of the tasks for VS Code find in a line."""
    tasks = json.loads((EDITORS / "vscode" / "tasks.json").read_text())["tasks"]
    for pattern in (matcher["pattern"] for task in tasks for matcher in task["problemMatcher"]):
        match = re.search(pattern["regexp"], text)
        if match:
            return tuple(match[pattern[part]] if part in pattern else None for part in PARTS)
    return None


@pytest.mark.parametrize("line", LINES, ids=[line.text for line in LINES])
def test_tasks(line: Line) -> None:
    """The patterns of the tasks for VS Code find the parts of a line."""
    assert found_by_tasks(line.text) == line.parts


@pytest.mark.parametrize("text", OTHER_LINES)
def test_tasks_leave_other_lines(text: str) -> None:
    """They find nothing in a line that tells no fault of a file."""
    assert found_by_tasks(text) is None


@pytest.mark.parametrize("kind", ["language", "grammar"])
def test_extension(kind: str) -> None:
    """The files that the extension for VS Code names are there, and are JSON."""
    folder = EDITORS / "vscode"
    given = json.loads((folder / "package.json").read_text())["contributes"]
    named = (
        given["languages"][0]["configuration"]
        if kind == "language"
        else given["grammars"][0]["path"]
    )
    json.loads((folder / named).read_text())


def test_all_lines_are_there() -> None:
    """No line of the examples is lost."""
    check_enough("lines for VS Code", LINES, LEAST_LINES)
