"""What editors read of what plex-check tells of the example examples/guide/all_faults.

Vim reads it by the compiler file in editors/vim, Emacs by editors/emacs, and VS Code by the problem
matcher in editors/vscode, as the regular expression that it is. Each must find each line with its
file, its line and its column.
"""
from __future__ import annotations

import json
import os
import pathlib
import re
import subprocess
from typing import Callable

import pytest

from gate import harness
from gate.checking import EXAMPLES, ROOT, TOOLS, check, check_enough, need_command

EDITORS, EXAMPLE = ROOT / "editors", EXAMPLES / "guide" / "all_faults"
LONGEST, LEAST = harness.WHILE, 10
LINE = re.compile(r"(.+?):(\d+):(\d+): ")
VIM = """
set runtimepath^={editors}/vim
edit desk.plex
compiler plex_check
silent make signals.txt
call writefile(map(getqflist(), 'bufname(v:val.bufnr) . ":" . v:val.lnum . ":" . v:val.col . ": "'), '{told}')
quitall!
"""  # noqa: E501
EMACS = """
(progn
  (load "{editors}/emacs/plex-check.el")
  (find-file "desk.plex")
  (plex-check "plex-check desk.plex signals.txt")
  (with-current-buffer "*compilation*"
    (while (get-buffer-process (current-buffer)) (accept-process-output nil 0.1))
    (compilation--ensure-parse (point-max))
    (let ((place (point-min)) (found nil))
      (while (setq place (next-single-property-change place 'compilation-message))
        (let ((message (get-text-property place 'compilation-message)))
          (when message
            (let ((at (compilation--message->loc message)))
              (push (format "%s:%s:%s: \\n" (caar (compilation--loc->file-struct at))
                            (compilation--loc->line at) (compilation--loc->col at)) found)))))
      (write-region (apply #'concat (nreverse found)) nil "{told}"))))
"""


def places() -> list[str]:
    """The places that the example tells, each as file:line:column."""
    lines = (EXAMPLE / "report.txt").read_text().splitlines()
    return [":".join(found.groups()) for found in map(LINE.match, lines) if found]


def vim(folder: pathlib.Path, told: pathlib.Path) -> list[str]:
    """The command that has Vim read what plex-check tells."""
    script = folder / "script.vim"
    script.write_text(VIM.format(editors=EDITORS, told=told))
    return ["vim", "-e", "-s", "-N", "-u", "NONE", "-i", "NONE", "-S", str(script)]


def emacs(_: pathlib.Path, told: pathlib.Path) -> list[str]:
    """The command that has Emacs read what plex-check tells."""
    return ["emacs", "--batch", "--eval", EMACS.format(editors=EDITORS, told=told)]


@pytest.mark.parametrize("command", [vim, emacs], ids=["vim", "emacs"])
def test_editor(
    plex: pathlib.Path,
    folder: pathlib.Path,
    command: Callable[[pathlib.Path, pathlib.Path], list[str]],
) -> None:
    """An editor finds each place."""
    need_command(command.__name__)
    told = folder / "told"
    subprocess.run(
        command(folder, told),
        cwd=EXAMPLE,
        env={**os.environ, "PATH": f"{TOOLS / 'bin'}{os.pathsep}{os.environ['PATH']}"},
        stdin=subprocess.DEVNULL,
        stdout=subprocess.DEVNULL,
        stderr=subprocess.DEVNULL,
        timeout=LONGEST,
    )
    found = [line[:-2] for line in told.read_text().splitlines()] if told.exists() else []
    assert found == places()


def test_problem_matcher() -> None:
    """The problem matcher of VS Code finds each place."""
    tasks = json.loads((EDITORS / "vscode" / "tasks.json").read_text())["tasks"]
    task = next(task for task in tasks if task["command"] == "plex-check")
    pattern = task["problemMatcher"][0]["pattern"]
    lines = (EXAMPLE / "report.txt").read_text().splitlines()
    found = [re.match(pattern["regexp"], line) for line in lines]
    parts = ("file", "line", "column")
    assert [":".join(one[pattern[part]] for part in parts) for one in found if one] == places()


def test_all_places_are_there() -> None:
    """The example has no place less, and each of its lines has one."""
    check_enough("places", places(), LEAST)
    lines = (EXAMPLE / "report.txt").read_text().splitlines()
    check(None if len(lines) == len(places()) else "a line of the example has no place")
