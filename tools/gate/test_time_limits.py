"""Each test ends: the commands that the gate calls have time limits, and conftest.py ends a test
that computes on and on.
"""
import ast
import os
import pathlib
import subprocess
import sys
from typing import Iterator

import pytest

from gate import harness
from gate.test_rooms import TOOLS, files

GATE = TOOLS / "gate"
FILES = [path for path in files() if GATE in path.parents]
LIMITED = ("run", "call", "check_call", "check_output", "communicate")
SOON = harness.WHILE
ROUND = """import signal

def test_round():
    signal.setitimer(signal.ITIMER_VIRTUAL, 0.2)
    while True:
        pass
"""


def without_limit(path: pathlib.Path) -> Iterator[int]:
    """The lines of a file that call a command, or wait for one, for any time."""
    for node in ast.walk(ast.parse(path.read_text())):
        if not isinstance(node, ast.Call) or not isinstance(node.func, ast.Attribute):
            continue
        name, of = node.func.attr, ast.unparse(node.func.value)
        is_call = name in LIMITED and (of == "subprocess" or name == "communicate")
        if is_call and not {"timeout", None} & {one.arg for one in node.keywords}:
            yield node.lineno


@pytest.mark.parametrize("path", FILES, ids=lambda path: str(path.relative_to(TOOLS)))
def test_calls(path: pathlib.Path) -> None:
    """Each call of a command has a time limit."""
    lines = list(without_limit(path))
    assert not lines, f"{path.relative_to(TOOLS)}: calls without a time limit in lines {lines}"


def test_a_test_that_goes_round(tmp_path: pathlib.Path) -> None:
    """It fails, and pytest goes on."""
    (tmp_path / "test_round.py").write_text(ROUND)
    (tmp_path / "conftest.py").write_text("from gate.conftest import pytest_runtest_call\n")
    done = subprocess.run(
        [sys.executable, "-m", "pytest", "-q", "-p", "no:cacheprovider", tmp_path],
        env={**os.environ, "PYTHONPATH": f"{TOOLS}{os.pathsep}{TOOLS / 'python'}"},
        capture_output=True,
        text=True,
        timeout=SOON,
    )
    assert done.returncode == 1 and "it computes for more than" in done.stdout, done.stdout
    assert "1 failed" in done.stdout
