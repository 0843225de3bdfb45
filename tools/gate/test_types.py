"""The rooms of the tools that are typed: mypy, black and flake8 find nothing in them.

`TYPED` has these rooms; a room is added there once it is clean. Configuration: pyproject.toml and
.flake8 at the top of the sources. The three are modules of Debian's Python, which need not be the
one that runs this test.
"""
import pathlib
import subprocess

import pytest

from gate import harness

ROOT = pathlib.Path(__file__).resolve().parent.parent.parent
PYTHON = "/usr/bin/python3"
TYPED = (
    "tools/python/plextools",
    "tools/bin",
    "tools/maintain",
    "tools/measure",
    "tools/gate",
)
APART = {"__pycache__", "cases", "completions"}  # what is no Python
TOOLS = {"mypy": ("--strict",), "black": ("--check", "--quiet"), "flake8": ()}
LONGEST = 3 * harness.WHILE  # mypy reads all files anew


def files() -> list[str]:
    """The files of the typed rooms; those of tools/bin have no suffix."""
    found: list[str] = []
    for name in TYPED:
        place = ROOT / name
        some = [place] if place.is_file() else sorted(place.rglob("*"))
        found += [
            str(one.relative_to(ROOT))
            for one in some
            if one.is_file() and one.suffix in ("", ".py") and not is_apart(one)
        ]
    return found


def is_apart(path: pathlib.Path) -> bool:
    return bool(APART & {*path.relative_to(ROOT).parts})


def run(*words: str) -> "subprocess.CompletedProcess[str]":
    return subprocess.run(
        [PYTHON, "-m", *words], cwd=ROOT, capture_output=True, text=True, timeout=LONGEST
    )


@pytest.mark.long
@pytest.mark.parametrize("tool", TOOLS)
def test_clean(tool: str) -> None:
    """A tool finds nothing in the typed rooms."""
    there = run(tool, "--version")
    assert there.returncode == 0, f"{PYTHON} has no {tool}: apt-get install {package(tool)}"
    done = run(tool, *TOOLS[tool], *files())
    assert done.returncode == 0, f"{tool}:\n{done.stdout}{done.stderr}"


def package(tool: str) -> str:
    """The package of Debian that has a tool."""
    return {"mypy": "python3-mypy"}.get(tool, tool if tool == "black" else f"python3-{tool}")
