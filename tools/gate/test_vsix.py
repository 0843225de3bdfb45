"""The extension for VS Code: its package, and its client of plex-lsp, without the editor.

`vscode_stub.js` stands for the editor: it has what the extension calls of it, opens a text, and
asks as the editor does.
"""
from __future__ import annotations

import json
import pathlib
import re
import shutil
import subprocess
import sys
import xml.etree.ElementTree
import zipfile
from typing import Any, Sequence

import pytest

from gate import harness
from gate.checking import leave_out
from gate.lsp_client import SERVER
from gate.lsp_example import need_module

EXTENSION = harness.ROOT / "editors" / "vscode"
MAKE = harness.ROOT / "tools" / "maintain" / "vsix"
STUB = harness.ROOT / "tools" / "gate" / "vscode_stub.js"
SCHEMA = "{http://schemas.microsoft.com/developer/vsx-schema/2011}"
TYPES = "{http://schemas.openxmlformats.org/package/2006/content-types}"
APART = ("tasks.json",)  # for the folder with texts, not for the editor
LONGEST = harness.WHILE
URI = "file:///nowhere/of/all/desk.plex"
TEXT = """SIGNAL CALL SINGLE BUFFERED B DATA 1;
BLOCK DESK;
DECLARE;
  VARIABLE CALLS WIDTH 16;
  TEMPORARY T;
SURVEY;
  RECEIVE CALL;
PROGRAM;
  ENTER CALL WITH T;
  CALS = CALLS + T;
   EXIT;
END BLOCK;
"""
WRONG, RIGHT = [[9, 2], [9, 6]], [9, 10]  # CALS, and a place in CALLS
DECLARED, USED = [[3, 11], [3, 16]], [[9, 9], [9, 14]]


@pytest.fixture(scope="module")
def package(tmp_path_factory: pytest.TempPathFactory) -> pathlib.Path:
    """The package, which is the same each time."""
    made = [made_in(tmp_path_factory.mktemp("vsix")) for _ in range(2)]
    assert made[0].read_bytes() == made[1].read_bytes()
    return made[0]


def need_node() -> None:
    """The test is left out where there is no node."""
    if not shutil.which("node"):
        leave_out("there is no nodejs")


def made_in(folder: pathlib.Path) -> pathlib.Path:
    words = [sys.executable, str(MAKE), str(folder)]
    done = subprocess.run(words, capture_output=True, text=True, timeout=LONGEST, check=True)
    path = pathlib.Path(done.stdout.strip())
    assert list(folder.iterdir()) == [path]
    return path


def test_files(package: pathlib.Path) -> None:
    """It has all files of the extension, byte for byte, and two that say what they are."""
    with zipfile.ZipFile(package) as opened:
        assert opened.testzip() is None
        names = set(opened.namelist())
        there = {path.name for path in EXTENSION.iterdir()} - set(APART)
        assert names == {
            "[Content_Types].xml",
            "extension.vsixmanifest",
            *(f"extension/{name}" for name in there),
        }
        for name in there:
            assert opened.read(f"extension/{name}") == (EXTENSION / name).read_bytes()
        types = xml.etree.ElementTree.fromstring(opened.read("[Content_Types].xml"))
        known = {one.get("Extension") for one in types.iter(f"{TYPES}Default")}
        assert known >= {pathlib.PurePath(name).suffix for name in names} - {".xml"}


def test_manifest(package: pathlib.Path) -> None:
    """The manifest has the name and the version of plex, and names files that are there."""
    with zipfile.ZipFile(package) as opened:
        manifest = xml.etree.ElementTree.fromstring(opened.read("extension.vsixmanifest"))
        (identity,) = manifest.iter(f"{SCHEMA}Identity")
        assert (identity.get("Id"), identity.get("Publisher")) == ("plex", "plex")
        assert identity.get("Version") == harness.version()
        assert package.name == f"plex-{harness.version()}.vsix"
        paths = [one.get("Path") for one in manifest.iter(f"{SCHEMA}Asset")]
        assert paths and set(paths) <= set(opened.namelist())
        given = json.loads(opened.read("extension/package.json"))
        main = given["main"].removeprefix("./")
        assert f"extension/{main}" in opened.namelist()
        required = re.findall(r'require\("\./(\w+)"\)', opened.read(f"extension/{main}").decode())
        assert required and all(f"extension/{name}.js" in opened.namelist() for name in required)


@pytest.mark.parametrize(
    "path", [*sorted(EXTENSION.glob("*.js")), STUB], ids=lambda path: str(path.name)
)
def test_syntax(path: pathlib.Path) -> None:
    """node reads each script, whose lines are no longer than those of the tools."""
    need_node()
    subprocess.run(["node", "--check", path], timeout=LONGEST, check=True)
    assert all(len(line) <= 100 for line in path.read_text().splitlines())


def run(package: pathlib.Path, server: str, steps: Sequence[Sequence[Any]]) -> dict[str, Any]:
    """What the extension of the package gives at each step."""
    need_node()
    need_module()
    with zipfile.ZipFile(package) as opened:
        opened.extractall(package.parent / "opened")
    extension = package.parent / "opened" / "extension" / "extension.js"
    given = json.dumps({"uri": URI, "text": TEXT, "steps": steps})
    done = subprocess.run(
        ["node", STUB, extension, server],
        input=given,
        capture_output=True,
        text=True,
        timeout=LONGEST,
    )
    assert (done.returncode, done.stderr) == (0, "")
    answer: dict[str, Any] = json.loads(done.stdout)
    return answer


def part(span: Sequence[Sequence[int]]) -> list[dict[str, int]]:
    return [{"line": line, "character": character} for line, character in span]


@pytest.fixture
def server(tmp_path: pathlib.Path) -> str:
    """A command that starts the server by Debian's Python, to which its module belongs."""
    command = tmp_path / "plex-lsp"
    command.write_text(f'#!/bin/sh\nexec /usr/bin/python3 -B "{SERVER}" "$@"\n')
    command.chmod(0o755)
    return str(command)


def test_client(package: pathlib.Path, server: str) -> None:
    """Faults come as one types, with their cures; each thing that the editor asks is answered."""
    asked = ["hover", "definition", "references", "highlights", "prepare"]
    steps: list[Sequence[Any]] = [
        ["wait", 1],
        ["actions", *WRONG],
        *([name, RIGHT] for name in asked),
        ["rename", RIGHT, "NUMBER"],
        ["rename", RIGHT, "T"],
        ["complete", [9, 9]],
        ["symbols"],
        ["folds"],
        ["tokens"],
        ["lenses"],
        ["format"],
        ["change", *WRONG, "CALLS"],
        ["wait", 2],
    ]
    given = run(package, server, steps)
    assert given["shown"] == []
    told, actions, hover, definition, references, *others = given["answers"]
    assert [(one["code"], one["severity"], one["range"]) for one in told] == [
        ("N6", 0, part(WRONG))
    ]
    assert [one["message"].split("\n")[0] for one in told] == [
        "CALS is not declared in block DESK; CALLS is"
    ]
    (related,) = told[0]["relatedInformation"]
    assert related["location"] == {"uri": URI, "range": part(DECLARED)}
    (action,) = actions
    assert action["edit"]["changes"] == {URI: [{"range": part(WRONG), "newText": "CALLS"}]}
    assert "VARIABLE CALLS WIDTH 16" in hover["contents"]["value"]
    assert definition == {"uri": URI, "range": part(DECLARED)}
    assert [one["range"] for one in references] == [part(DECLARED), part(USED)]
    (
        highlights,
        prepared,
        renamed,
        refused,
        items,
        symbols,
        folds,
        tokens,
        lenses,
        edits,
        *end,
    ) = others
    assert [one["range"] for one in highlights] == [part(DECLARED), part(USED)]
    assert prepared == {"range": part(USED), "placeholder": "CALLS"}
    assert [one["newText"] for one in renamed["changes"][URI]] == ["NUMBER"] * 2
    assert refused["refused"].startswith("there is a temporary T already")
    assert {"CALLS", "T"} <= {one["label"] for one in items}
    assert [one["name"] for one in symbols] == ["CALL", "DESK"]
    assert {"start": 1, "end": 11} in folds
    assert tokens and not len(tokens) % 5 and isinstance(lenses, list)
    assert edits and all(sorted(one) == ["newText", "range"] for one in edits)
    assert end == [None, []]


def test_no_server(package: pathlib.Path) -> None:
    """Where there is no server, the editor says so once."""
    given = run(package, "/nowhere/plex-lsp", [])
    (told,) = given["shown"]
    assert told.startswith("PLEX: the language server /nowhere/plex-lsp has ended: ")
