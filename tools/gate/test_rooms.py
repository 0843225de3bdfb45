"""Which room of the tools may import what: docs/ARCHITECTURE.md, Tools, has the same in words.

A room is a folder with Python files. Its files import modules of the rooms that stand beside it in
`ROOMS`, and nothing else of the tools. The order of the product is limits, text, analysis, runs,
show, lsp, commands; the product imports nothing of gate, measure and maintain, and a second account
in gate/oracle nothing of the product but the reader of texts and the limits.
"""
import ast
import importlib.util
import os
import pathlib
from importlib.machinery import SourceFileLoader
from typing import Iterator, NamedTuple

import pytest

TOOLS = pathlib.Path(__file__).resolve().parent.parent
PYTHON = "#!/usr/bin/env python3"
APART = ("__pycache__", "cases", "completions", "peers")
TOPS = ("plextools", "gate", "measure", "maintain")
ROOT_MODULES = ("files", "limits", "programs", "progress", "streams", "tables")
BASE = {"plextools", *(f"plextools.{name}" for name in ROOT_MODULES)}
KNOWS_TEXTS = {"plextools.limits", "plextools.text"}
ANALYSIS = BASE | {"plextools.text", "plextools.analysis"}
RUNS = ANALYSIS | {"plextools.runs"}
SHOW = RUNS | {"plextools.show"}
LSP = ANALYSIS | {"plextools.lsp"}
PRODUCT = SHOW | LSP | {"plextools.commands"}

# Each room, and what its files may import: rooms, or single modules of one.
ROOMS = {
    "python/plextools": BASE,
    "python/plextools/text": KNOWS_TEXTS,
    "python/plextools/analysis": ANALYSIS,
    "python/plextools/runs": RUNS,
    "python/plextools/show": SHOW,
    "python/plextools/lsp": LSP,
    "python/plextools/commands": PRODUCT,
    "bin": PRODUCT,
    "gate/oracle": KNOWS_TEXTS | {"gate.oracle"},
    "gate/makers": KNOWS_TEXTS | {"gate.makers"},
    "gate": PRODUCT
    | {"gate", "gate.oracle", "gate.makers", "measure.measured", "measure.count_threads"}
    | {"gate.planted"},
    "gate/planted": BASE | {"gate.harness", "gate.planted"},
    "measure": BASE | {"gate.harness", "gate.makers", "measure"},
    "maintain": BASE
    | {"gate.harness", "gate.oracle", "maintain", "measure.count_threads"}
    | {"plextools.commands.command_words"},
}
# Files that import more. One that no longer does is told, so that it does not stay here.
MORE: dict[str, set[str]] = {}


class Import(NamedTuple):
    """A module of the tools that a file imports, and the line that does so."""

    line: int
    module: str


def is_python(path: pathlib.Path) -> bool:
    """Whether a file is Python, by its name or by its first line."""
    if path.suffix:
        return path.suffix == ".py"
    with open(path, "rb") as file:
        return file.readline().rstrip() == PYTHON.encode()


def files() -> Iterator[pathlib.Path]:
    """All Python files of the tools."""
    for folder, folders, names in os.walk(TOOLS):
        folders[:] = sorted(name for name in folders if name not in APART)
        for path in (pathlib.Path(folder, name) for name in sorted(names)):
            if is_python(path):
                yield path


def is_module(name: str) -> bool:
    """Whether a dotted name is a module or a package of the tools."""
    places = [TOOLS / "python" / name.replace(".", "/"), TOOLS / name.replace(".", "/")]
    return any(place.is_dir() or place.with_suffix(".py").is_file() for place in places)


def imports(path: pathlib.Path) -> Iterator[Import]:
    """The modules of the tools that a file imports."""
    for node in ast.walk(ast.parse(path.read_text())):
        named: list[str] = []
        if isinstance(node, ast.Import):
            named = [one.name for one in node.names]
        elif isinstance(node, ast.ImportFrom):
            assert node.level == 0, f"{path}:{node.lineno}: a relative import"
            inner = [f"{node.module}.{one.name}" for one in node.names]
            named = [name if is_module(name) else str(node.module) for name in inner]
        for name in named:
            if name.split(".")[0] in TOPS:
                yield Import(node.lineno, name)


def room_of(module: str) -> str:
    """The room of a module: the package that holds it, or itself where it is one."""
    places = [TOOLS / "python" / module.replace(".", "/"), TOOLS / module.replace(".", "/")]
    return module if any(place.is_dir() for place in places) else module.rpartition(".")[0]


FILES = list(files())


@pytest.mark.parametrize("path", FILES, ids=lambda path: str(path.relative_to(TOOLS)))
def test_imports(path: pathlib.Path) -> None:
    """A file imports only what its room may, but for what `MORE` has."""
    name = str(path.relative_to(TOOLS))
    allowed, more = ROOMS[str(path.parent.relative_to(TOOLS))], MORE.get(name, set())
    beside = {one for one in imports(path) if not allowed & {one.module, room_of(one.module)}}
    wrong = [one for one in beside if not more & {one.module, room_of(one.module)}]
    assert not wrong, f"{name} may not import {', '.join(sorted(one.module for one in wrong))}"
    assert not more or beside, f"{name} needs no line in MORE any more"


def test_every_room_is_known() -> None:
    """Each room has files, and each folder with Python files is a room."""
    assert {str(path.parent.relative_to(TOOLS)) for path in FILES} == set(ROOMS)


def test_the_product_alone_is_installed() -> None:
    """What tools/install installs of the tools is of the product, but for what the product imports
    by `MORE`.
    """
    loader = SourceFileLoader("install", str(TOOLS / "maintain" / "install"))
    spec = importlib.util.spec_from_loader("install", loader)
    assert spec
    install = importlib.util.module_from_spec(spec)
    loader.exec_module(install)
    product = ("bin/", "python/", "maintain/completions/", "maintain/plex.sh", "maintain/start.sh")
    below = [
        source[len("tools/") :] for source, _ in install.INSTALLED if source.startswith("tools/")
    ]
    rest = {name for name in below if not name.startswith(product)}
    needed = {module.replace(".", "/") for modules in MORE.values() for module in modules}
    assert rest <= {"gate/__init__.py", *rest_of(rest, needed)}, sorted(rest)
    assert bool(rest) == bool(MORE)


def rest_of(names: set[str], folders: set[str]) -> set[str]:
    """Those of the names that stand in one of the folders."""
    return {name for name in names if any(name.startswith(f"{folder}/") for folder in folders)}
