"""The crates as crates.txt lists them. For the tools that prove, and those that tell what proofs
cost.

`listed()` gives each crate with the libraries that its line names, those of the kit among them,
lowest first. `own()` leaves the kit's out; `needed()` is what a crate stands on, itself among it;
and `waiting()` tells how long it takes from a task's begin until the end of all that wait for it.
"""
import pathlib
import re
from typing import Dict, Hashable, List, Mapping, Sequence, TypeVar

ROOT = pathlib.Path(__file__).resolve().parents[2]
Task = TypeVar("Task", bound=Hashable)


def listed(root: pathlib.Path = ROOT) -> Dict[str, List[str]]:
    """Each crate with the libraries of its line, lowest first."""
    found = {}
    for line in (root / "crates.txt").read_text(encoding="utf-8").splitlines():
        named = re.match(r"([a-z_0-9]+)[^:]*:(.*)", line)
        if named:
            found[named[1]] = named[2].split()
    return found


def own(crates: Dict[str, List[str]]) -> Dict[str, List[str]]:
    """The same with libraries of this repository alone."""
    return {
        crate: [library for library in libraries if library in crates]
        for crate, libraries in crates.items()
    }


def needed(crates: Dict[str, List[str]], top: str) -> List[str]:
    """The crates on which one stands, and itself, lowest first."""
    wanted = [top]
    found = set()
    while wanted:
        crate = wanted.pop()
        if crate not in found:
            found.add(crate)
            wanted += crates[crate]
    return [crate for crate in crates if crate in found]


def waiting(lasts: Mapping[Task, float], waits: Mapping[Task, Sequence[Task]]) -> Dict[Task, float]:
    """For each task how long it and the longest chain of those that wait for it last. `lasts` has
    the tasks in an order in which each comes after those that it waits for."""
    behind = dict(lasts)
    for key in reversed(list(lasts)):
        for low in waits[key]:
            behind[low] = max(behind[low], lasts[low] + behind[key])
    return behind
