"""The cases of plex-test: folders that have the words of a run, and files with what must come of
it.

`cases_in(folders)` finds them, and `steps_of(case)` tells the calls of a case. docs/FORMATS.md,
Folder of a case, has the layout.
"""
import os
import pathlib
import stat
from typing import Dict, Iterator, List, NamedTuple, NoReturn, Optional, Sequence

from plextools.programs import Wrong

WORDS, MERGE = "words", "merge"
REPORT, MERGED, ERROR, STATUS = "report.txt", "merged.txt", "error.txt", "status"
EXCHANGE, SIGNALS, TABLE, FILTER, NEW = (
    "exchange.plex",
    "signals.txt",
    "table.txt",
    "filter.txt",
    "new.plex",
)
PLEX, MERGER = "plex", "plex-merge"
MOST_STATUS = 255


class Broken(Exception):
    """What keeps a case from being run, or its expected files from being read or written."""


class Case(NamedTuple):
    """A folder with a run: its name as a user types it, and the part of it below the folder that
    was named.
    """

    name: str
    below: str
    folder: pathlib.Path


class Step(NamedTuple):
    """A call of a program, from the folder of its case, and the file that has what it must write.
    What a first step writes is read by the next one.
    """

    program: str
    words: List[bytes]
    report: str
    is_first: bool = False


# where cases are


def cases_in(folders: Sequence[str]) -> List[Case]:
    """The cases in some folders and all that stand below them, each once, in the order of their
    names.
    """
    found: Dict[str, Case] = {}
    for top in folders:
        if not os.path.isdir(top):
            raise Wrong(f"there is no folder {top!r}")
        for path in case_folders(top):
            below = os.path.relpath(path, top)
            if below == os.curdir:
                below = os.path.basename(os.path.realpath(top))
            case = Case(os.path.normpath(path), below, pathlib.Path(path))
            found.setdefault(os.path.realpath(path), case)
    return list(found.values())


def case_folders(top: str) -> Iterator[str]:
    """The folder itself and those below it, where they are cases; hidden ones and links are left
    out.
    """
    for path, folders, files in os.walk(top, onerror=refuse):
        folders[:] = sorted(name for name in folders if not name.startswith("."))
        if is_case(files):
            yield path


def refuse(wrong: OSError) -> NoReturn:
    raise Wrong(f"the folder {wrong.filename!r} could not be read: {wrong.strerror}")


def is_case(files: Sequence[str]) -> bool:
    """Whether a folder with these files is a case."""
    return WORDS in files or MERGE in files or {EXCHANGE, SIGNALS} <= set(files)


# what a case has


def content(folder: pathlib.Path, name: str) -> Optional[bytes]:
    """What a file of a case has, or None where there is none."""
    path = folder / name
    try:
        if not stat.S_ISREG(os.stat(path).st_mode):
            raise Broken(f"{name} is not a regular file")
        return path.read_bytes()
    except FileNotFoundError:
        return None
    except OSError as wrong:
        raise Broken(f"{name} could not be read: {wrong.strerror}") from wrong


def words_in(case: Case, name: str) -> Optional[List[bytes]]:
    """The words in a file of a case, one a line."""
    text = content(case.folder, name)
    if text is None:
        return None
    lines = text.split(b"\n")
    return lines if lines[-1] else lines[:-1]


def steps_of(case: Case) -> List[Step]:
    """The calls of a case, in their order."""
    merge, words = words_in(case, MERGE), words_in(case, WORDS)
    if merge is None:
        return [Step(PLEX, usual_words(case) if words is None else words, REPORT)]
    if words is None:
        return [Step(MERGER, merge, REPORT)]
    return [Step(MERGER, merge, MERGED, is_first=True), Step(PLEX, words, REPORT)]


def usual_words(case: Case) -> List[bytes]:
    """The words of a case that has no file for them."""
    more = [name for name in (TABLE, FILTER, NEW) if os.path.exists(case.folder / name)]
    command = {(): "run", (TABLE,): "timed", (FILTER,): "trace"}.get(tuple(more))
    if command is None:
        raise Broken(f"{' and '.join(more)} do not tell the command: write it into a file {WORDS}")
    return [word.encode() for word in (command, EXCHANGE, SIGNALS, *more)]


def status_of(case: Case) -> int:
    """The exit status with which a case must end: 0 where no file tells another one."""
    text = content(case.folder, STATUS)
    if text is None:
        return 0
    word = text.strip()
    if not (word.isdigit() and len(word) <= 3 and int(word) <= MOST_STATUS):
        raise Broken(f"{STATUS} has no number from 0 to {MOST_STATUS}")
    return int(word)
