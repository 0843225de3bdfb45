"""Where the programs are, whether they are stale or not proved, and one call of one with a time
limit. For the other tools.

`find()` gives the path of plex: the one that is named, or else that of the variable PLEX, or else
the built one. `find_merger()` does the same for plex-merge, with the variable PLEX_MERGE, and
`find_conflicts()` for plex-conflicts, with PLEX_CONFLICTS. They end the tool where there is no such
program, where the built one is older than one of its sources, and where the program is not proved.
With PLEX_UNPROVED=1 a program that is not proved is taken, that of `tools/build --unproved` too,
and the tool's last line says "unproved". `find_proved()` refuses it always, and `find_launcher()`
gives the launcher of the built program. `answer()` calls it, and `wrong()` tells what an answer
should not be. `verdict()` and `summed()` end a tool: with a last line, and with 1 where a case
failed, where fewer cases ran than the least, and where more was left out than may be. `is_there()`
tells whether a command of the system is there; where it is not, what needs it is left out, which is
told and counted. How much may be is said by the variable MOST_LEFT_OUT, and anything where that is
not set; the gate sets it to 0. `seed()` is that of cases made by chance: each commit has another
one. `version()` is the one that the sources have.
"""
import atexit
import contextlib
import os
import pathlib
import re
import resource
import shutil
import signal
import subprocess
import sys
import threading
from collections.abc import Iterator, Mapping, Sequence
from typing import NamedTuple, Optional, Union

from gate import proved
from plextools import programs

ROOT = programs.ROOT
CASES = ROOT / "tools" / "gate" / "cases"
PYTHON = "/usr/bin/python3"  # of Debian, which its modules belong to
GUIDE = [ROOT / "docs" / "GUIDE.md", *sorted((ROOT / "docs" / "guide").glob("*.md"))]
PLEX, MERGER, CONFLICTS = (
    programs.BY_NAME[name] for name in ("plex", "plex-merge", "plex-conflicts")
)
VERSION = ROOT / "crates" / "process_ends" / "src" / "complaint.rt"
VERSION_TOLD = re.compile(r'^const VERSION: &str = "(\d[0-9A-Za-z.+~]*)";$', re.M)
# Seconds of the processor that a call may take, and those of the clock within which anything ends,
# however slow the machine is and whatever else it does.
LONGEST, WHILE = 60, 600
SHOWN = 120
LATE, MOST_LATE = [], 2
LEFT_OUT = []
UNPROVED: list[pathlib.Path] = []  # the programs that were taken though they are not proved
UNPROVED_TOLD: list[bool] = []  # whether a last line has said so
SILENT = (0, 4, 5)


class Answer(NamedTuple):
    """How a call ended, with None where it did not in time, and what it wrote."""

    status: Optional[int]
    wrote: bytes
    complaint: bytes


# where the program is


def sources() -> Iterator[pathlib.Path]:
    """All files that the programs are built of, as the launcher `plex` looks at them."""
    yield ROOT / "crates.txt"
    for folder, folders, names in os.walk(ROOT / "crates"):
        folders[:] = [name for name in folders if name != "out"]
        yield from (pathlib.Path(folder, name) for name in names)


def newer_source(plex: pathlib.Path) -> Optional[pathlib.Path]:
    """A source that has changed since a program was built, or None."""
    built = plex.stat().st_mtime_ns
    return next((path for path in sources() if path.stat().st_mtime_ns > built), None)


def find(named: Union[str, pathlib.Path, None] = None) -> pathlib.Path:
    """The path of plex. It ends the tool where that cannot be run, is stale, or is not proved."""
    return found(PLEX, named)


def find_merger(named: Union[str, pathlib.Path, None] = None) -> pathlib.Path:
    """The path of plex-merge, in the same way."""
    return found(MERGER, named)


def find_conflicts(named: Union[str, pathlib.Path, None] = None) -> pathlib.Path:
    """The path of plex-conflicts, in the same way."""
    return found(CONFLICTS, named)


def find_proved(
    program: programs.Program, named: Union[str, pathlib.Path, None] = None
) -> pathlib.Path:
    """The path of a program, in the same way; one that is not proved is refused by every means."""
    path = fresh(program, named or os.environ.get(program.variable))
    if not proved.is_proved(path):
        sys.exit(f"{path} is not proved; tools/build {program.name} makes one that is")
    return path


def find_launcher(program: programs.Program) -> pathlib.Path:
    """The program that its variable names, or else the launcher of the built one, which then is
    there and fresh.
    """
    path = found(program)
    return program.launcher if path == program.proved.resolve() else path


def found(program: programs.Program, named: Union[str, pathlib.Path, None] = None) -> pathlib.Path:
    """The path of a program that is proved, or may be taken as it is."""
    path = fresh(program, named or os.environ.get(program.variable))
    if not proved.is_proved(path):
        if not takes_unproved():
            sys.exit(
                f"{path} is not proved; tools/build {program.name} makes one that is, and with "
                "PLEX_UNPROVED=1 this one is taken"
            )
        note_unproved(path)
    return path


def takes_unproved() -> bool:
    return os.environ.get("PLEX_UNPROVED") == "1"


def fresh(program: programs.Program, named: Union[str, pathlib.Path, None]) -> pathlib.Path:
    """The path of the program that is named, or of the built one."""
    path = pathlib.Path(named or built(program)).resolve()
    command = f"tools/build {'--unproved ' if takes_unproved() else ''}{program.name}"
    if not path.is_file() or not os.access(path, os.X_OK):
        sys.exit(f"{path} is no program that can be run; {command} builds it")
    is_built_here = path in (program.proved.resolve(), program.unproved.resolve())
    newer = newer_source(path) if is_built_here else None
    if newer:
        sys.exit(f"{path} is older than {newer.relative_to(ROOT)}; {command} builds it anew")
    return path


def built(program: programs.Program) -> pathlib.Path:
    """Where the built program is: the proved one, but for one that may be taken in the place of a
    stale one.
    """
    if takes_unproved() and (not program.proved.is_file() or newer_source(program.proved)):
        return program.unproved
    return program.proved


def note_unproved(path: pathlib.Path) -> None:
    """Notes that the tool takes a program that is not proved, which its last line then says."""
    if not UNPROVED:
        atexit.register(tell_unproved)
    if path not in UNPROVED:
        UNPROVED.append(path)


def tell_unproved() -> None:
    """Says so where the last line of the tool has not."""
    if not UNPROVED_TOLD:
        print(f"unproved: {', '.join(map(str, UNPROVED))}", flush=True)


def unproved() -> str:
    """What the last line of a tool says of its programs, if they are not proved."""
    UNPROVED_TOLD.append(True)
    return "; unproved" if UNPROVED else ""


def version() -> str:
    """The version of the programs: the one constant of the sources that says it."""
    found = VERSION_TOLD.search(VERSION.read_text())
    if not found:
        sys.exit(f"{VERSION} tells no version")
    return found[1]


# one call


def write_files(folder: Union[str, pathlib.Path], files: Mapping[str, Union[str, bytes]]) -> None:
    """Writes files into a folder: for each name its bytes, or its text."""
    for name, content in files.items():
        pathlib.Path(folder, name).write_bytes(
            content if isinstance(content, bytes) else content.encode()
        )


def answer(
    plex: Union[str, pathlib.Path],
    words: Sequence[object],
    folder: Union[str, pathlib.Path, None] = None,
    longest: int = LONGEST,
) -> Answer:
    """The status, the output and the complaint of a call.

    The status is None where no answer came: after so many seconds of the processor, or after a long
    while, since others may use the processor beside it.
    """
    give_up()
    called: list[Union[str, bytes, pathlib.Path]] = [plex]
    called += [word if isinstance(word, bytes) else str(word) for word in words]
    with subprocess.Popen(
        called,
        cwd=folder,
        stdin=subprocess.DEVNULL,
        stdout=subprocess.PIPE,
        stderr=subprocess.PIPE,
    ) as child:
        limit_processor(child, longest)
        try:
            wrote, complaint = child.communicate(timeout=max(WHILE, 10 * longest))
            is_late = child.returncode == -signal.SIGXCPU
        except subprocess.TimeoutExpired:
            child.kill()
            is_late = True
    if is_late:
        late()
        return Answer(None, b"", b"")
    return Answer(child.returncode, wrote, complaint)


def limit_processor(child: "subprocess.Popen[bytes]", seconds: int) -> None:
    """The system ends a child that takes more seconds of the processor."""
    try:
        resource.prlimit(child.pid, resource.RLIMIT_CPU, (seconds, seconds + 1))
    except OSError:
        child.poll()


@contextlib.contextmanager
def ended_late(process: "subprocess.Popen[bytes]") -> Iterator[None]:
    """Ends a process that goes on for a long while, so that what reads from it ends too."""
    timer = threading.Timer(WHILE, process.kill)
    timer.daemon = True
    timer.start()
    try:
        yield
    finally:
        timer.cancel()


def processor() -> float:
    """The seconds of the processor that ended children have taken."""
    used = resource.getrusage(resource.RUSAGE_CHILDREN)
    return used.ru_utime + used.ru_stime


def late() -> None:
    """Notes that a call did not end in time."""
    LATE.append(True)
    give_up()


def give_up() -> None:
    """Ends the tool where some calls did not end in time, as each of them costs so much."""
    if len(LATE) >= MOST_LATE:
        sys.stdout.flush()
        sys.exit(
            f"{MOST_LATE} calls of the program did not end in time; the other cases are not tried"
        )


def first_difference(wrote: bytes, wanted: bytes) -> str:
    """The first line that differs, with its number: as it was written, and as it must be."""
    lines, others = wrote.splitlines(keepends=True), wanted.splitlines(keepends=True)
    pairs = enumerate(zip(lines, others))
    place = next(
        (place for place, (one, other) in pairs if one != other), min(len(lines), len(others))
    )
    got, needed = (some[place][:SHOWN] if place < len(some) else b"" for some in (lines, others))
    return f"line {place + 1} is {got!r} and not {needed!r}"


def wrong(got: Answer, status: Optional[int], wanted: Optional[bytes] = None) -> Optional[str]:
    """What is wrong with an answer, or None; what it wrote is compared where that is known."""
    if got.status is None:
        return "no answer in time"
    if got.status != status:
        told = f"it wrote {got.wrote[:SHOWN]!r} and {got.complaint[:SHOWN]!r}"
        return f"status {got.status} and not {status}; {told}"
    if status in SILENT and got.complaint:
        return f"it complains: {got.complaint[:SHOWN]!r}"
    if status not in SILENT and not got.complaint:
        return f"it says nothing on the standard error, with status {status}"
    if wanted is not None and got.wrote != wanted:
        return first_difference(got.wrote, wanted)
    return None


# the cases of a tool


def count(word: str) -> int:
    """How many cases are asked for, which must be one at least."""
    number = int(word)
    if number < 1:
        raise ValueError
    return number


def seed() -> str:
    """The seed of cases made by chance, a word: the date of the commit in seconds, whoever owns
    the sources, and 1 where there is no commit.
    """
    words = ["git", "-c", f"safe.directory={ROOT}", "-C", str(ROOT), "log", "-1", "--format=%ct"]
    try:
        told = subprocess.run(
            words, stdout=subprocess.PIPE, stderr=subprocess.DEVNULL, timeout=WHILE, check=False
        ).stdout
    except (OSError, subprocess.TimeoutExpired):
        told = b""
    if not told.strip() and (ROOT / ".git").exists():
        print("git tells no commit, so what is made by chance has the seed 1", file=sys.stderr)
    return told.decode().strip() or "1"


# what is left out


def is_there(command: str, needed_for: str) -> bool:
    """Whether a command of the system is there; where not, what it is needed for is left out."""
    if shutil.which(command):
        return True
    left_out(f"{needed_for}, as there is no {command}")
    return False


def has_modules(modules: Sequence[str], needed_for: str) -> bool:
    """The same for modules of Debian's Python."""
    find = (
        "import importlib.util, sys; sys.exit(not all(map(importlib.util.find_spec, sys.argv[1:])))"
    )
    words = [PYTHON, "-I", "-c", find, *modules]
    try:
        done = subprocess.run(words, stdin=subprocess.DEVNULL, timeout=WHILE, check=False)
    except (OSError, subprocess.TimeoutExpired):
        done = None
    if done is not None and done.returncode == 0:
        return True
    left_out(f"{needed_for}, as Debian's Python has not {' and '.join(modules)}")
    return False


def left_out(told: str) -> None:
    """Tells and counts what a tool does not try on this machine."""
    LEFT_OUT.append(told)
    print(f"left out: {told}", flush=True)


def is_too_much_left_out() -> bool:
    return len(LEFT_OUT) > int(os.environ.get("MOST_LEFT_OUT", len(LEFT_OUT)))


# the end of a tool


def verdict(name: str, passed: int, failed: int, least: int, more: str = "") -> int:
    """The last line of a tool, and its exit status."""
    few = passed + failed < least
    more += f"; fewer than {least} cases" if few else ""
    more += f"; {len(LEFT_OUT)} left out" if LEFT_OUT else ""
    more += unproved()
    print(f"{name}: {passed} passed, {failed} failed{more}", flush=True)
    return 1 if failed or few or is_too_much_left_out() else 0


def summed(
    name: str, wrong: Sequence[str], counts: Mapping[str, tuple[int, int]], more: str = ""
) -> int:
    """The same for a tool that counts several kinds of things, each beside its least; first it
    tells what is wrong.
    """
    few = [
        f"{number} {kind}, and {least} is the least"
        for kind, (number, least) in counts.items()
        if number < least
    ]
    for line in [*wrong, *few]:
        print(line)
    counted = (
        ", ".join(f"{number} {kind}" for kind, (number, _) in counts.items()) or "nothing tried"
    )
    more += f"; {len(LEFT_OUT)} left out" if LEFT_OUT else ""
    more += unproved()
    print(f"{name}: {counted}; {len(wrong) + len(few)} wrong{more}", flush=True)
    return 1 if wrong or few or is_too_much_left_out() else 0
