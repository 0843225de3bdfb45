"""The programs of plex: where they are, and one call of one. For the tools that stand beside them.

`PROGRAMS` has each program once: a new program is one line there, and a link of its name to the
launcher `plex`. `program()` finds one and looks whether it has the version of the tools,
`answer(words)` gives what plex writes, and `lines_of(words)` gives that line by line as it comes.
What keeps a tool from its work is raised as `Wrong`, and `run_tool(main)` tells it in one line on
the standard error, or, where plex has refused a text, as plex tells it, with its status; so it does
where the standard output cannot be written.
"""
import argparse
import functools
import os
import pathlib
import shutil
import subprocess
import sys
import threading
from typing import Callable, Iterator, Mapping, NamedTuple, NoReturn, Sequence, Tuple

from plextools import VERSION, streams, tables

ROOT = (
    pathlib.Path(__file__).resolve().parents[3]
)  # of the sources, where the tools are not installed
LONGEST = 600
ENDINGS = (0, 4, 5)  # the statuses of a run: its jobs are done, it was ended by restarts, or --jobs


class Program(NamedTuple):
    """A program of plex: its name, the option by which tools take another one, an example of it
    with the file of its words, and the tools of users that need it.
    """

    name: str
    option: str
    example: str
    words: str
    needed_by: Tuple[str, ...]

    @property
    def crate(self) -> str:
        """The crate of its main function."""
        return self.name.replace("-", "_")

    @property
    def variable(self) -> str:
        """The variable that names another program to run."""
        return self.crate.upper()

    @property
    def launcher(self) -> pathlib.Path:
        """What builds and runs it in the sources."""
        return ROOT / self.name

    @property
    def proved(self) -> pathlib.Path:
        """Where it is in the sources once it is proved and built."""
        return ROOT / "crates" / self.crate / "out" / self.crate

    @property
    def unproved(self) -> pathlib.Path:
        """Where `tools/build --unproved` puts the other one in the sources."""
        return ROOT / "out" / self.name

    @property
    def built(self) -> pathlib.Path:
        """The proved one in the sources; where there is a newer one that is not proved, its
        launcher, which says so and looks whether that is fresh.
        """
        proved, other = self.proved, self.unproved
        if not other.is_file():
            return proved
        if proved.is_file() and proved.stat().st_mtime > other.stat().st_mtime:
            return proved
        return self.launcher


OF_PAIRS = ("plex-why", "plex-load", "plex-page")
PROGRAMS = (
    Program("plex", "--program", "three_ticks", "words", (*OF_PAIRS, "plex-test")),
    Program("plex-merge", "--merger", "merged_ticks", "merge", ("plex-test",)),
    Program("plex-conflicts", "--conflicts", "all_conflicts", "conflicts", OF_PAIRS),
)
BY_NAME = {program.name: program for program in PROGRAMS}


class Wrong(Exception):
    """What keeps a tool from its work: a line to be told, and the exit status. `refused` is the
    line of plex itself.
    """

    def __init__(self, told: str, status: int = 2, refused: bool = False) -> None:
        super().__init__(told)
        self.told, self.status, self.refused = told, status, refused


def places(one: Program) -> Iterator[str]:
    """Where a program may be: beside the tool that runs, built in the sources, and where the shell
    finds it, unless that is the launcher of the sources, which may build for a long time.
    """
    yield str(pathlib.Path(sys.argv[0]).resolve().parent / one.name)
    yield str(one.built)
    found = shutil.which(one.name)
    if found and pathlib.Path(found).resolve() != one.launcher.resolve():
        yield found


def can_run(path: str) -> bool:
    return pathlib.Path(path).is_file() and os.access(path, os.X_OK)


def program(name: str = "plex") -> str:
    """The path of a program: the one that its variable names, or else the first that is there."""
    one = BY_NAME[name]
    named = os.environ.get(one.variable)
    for place in [named] if named else places(one):
        if can_run(place):
            path = str(pathlib.Path(place).resolve())
            check_version(name, path)
            return path
    if named:
        raise Wrong(f"there is no program {name} at {named}")
    needs = f"; {', '.join(one.needed_by)} need it, and ./{name} builds it"
    raise Wrong(f"the program {name} is not there{needs}")


@functools.lru_cache(maxsize=None)
def check_version(name: str, path: str) -> None:
    """Raises `Wrong` where a program does not say that it has the version of the tools."""
    try:
        done = subprocess.run(
            [path, "--version"],
            stdin=subprocess.DEVNULL,
            stdout=subprocess.PIPE,
            stderr=subprocess.PIPE,
            timeout=LONGEST,
            check=False,
        )
    except (OSError, subprocess.TimeoutExpired) as wrong:
        raise Wrong(f"{path} cannot be run: {wrong}") from wrong
    # the last line of an output, since a launcher says more; it answers on the standard output, and
    # the program itself beside its usage line
    last = [
        output.decode("utf-8", "replace").strip().rpartition("\n")[2]
        for output in (done.stdout, done.stderr)
    ]
    told = last[0] if last[0] == f"{name} {VERSION}" else last[1]
    if told != f"{name} {VERSION}":
        wanted = f"{name} {VERSION}, of which these tools are"
        raise Wrong(f"{path} is not {wanted}: its --version says {told[:80]!r}")


def bytes_of(name: str) -> bytes:
    """The bytes of a file that the command names, which plex reads too."""
    try:
        if os.path.exists(name) and not os.path.isfile(name):
            raise Wrong(f"{tables.quoted(str(name))} is no file that can be read more than once")
        return pathlib.Path(name).read_bytes()
    except (OSError, ValueError) as wrong:
        told = getattr(wrong, "strerror", None) or wrong
        raise Wrong(f"the file {tables.quoted(str(name))} could not be read: {told}") from wrong


def called(of: str, words: Sequence[str]) -> str:
    """A call as messages name it: plex with its command, another program by its name."""
    return f"{of} {words[0]}" if of == "plex" else of


def ended(returncode: int, call: str, wrote: bytes, accepted: Sequence[int] = (0,)) -> None:
    """The program has ended: with a status that is not accepted it has refused something, or
    something went wrong.
    """
    if returncode in accepted:
        return
    told = wrote.decode("utf-8", "replace").strip().split("\n")[0]
    if returncode > 0 and told:
        raise Wrong(told, returncode, refused=True)
    if returncode == 6:
        raise Wrong(f"a file could not be read by {call.split(' ')[0]}", 6)
    raise Wrong(f"{call} ended with the status {returncode}")


def late(call: str) -> Wrong:
    return Wrong(f"{call} did not end within {LONGEST} seconds")


def answer(words: Sequence[str], accepted: Sequence[int] = (0,), of: str = "plex") -> bytes:
    """What a program writes, in bytes, with one of the accepted statuses."""
    try:
        done = subprocess.run(
            [program(of), *words], stdin=subprocess.DEVNULL, stdout=subprocess.PIPE, timeout=LONGEST
        )
    except subprocess.TimeoutExpired as wrong:
        raise late(called(of, words)) from wrong
    ended(done.returncode, called(of, words), done.stdout, accepted)
    return done.stdout


def lines_of(words: Sequence[str], accepted: Sequence[int] = (0,)) -> Iterator[bytes]:
    """The lines that plex writes, in bytes and without their ends, as they come; at the end its
    status must be one of the accepted ones.
    """
    with subprocess.Popen(
        [program(), *words], stdin=subprocess.DEVNULL, stdout=subprocess.PIPE
    ) as process:
        first, timer = b"", threading.Timer(LONGEST, process.kill)
        timer.daemon = True
        timer.start()
        try:
            for line in process.stdout or ():
                first = first or line
                yield line[:-1]
            process.wait()
            if not timer.is_alive():
                raise late(called("plex", words))
        finally:
            timer.cancel()
        ended(process.returncode, called("plex", words), first, accepted)


class Words(argparse.ArgumentParser):
    """The words of a tool, by what its head says of it. Wrong ones are told in a line, with the
    usage.
    """

    def __init__(self, about: str) -> None:
        self.line = about.splitlines()[0]
        super().__init__(
            usage=self.line,
            description=about.split("\n", 2)[2],
            formatter_class=argparse.RawDescriptionHelpFormatter,
        )
        self.name = self.line.split()[0]
        self.add_argument("--version", action="version", version=f"{self.name} {VERSION}")

    def tell_options(self, told: Mapping[str, Tuple[str, str]]) -> None:
        """Gives options, by their names, what stands behind them and what --help tells of them."""
        for action in self._actions:
            for name in told.keys() & {*action.option_strings}:
                value, action.help = told[name]
                action.metavar = value or None

    def error(self, message: str) -> NoReturn:
        raise Wrong(f"{tables.printed(message)}\nusage: {self.line}")


def number_to(most: int) -> Callable[[str], int]:
    """Reads a word that is a number from 1 to this one."""

    def number(word: str) -> int:
        if not (word.isascii() and word.isdigit() and 1 <= int(word) <= most):
            raise argparse.ArgumentTypeError(f"{word!r} is no number from 1 to {most}")
        return int(word)

    return number


def run_tool(main: Callable[[], int], unwritten: int = 2) -> None:
    """Runs the main function of a tool, and ends with its status: 2 where something is wrong, and
    `unwritten` where the standard output cannot be written, which is told unless it is a pipe that
    nobody reads any more.
    """
    name = pathlib.Path(sys.argv[0]).name
    streams.take()
    try:
        status = status_of(main, name)
        sys.stdout.flush()
    except streams.Unwritten as wrong:
        streams.give_up()
        if not wrong.is_unread:
            print(f"{name}: the output could not be written: {wrong}", file=sys.stderr)
        status = unwritten
    except KeyboardInterrupt:
        status = 130
    sys.exit(status)


def status_of(main: Callable[[], int], name: str) -> int:
    """The status of a tool, which tells what is wrong."""
    try:
        return main()
    except Wrong as wrong:
        if wrong.refused:
            print(wrong.told)
        else:
            print(f"{name}: {wrong.told}", file=sys.stderr)
        return wrong.status
    except SystemExit:  # behind the help or the version
        sys.stdout.flush()
        raise
