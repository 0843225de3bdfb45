"""What a careless or hostile user may give to the program, and what must come of it: the cases of
test_hostile.py.
"""
from __future__ import annotations

import os
import pathlib
import shutil
import subprocess
from typing import Any, Callable, Mapping, Optional, Sequence, Union

from gate import harness, sentence_tables
from gate.checking import ROOT, TOOLS

LONGEST = harness.WHILE
USAGE = (ROOT / "examples" / "usage_no_words" / "report.txt").read_text()
HELP = (ROOT / "examples" / "usage_help" / "error.txt").read_text()
VERSION = (ROOT / "examples" / "usage_version" / "error.txt").read_text().rstrip("\n")
EMPTY = "JOBS 0\nEND DONE\n"
TICKS = (ROOT / "examples" / "three_ticks" / "exchange.plex").read_text()
THREE = "AFTER 0 TICK COUNTER NONE\n" * 3
TOLD = "JOBS 3\nVAR COUNTER.N 3\nEND DONE\n"
TIMED, TRACED, CHANGED = (
    ["timed", "E", "S", "T"],
    ["trace", "E", "S", "Q"],
    ["change", "E", "S", "X"],
)
TABLE, FILTER = "EVERY 1 FROM 0 TIMES 3 TICK COUNTER NONE\n", "SHOW\n"
TENS = TICKS.replace("N + 1", "N + 10")
CHANGE_TOLD = "CHANGE job 2\nJOBS 3\nVAR COUNTER.N 12\nEND DONE\n"
TRACE = "".join(f"JOB {number} TICK COUNTER F0 ENDED\n" for number in (1, 2, 3))
REG = (ROOT / "examples" / "certificate" / "exchange.plex").read_text()
CERTIFICATE = (ROOT / "examples" / "certificate" / "report.txt").read_text()
CALLS = "AFTER 0 CALL REG 5 NEW\nAFTER 0 CALL REG 7 NEW\n"
CALLS_TOLD = (
    "JOBS 4\nREC REG.LINE(0).SUM 5\nREC REG.LINE(1).SUM 7\n"
    "HELD F1 REG.LINE(0)\nHELD F2 REG.LINE(1)\nEND DONE\n"
)
DIVE_SIGNALS = (
    "SIGNAL START SINGLE BUFFERED B DATA 1;\n",
    "SIGNAL DOWN COMBINED DATA 1 ANSWER UP DATA 1;\n",
    "SIGNAL SIDE COMBINED DATA 0 ANSWER BACK DATA 0;\n",
)
DIVE_BLOCK = """BLOCK R;
DECLARE; VARIABLE V WIDTH 32; TEMPORARY T;
SURVEY; RECEIVE START; RECEIVE DOWN; RECEIVE SIDE; SEND DOWN; SEND SIDE;
PROGRAM;
ENTER START WITH T;
IF T = 0 GOTO ODD;
SEND DOWN WITH T;
RETRIEVE UP WITH T;
V = T;
EXIT;
ODD) SEND SIDE;
RETRIEVE BACK;
EXIT;
ENTER SIDE;
RETURN UP WITH 0;
ENTER DOWN WITH T;
IF T = 1 GOTO LAST;
SEND DOWN WITH T - 1;
RETRIEVE UP WITH T;
RETURN UP WITH T + 1;
LAST) RETURN UP WITH 100;
END BLOCK;
"""
ANY_WRITTEN = None
GONE = "gone"
NOBODY = 65534
FAULTY = (2, 3, 9, 11, 12, 13)
ENVIRONMENT = {name: value for name, value in os.environ.items() if name != "PLEX_PROGRESS"}
NAMES = "run, single, analyse, certify, list, load, timed, change or trace"
UNWRITTEN = "plex: the output could not be written whole: "
FULL, CLOSED, LEFT, LONG = (
    f"{UNWRITTEN}{reason}\n"
    for reason in (
        "no space is left",
        "it is closed, or its device failed",
        "nobody reads the pipe any more",
        "a file may not be so large",
    )
)
NO_MEMORY = "plex: out of memory: give it more, or run a smaller text; --workers 1 takes less\n"


# What is put into a file: bytes, a text, or what makes them once they are needed, as some are
# large.
Content = Union[str, bytes, Callable[[], bytes]]
Word = Union[str, bytes]


def give_up_rights() -> None:
    """Goes on as nobody, where it is root."""
    if os.geteuid() == 0:
        os.setuid(NOBODY)


class Case:
    """Words, files, and the status and text that must come, with what must stand on the standard
    error: where a file has a fault, that is the line that belongs to the text. The output may be
    another than a pipe; the shell may set a limit before; the program may stand as it is installed,
    behind its script; and a file may be locked, where the program then runs without the rights of
    root."""

    def __init__(
        self,
        name: str,
        status: int,
        text: Optional[str],
        words: Sequence[Word] = ("run", "E", "S"),
        files: Mapping[str, Content] = {},
        output: Optional[str] = None,
        error: Optional[str] = None,
        limit: str = "",
        locked: Optional[str] = None,
        installed: bool = False,
    ) -> None:
        self.name, self.status, self.text, self.words = name, status, text, list(words)
        self.error = "" if status in harness.SILENT or "2>" in str(output) else error
        self.output, self.limit, self.locked, self.installed = output, limit, locked, installed
        self.files: dict[str, Content] = {"E": TICKS, "S": THREE, "T": "", "Q": "", "X": TENS}
        self.files.update(files)

    def told(self, plex: pathlib.Path, folder: pathlib.Path) -> Optional[str]:
        """What is wrong with the case."""
        for name, content in self.files.items():
            made = content() if callable(content) else content
            (folder / name).write_bytes(made if isinstance(made, bytes) else made.encode())
        try:
            status, wrote = self.run(plex, folder)
        except subprocess.TimeoutExpired:
            harness.late()
            return "no answer in time"
        if status != self.status:
            return f"status {status} and not {self.status}; it wrote {wrote[:80]!r}"
        if self.text is not ANY_WRITTEN and wrote != self.text.encode():
            return f"it wrote {wrote[:100]!r}"
        complaint = (folder / "error").read_bytes()
        if complaint != self.complaint(wrote.decode()).encode():
            return f"it wrote {complaint[:200]!r} to the standard error"
        return None

    def complaint(self, wrote: str) -> str:
        """What must stand on the standard error."""
        if self.error is None and self.status in FAULTY:
            return sentence_tables.complaint([str(word) for word in self.words], wrote)
        assert self.error is not None, f"{self.name} does not say what is complained of"
        return self.error

    def run(self, plex: pathlib.Path, folder: pathlib.Path) -> tuple[int, bytes]:
        """The status and what was written."""
        words: list[Any] = [plex, *self.words]
        how: dict[str, Any] = {
            "cwd": folder,
            "env": ENVIRONMENT,
            "stdin": subprocess.DEVNULL,
            "timeout": LONGEST,
        }
        with open(folder / "error", "wb") as error:
            how["stderr"] = error
            if self.installed:
                words[0] = installed(plex, folder)
            if self.locked:
                words[0] = self.lock(plex, folder, self.locked)
                how["preexec_fn"] = give_up_rights
            if self.output == GONE:
                return self.run_without_reader(words, how), b""
            if self.output or self.limit:
                words = ["sh", "-c", f'{self.limit} exec "$0" "$@" {self.output or ""}', *words]
            done = subprocess.run(words, stdout=subprocess.PIPE, **how)
        return done.returncode, done.stdout

    def lock(self, plex: pathlib.Path, folder: pathlib.Path, locked: str) -> pathlib.Path:
        """Lets none but root read the file, and all run a copy of the program, which it names."""
        (folder / locked).chmod(0)
        folder.chmod(0o755)
        return pathlib.Path(shutil.copy(plex, folder / "plex"))

    def run_without_reader(self, words: Sequence[Any], how: Mapping[str, Any]) -> int:
        """The status where nobody reads the pipe to which the program writes."""
        reader, writer = os.pipe()
        os.close(reader)
        try:
            return subprocess.run(words, stdout=writer, **how).returncode
        finally:
            os.close(writer)


def installed(plex: pathlib.Path, folder: pathlib.Path) -> pathlib.Path:
    """Puts the program and the script that runs it as they are installed, and names the script."""
    for name in ("bin", "lib/plex"):
        (folder / name).mkdir(parents=True)
    (folder / "lib/plex/plex").symlink_to(plex)
    shutil.copy(TOOLS / "maintain" / "start.sh", folder / "lib/plex")
    return pathlib.Path(shutil.copy(TOOLS / "maintain" / "plex.sh", folder / "bin/plex"))
