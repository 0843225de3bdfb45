"""plex-step on a terminal: Tab completes words, lines that were typed come back, and Ctrl-C gives
the prompt again, at the prompt and while a command runs, however often it is struck.
"""
from __future__ import annotations

import os
import pathlib
import pty
import re
import select
import signal
import sys
import time
from typing import Iterator, Sequence, Union

import pytest

from gate import harness

TOOL = harness.ROOT / "tools" / "bin" / "plex-step"
ASK = harness.ROOT / "examples" / "guide" / "ask"
PROMPT, INTERRUPT, END_OF_FILE, TAB, UP = b"(plex) ", b"\x03", b"\x04", b"\t", b"\x1b[A"
SOON = 300  # seconds in which an answer must come
WHILE = 0.3  # seconds of the processor in which a command that was typed is surely begun
STEERING = re.compile(rb"\x1b\[\??[\d;]*[A-Za-z]|\r|\x07")
# A job that sends itself, so that a run ends at its limit alone.
ENDLESS = """SIGNAL TICK SINGLE BUFFERED B DATA 0;
BLOCK COUNTER;
DECLARE; VARIABLE N WIDTH 32;
SURVEY; RECEIVE TICK; SEND TICK;
PROGRAM;
ENTER TICK;
N = N + 1;
SEND TICK;
EXIT;
END BLOCK;
"""
LONG = 5_000_000  # jobs, through which no machine goes before Ctrl-C
STRUCK, APART, STEP = 400, 40, 0.0001  # how often Ctrl-C is struck, and up to how far apart
PATIENCE = 2  # seconds after which a line is typed again

Word = Union[str, pathlib.Path]


class Terminal:
    """plex-step with a terminal of its own, for a `with`."""

    def __init__(self, words: Sequence[Word]) -> None:
        self.words = [sys.executable, str(TOOL), *map(str, words)]

    def __enter__(self) -> Terminal:
        self.process, self.end = pty.fork()
        if self.process == 0:
            try:
                os.execve(self.words[0], self.words, {**os.environ, "TERM": "xterm", "INPUTRC": ""})
            finally:
                os._exit(127)
        self.wrote, self.status = b"", -1
        return self

    def __exit__(self, *_: object) -> None:
        if self.status < 0:
            os.kill(self.process, signal.SIGKILL)
            os.waitpid(self.process, 0)
        os.close(self.end)

    def is_told(self, seconds: float) -> bool:
        """Whether something is there to read, within the time."""
        return bool(select.select([self.end], [], [], seconds)[0])

    def read(self) -> bool:
        """Reads what is there within the time; tells whether the session goes on."""
        assert self.is_told(SOON), f"nothing comes behind {self.wrote[-200:]!r}"
        try:
            some = os.read(self.end, 1 << 16)
        except OSError:  # the session has closed its side
            return False
        self.wrote += some
        return bool(some)

    def until(self, told: bytes) -> bytes:
        """What is written up to these bytes, without what steers the terminal."""
        until = time.monotonic() + SOON
        while told not in STEERING.sub(b"", self.wrote):
            assert self.read() and time.monotonic() < until, f"no {told!r}: {self.wrote[-300:]!r}"
        seen, _, left = STEERING.sub(b"", self.wrote).partition(told)
        self.wrote = left
        return seen

    def type(self, keys: bytes) -> None:
        os.write(self.end, keys)

    def seconds(self) -> float:
        """The seconds of the processor that the session has used."""
        of_process = pathlib.Path(f"/proc/{self.process}/stat").read_text().rpartition(")")[2]
        return sum(map(int, of_process.split()[11:13])) / os.sysconf("SC_CLK_TCK")

    def work(self) -> None:
        """Waits until the session has worked a while."""
        begun, until = self.seconds(), time.monotonic() + SOON
        while self.seconds() < begun + WHILE:
            assert time.monotonic() < until, "the session does not work"
            time.sleep(0.01)

    def interrupt_often(self) -> None:
        """Strikes Ctrl-C many times, nearer and farther from one another."""
        for number in range(STRUCK):
            self.type(INTERRUPT)
            time.sleep(number % APART * STEP)
            while self.is_told(0):
                assert self.read(), f"the session has ended: {self.wrote[-300:]!r}"

    def answers(self, line: bytes, told: bytes) -> None:
        """Types a line until it is answered: one that is typed while an interrupt is not yet heeded
        is forgotten.
        """
        self.wrote, until = b"", time.monotonic() + SOON
        while told not in self.wrote:
            assert time.monotonic() < until, f"{line!r} is not answered: {self.wrote[-300:]!r}"
            self.type(line)
            while told not in self.wrote and self.is_told(PATIENCE):
                assert self.read(), f"the session has ended: {self.wrote[-300:]!r}"

    def ended(self) -> int:
        """The status with which the session ends."""
        while self.read():
            pass
        _, status = os.waitpid(self.process, 0)
        self.status = os.waitstatus_to_exitcode(status)
        return self.status


@pytest.fixture
def asking(plex: pathlib.Path) -> Iterator[Terminal]:
    """A session at its first prompt."""
    with Terminal([ASK / "exchange.plex", ASK / "signals.txt"]) as terminal:
        terminal.until(PROMPT)
        yield terminal


def test_tab(asking: Terminal) -> None:
    """Tab completes a command, and a name of the exchange, in whatever letters it is begun."""
    asking.type(b"whe" + TAB)
    asking.until(b"where")
    asking.type(b"\n")
    assert b"DESK:" in asking.until(PROMPT)
    asking.type(b"p su" + TAB)
    asking.until(b"SUM")
    asking.type(b"(1)\n")
    assert b"DESK.SUM(1) = 0" in asking.until(PROMPT)


def test_lines_come_back(asking: Terminal) -> None:
    """The key Up brings the last line back."""
    asking.type(b"info jobs\n")
    first = asking.until(PROMPT)
    assert b"waits" in first
    asking.type(UP)
    asking.until(b"info jobs")
    asking.type(b"\n")
    assert first.endswith(asking.until(PROMPT).lstrip())


def test_interrupt_at_the_prompt(asking: Terminal) -> None:
    """Ctrl-C forgets the line that is typed, and the session goes on, whenever the key comes."""
    for _ in range(10):
        asking.type(b"quit")
        asking.until(b"quit")
        asking.type(INTERRUPT)
        asking.until(PROMPT)
    asking.type(b"where\n")
    assert b"DESK:" in asking.until(PROMPT)
    asking.type(END_OF_FILE)
    assert asking.ended() == 0


@pytest.fixture
def endless(plex: pathlib.Path, folder: pathlib.Path) -> Iterator[Terminal]:
    """A session at the first prompt of a run that takes long."""
    (folder / "E").write_text(ENDLESS)
    (folder / "S").write_text("AFTER 0 TICK COUNTER NONE\n")
    with Terminal([folder / "E", folder / "S", "--limit", str(LONG)]) as terminal:
        terminal.until(PROMPT)
        yield terminal


def test_interrupt_of_a_command(endless: Terminal) -> None:
    """Ctrl-C stops a command that takes long, and the run stands where the command began."""
    endless.type(b"s\n")
    endless.until(PROMPT)
    endless.type(b"where\n")
    place = endless.until(PROMPT).strip()
    endless.type(b"goto %d\n" % (LONG - 1))
    endless.work()
    endless.type(INTERRUPT)
    assert b"stopped" in endless.until(PROMPT)
    endless.type(b"where\n")
    assert endless.until(PROMPT).strip() == place
    endless.type(b"quit\n")
    assert endless.ended() == 0


@pytest.mark.parametrize("line", [b"", b"goto %d\n" % (LONG - 1)], ids=["prompt", "command"])
def test_interrupts_one_after_the_other(endless: Terminal, line: bytes) -> None:
    """Ctrl-C that is struck again and again, while the prompt is written and while a command is
    stopped, does not end the session.
    """
    if line:
        endless.type(line)
        endless.work()
    endless.interrupt_often()
    endless.answers(b"where\n", b"TICK")
    endless.type(b"quit\n")
    assert endless.ended() == 0
