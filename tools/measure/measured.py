"""What a command takes of the processor and of memory. For `test_large_texts.py`.

`measured(command, folder, most)` runs a command in a folder, in which its output is the file
WRITTEN, and gives what it came to, with the seconds that passed. A command that takes more seconds
of the processor than the most is ended by the system, with the signal SIGXCPU; one that takes none
and does not end is ended too, after a longer while, since others may use the processor beside it.
"""
import os
import pathlib
import signal
import subprocess
import sys
import time
from typing import NamedTuple, Optional, Sequence, Union

WRITTEN = "written"
WHILE = 120
PACE, TURNS = 0.066, 2_000_000


class Measure(NamedTuple):
    """What a command came to: its exit status, None where it did not end, the seconds of the
    processor, the peak of memory in bytes, and the seconds that passed.
    """

    status: Optional[int]
    seconds: float
    memory: int
    passed: float = 0.0


# Runs a command and tells its status, its time of the processor and its peak of memory. What a
# process takes counts for its children until they have begun, so this small one stands between them
# and the tool, which holds large texts.
SMALL = """
import os, resource, sys, time
most = int(sys.argv[1])
resource.setrlimit(resource.RLIMIT_CPU, (most, most + 5))
written = os.open(sys.argv[2], os.O_WRONLY | os.O_CREAT | os.O_TRUNC)
nothing = os.open(os.devnull, os.O_RDONLY)
files = [(os.POSIX_SPAWN_DUP2, nothing, 0), (os.POSIX_SPAWN_DUP2, written, 1)]
begun = time.monotonic()
child = os.posix_spawn(sys.argv[3], sys.argv[3:], os.environ, file_actions=files)
_, status, used = os.wait4(child, 0)
passed = time.monotonic() - begun
seconds = used.ru_utime + used.ru_stime
print(os.waitstatus_to_exitcode(status), seconds, used.ru_maxrss * 1024, passed)
"""


def measured(command: Sequence[object], folder: Union[str, pathlib.Path], most: float) -> Measure:
    """What a command comes to in a folder."""
    words = [
        sys.executable,
        "-I",
        "-S",
        "-c",
        SMALL,
        str(int(most) + 1),
        WRITTEN,
        *map(str, command),
    ]
    small = subprocess.Popen(words, cwd=folder, stdout=subprocess.PIPE, start_new_session=True)
    try:
        told = small.communicate(timeout=WHILE + 10 * most)[0].split()
    except subprocess.TimeoutExpired:
        os.killpg(small.pid, signal.SIGKILL)
        small.communicate()
        return Measure(None, float(most), 0)
    if small.returncode or len(told) != 4:
        sys.exit(f"{command[0]} cannot be measured")
    status, seconds, memory, passed = int(told[0]), float(told[1]), int(told[2]), float(told[3])
    return Measure(None if status == -signal.SIGXCPU else status, seconds, memory, passed)


class Pace(NamedTuple):
    """How much slower this machine is than the one of the known figures, below 1 where it is
    faster, and how many seconds pass for each one that it computes, as others use it too.
    """

    machine: float
    delay: float


def paced(tries: int = 1) -> Pace:
    """The pace of this machine, by a small piece of work of always the same size: the least of some
    tries, and their longest delay.
    """
    taken, delays = [], [1.0]
    for _ in range(tries):
        clock, begun = time.monotonic(), time.process_time()
        sum(number % 7 for number in range(TURNS))
        taken.append(time.process_time() - begun)
        delays.append((time.monotonic() - clock) / taken[-1])
    return Pace(min(taken) / PACE, max(delays))


def machine(tries: int = 1) -> float:
    """How much slower this machine is than the one of the known figures."""
    return paced(tries).machine


def pace() -> float:
    """How much slower this machine is than the one of the known figures: 1 where it is faster."""
    return max(1.0, machine(3))
