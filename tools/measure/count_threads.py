"""Counts the threads that a program starts, by the system's own interface for debuggers (ptrace),
which Linux has.

`started(words, folder)` runs the words there and gives how many threads they started, and their
exit status. It raises NotTraced where the system does not let one program trace another.
"""
import ctypes
import os
import signal
from typing import List, NamedTuple, NoReturn, Sequence, Set

TRACE_ME, CONTINUE, SET_OPTIONS = 0, 7, 0x4200
ON_CLONE, WITH_THE_TRACER = 8, 1 << 20
CLONE_EVENT, ALL_THREADS = 3, 0x40000000
NOT_TRACED, NOT_THERE, LONGEST = 126, 127, 600


class NotTraced(Exception):
    """The system does not let this program trace another one."""


class Started(NamedTuple):
    """How many threads a program started, and its exit status, below 0 where a signal ended it."""

    threads: int
    status: int


def trace(request: int, thread: int = 0, data: int = 0) -> int:
    """A call of ptrace, and what it gives."""
    call = ctypes.CDLL(None, use_errno=True).ptrace
    call.restype = ctypes.c_long
    call.argtypes = [ctypes.c_long, ctypes.c_long, ctypes.c_void_p, ctypes.c_void_p]
    return int(call(request, thread, None, data))


def begin(words: List[str], folder: str) -> NoReturn:
    """The child: it lets itself be traced, and becomes the program, with nothing to read and nobody
    who reads it.
    """
    nothing = os.open(os.devnull, os.O_RDWR)
    for place in range(3):
        os.dup2(nothing, place)
    try:
        os.chdir(folder)
        if trace(TRACE_ME) == 0:
            os.execv(words[0], words)
    except OSError:
        os._exit(NOT_THERE)
    os._exit(NOT_TRACED)


def started(words: Sequence[object], folder: str) -> Started:
    """Runs the words in the folder, and counts the threads that they start."""
    child = os.fork()
    if child == 0:
        begin([str(word) for word in words], folder)
    signal.alarm(LONGEST)
    try:
        return watched(child)
    finally:
        signal.alarm(0)


def watched(child: int) -> Started:
    """Lets a child and its threads go on after each of their stops, until the child ends."""
    threads = 0
    known: Set[int] = set()
    while True:
        thread, status = os.waitpid(-1, ALL_THREADS)
        if os.WIFEXITED(status) or os.WIFSIGNALED(status):
            if thread == child:
                if not known:
                    raise NotTraced
                ended = os.WEXITSTATUS(status) if os.WIFEXITED(status) else -os.WTERMSIG(status)
                return Started(threads, ended)
            continue
        if not known:
            trace(SET_OPTIONS, thread, ON_CLONE | WITH_THE_TRACER)
        threads += status >> 16 == CLONE_EVENT
        sent = os.WSTOPSIG(status)
        is_own = sent == signal.SIGTRAP or (sent == signal.SIGSTOP and thread not in known)
        known.add(thread)
        trace(CONTINUE, thread, 0 if is_own else sent)
