"""Stands for a program whose calls cost more and write the same:
`costly.py WHAT NUMBER PROGRAM WORD ...`

What it takes itself counts as what the program takes: so it imports little.
"""
import os
import sys
import time

NOTHING, SLOWER, ASLEEP, LARGER = "nothing", "slower", "asleep", "larger"
TO_NOBODY = [(os.POSIX_SPAWN_OPEN, stream, os.devnull, os.O_WRONLY, 0) for stream in (1, 2)]


def called(words: list[str], is_heard: bool = True) -> tuple[int, int]:
    """The status of a call, and the bytes of memory that it has taken."""
    actions = [] if is_heard else TO_NOBODY
    process = os.posix_spawn(words[0], words, os.environ, file_actions=actions)
    _, status, used = os.wait4(process, 0)
    return os.waitstatus_to_exitcode(status), used.ru_maxrss * 1024


def cost(what: str, number: int, words: list[str], memory: int) -> None:
    """Makes the call so many times, sleeps so many seconds, or takes so many times its memory."""
    if what == SLOWER:
        for _ in range(number - 1):
            called(words, is_heard=False)
    elif what == ASLEEP:
        time.sleep(number)
    elif what == LARGER:
        bytearray(b"x") * (number * memory)


def main() -> None:
    what, number, *words = sys.argv[1:]
    status, memory = called(words)
    cost(what, int(number), words, memory)
    if status < 0:
        os.kill(os.getpid(), -status)
    os._exit(status)


if __name__ == "__main__":
    main()
