"""One call of a program whose answer is altered."""
import os
import re
import subprocess
import tempfile
from typing import Callable, List, NamedTuple, Sequence

Line = bytes
LONGEST = 600  # seconds of a call


class Answer(NamedTuple):
    """What a call came to."""

    status: int
    wrote: bytes
    complaint: bytes


class Call:
    """A call of a program: its words, and how it is made."""

    def __init__(self, program: str, words: Sequence[str]) -> None:
        self.program, self.words = program, list(words)

    def answer(self) -> Answer:
        """Runs the program. What it writes is taken by files, so that a limit or a full device of
        the caller is not met here.
        """
        with tempfile.TemporaryFile() as wrote, tempfile.TemporaryFile() as complaint:
            process = subprocess.Popen([self.program, *self.words], stdout=wrote, stderr=complaint)
            process.wait(LONGEST)
            wrote.seek(0)
            complaint.seek(0)
            return Answer(process.returncode, wrote.read(), complaint.read())

    def through(self) -> Answer:
        """Runs the program to the outputs of this process, so that what it writes takes no memory
        here.
        """
        words = [self.program, *self.words]
        _, status = os.waitpid(os.posix_spawn(self.program, words, os.environ), 0)
        return Answer(os.waitstatus_to_exitcode(status), b"", b"")

    def word_behind(self, option: str, other: str) -> str:
        """The word behind an option, or another one where that is not there."""
        found = [place for place, word in enumerate(self.words[:-1]) if word == option]
        return self.words[found[0] + 1] if found else other


Alter = Callable[[Answer, Call], Answer]


# what alterations are made of


def of_lines(change: Callable[[List[Line]], List[Line]]) -> Alter:
    """Alters the lines of what is written, each with its end."""

    def alter(answer: Answer, _: Call) -> Answer:
        return answer._replace(wrote=b"".join(change(answer.wrote.splitlines(keepends=True))))

    return alter


def without(pattern: bytes, which: slice = slice(None)) -> Alter:
    """Leaves out these of the lines that match."""

    def change(lines: List[Line]) -> List[Line]:
        found = [place for place, line in enumerate(lines) if re.search(pattern, line)]
        lost = set(found[which])
        return [line for place, line in enumerate(lines) if place not in lost]

    return of_lines(change)


def swapped(pattern: bytes) -> Alter:
    """The first two neighbours that match and differ change places."""

    def change(lines: List[Line]) -> List[Line]:
        for place in range(len(lines) - 1):
            one, other = lines[place : place + 2]
            if one != other and re.search(pattern, one) and re.search(pattern, other):
                lines[place : place + 2] = [other, one]
                break
        return lines

    return of_lines(change)


def replaced(pattern: bytes, by: bytes, count: int = 0) -> Alter:
    """What matches is replaced, so often or everywhere."""

    def alter(answer: Answer, _: Call) -> Answer:
        wrote = re.sub(pattern, by, answer.wrote, count=count, flags=re.M)
        return answer._replace(wrote=wrote)

    return alter


def counted(pattern: bytes, least: int = 0, count: int = 1) -> Alter:
    """One is added to the number that the first group of a match has, where it is at least so
    large: in the first match, or in so many, or in all where `count` is 0.
    """

    def more(found: "re.Match[bytes]") -> bytes:
        start, end = found.start(1) - found.start(), found.end(1) - found.start()
        number = int(found[1])
        number += number >= least
        return found[0][:start] + b"%d" % number + found[0][end:]

    def alter(answer: Answer, _: Call) -> Answer:
        return answer._replace(wrote=re.sub(pattern, more, answer.wrote, count, re.M))

    return alter


def complained(pattern: bytes, by: bytes) -> Alter:
    """What matches on the standard error is replaced."""

    def alter(answer: Answer, _: Call) -> Answer:
        return answer._replace(complaint=re.sub(pattern, by, answer.complaint))

    return alter


def status_becomes(was: Sequence[int], becomes: int) -> Alter:
    """One of these statuses becomes another one."""

    def alter(answer: Answer, _: Call) -> Answer:
        return answer._replace(status=becomes) if answer.status in was else answer

    return alter


def only_if(holds: Callable[[Answer, Call], bool], alter: Alter) -> Alter:
    """An alteration of some calls."""
    return lambda answer, call: alter(answer, call) if holds(answer, call) else answer


def has_words(*wanted: str) -> Callable[[Answer, Call], bool]:
    return lambda _, call: set(wanted) <= set(call.words)


# how it is given


def give(answer: Answer, call: Call, alter: Alter) -> None:
    """Writes an answer as the program does, and ends with its status. Where it cannot be written,
    the program itself is run to the same outputs, and its status alone is altered.
    """
    for stream, told in ((1, answer.wrote), (2, answer.complaint)):
        try:
            left = memoryview(told)
            while left:
                left = left[os.write(stream, left) :]
        except OSError:
            if stream == 1:
                answer = alter(call.through(), call)
                break
    end(answer.status)


def end(status: int) -> None:
    """Ends as the program did."""
    if status < 0:
        os.kill(os.getpid(), -status)
    os._exit(status)
