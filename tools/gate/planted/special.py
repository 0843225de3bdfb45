"""Alterations of answers of one command alone, and when a call is altered."""
import pathlib
import re
import tempfile
from typing import Callable, List

from gate.planted.calls import Answer, Call

RUNS = ("run", "single", "timed", "change", "trace")
REFUSALS = (2, 3, 9, 11, 12, 13)
USUAL_WORKERS = ("1", "2", "4", "8", "64")
WIDE, FAR_LINE, FAR_CALLS, FAR_JOB = 32, 100, 16, 1000


def has_status(*wanted: int) -> Callable[[Answer, Call], bool]:
    return lambda answer, _: answer.status in wanted


def has_other_workers(_: Answer, call: Call) -> bool:
    """Whether a number of workers is named that is none of the usual ones."""
    return call.word_behind("--workers", "4").lstrip("0") not in USUAL_WORKERS


def is_line(word: bytes) -> Callable[[Answer, Call], bool]:
    """Whether a line that begins so is written."""
    return lambda answer, _: re.search(rb"^" + word, answer.wrote, re.M) is not None


def without_far_pairs(lines: List[bytes]) -> List[bytes]:
    """Leaves out the pairs of entries from the bound on."""
    found = [re.match(rb"PAIR (\d+) (\d+) ", line) for line in lines]
    return [
        line
        for line, pair in zip(lines, found)
        if not pair or max(int(pair[1]), int(pair[2])) < WIDE
    ]


def without_far_jobs(lines: List[bytes]) -> List[bytes]:
    """Leaves out the jobs of a trace above the bound, with what they sent."""
    found = [re.match(rb"(?:JOB|SEND) (\d+) ", line) for line in lines]
    return [line for line, job in zip(lines, found) if not job or int(job[1]) <= FAR_JOB]


def one_line_early(answer: Answer, _: Call) -> Answer:
    """A fault of a far line is told one line too early, on both outputs."""

    def early(found: "re.Match[bytes]") -> bytes:
        number = int(found[2])
        return found[1] + b"%d" % (number - (number >= FAR_LINE)) + found[3]

    return answer._replace(
        wrote=re.sub(rb"^([A-Z]+ line )(\d+)( )", early, answer.wrote),
        complaint=re.sub(rb"^(\S+:)(\d+)(: [A-Z]+: )", early, answer.complaint),
    )


def always_refuses(_: Answer, call: Call) -> Answer:
    name = call.words[1].encode()
    told = b"%s:1: UNEXPECTED: a token that does not fit there\n" % name
    told += b"plex-check %s tells all faults, with columns\n" % name
    return Answer(2, b"SOURCE line 1 UNEXPECTED\n", told)


def takes_any_certificate(answer: Answer, call: Call) -> Answer:
    """A certificate that is refused is taken."""
    if answer.status != 9:
        return answer
    place = call.words.index("--cert")
    return Call(call.program, call.words[:place] + call.words[place + 2 :]).answer()


def one_job_more(answer: Answer, call: Call) -> Answer:
    """The bound of jobs is one higher."""
    if answer.status != 5 or "--jobs" not in call.words:
        return answer
    place = call.words.index("--jobs") + 1
    words = list(call.words)
    words[place] = str(min(10_000_000, int(words[place]) + 1))
    return Call(call.program, words).answer()


def changed_later(_: Answer, call: Call) -> Answer:
    """A change comes one job later."""
    words = list(call.words)
    if len(words) > 4 and words[4].isdigit():
        words[4] = str(int(words[4]) + 1)
    return Call(call.program, words).answer()


def all_jobs_shown(answer: Answer, call: Call) -> Answer:
    """The words of a filter are not heeded, but for SHOW."""
    if answer.status not in (0, 4, 5):
        return answer
    with open(call.words[3], "rb") as file, tempfile.NamedTemporaryFile() as other:
        other.write(re.sub(rb"^SHOW .*$", b"SHOW", file.read(), flags=re.M))
        other.flush()
        return Call(call.program, [*call.words[:3], other.name, *call.words[4:]]).answer()


def of_all_pairs(_: Answer, call: Call) -> Answer:
    """The numbers of a pair are not heeded."""
    return Call(call.program, call.words[:1]).answer()


def with_narrow_variables(answer: Answer, call: Call) -> Answer:
    """Entry 0 only adds to the first variable of 16 bits of its block, whatever it does."""
    text = pathlib.Path(call.words[0]).read_bytes()
    found = re.search(rb"BLOCK (\w+);\s+DECLARE;[^B]*?VARIABLE (\w+) WIDTH 16\b", text)
    line = b"ADDS 0 VAR %s.%s\n" % found.groups() if found else b""
    head = b"\nADDITIONS 1\n"
    return answer._replace(wrote=answer.wrote.replace(head, head + line))


def with_one_side(answer: Answer, _: Call) -> Answer:
    """The first pair that is apart by a variable to which one entry alone adds always passes."""
    adds = {*re.findall(rb"^ADDS (\d+) VAR (\S+)$", answer.wrote, re.M)}
    for i, j, name in re.findall(rb"^PAIR (\d+) (\d+) NEVER VARIABLE (\S+)$", answer.wrote, re.M):
        if ((i, name) in adds) != ((j, name) in adds):
            line = b"PAIR %s %s ADDING ALWAYS\n" % (i, j)
            return answer._replace(
                wrote=re.sub(rb"^END ADDITIONS$", line + rb"\g<0>", answer.wrote, flags=re.M)
            )
    return answer


def re_counted(answer: Answer, pattern: bytes, more: int) -> Answer:
    """A number, which the first group of a pattern has, is otherwise."""
    found = re.search(pattern, answer.wrote, re.M)
    if not found:
        return answer
    number = b"%d" % max(0, int(found[1]) + more)
    return answer._replace(
        wrote=answer.wrote[: found.start(1)] + number + answer.wrote[found.end(1) :]
    )
