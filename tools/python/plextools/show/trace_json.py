"""A play of a load in the trace event format of Chrome, which Perfetto and speedscope open.

A statement is a microsecond, since the format knows no other time. Each worker is a thread, and
each job a complete event of it; a thread behind the workers has the times in which the next job
waited. A flow goes from a job to each one that it has sent, and an instant event marks a fault.
"""
from typing import Any, Dict, Iterator, List

from plextools import tables
from plextools.analysis.lines import Entry
from plextools.runs.play import Bar, Play, Wait
from plextools.show.page_data import reason_words

Event = Dict[str, Any]
PROCESS = 1
BEGINS, ENDS = (
    '{"displayTimeUnit":"ms","otherData":{"time":"a microsecond is a statement"},"traceEvents":[\n',
    "\n]}\n",
)


class Trace:
    """The events of a play that has kept its bars."""

    def __init__(self, entries: List[Entry], title: str, made: Play) -> None:
        self.entries, self.title, self.made = entries, title, made
        self.place = {job.number: number for number, job in enumerate(made.order, 1)}

    def parts(self) -> Iterator[str]:
        """The file in parts, an event on each line."""
        yield BEGINS
        comma = ""
        for event in self.events():
            yield comma + tables.as_json(event, is_short=True)
            comma = ",\n"
        yield ENDS

    def events(self) -> Iterator[Event]:
        yield named("process_name", 0, self.title)
        for worker in range(self.made.workers):
            yield from self.thread(worker + 1, f"worker {worker + 1}")
        waits = self.made.workers + 1
        yield from self.thread(waits, "the next job waits")
        for bar in self.made.bars:
            yield from self.job(bar)
        for wait in self.made.waits:
            yield self.wait(wait, waits)

    @staticmethod
    def thread(number: int, name: str) -> Iterator[Event]:
        yield named("thread_name", number, name)
        yield {**named("thread_sort_index", number, ""), "args": {"sort_index": number}}

    def job(self, bar: Bar) -> Iterator[Event]:
        """A job with its flows: the one that comes to it, and those that it begins."""
        job, thread = bar.job, bar.row + 1
        entry, place = self.entries[job.entry], self.place[job.number]
        told: Event = {"job": place, "forlopp": job.forlopp, "values": list(job.values)}
        if job.line is not None:
            told["line"] = job.line
        if job.sender is not None:
            told["sender"] = self.place[job.sender]
        if job.fault:
            told["fault"] = job.fault
            fault = event("i", f"fault {job.fault}", "fault", bar.end - 1, thread)
            yield {**fault, "s": "t", "args": {"job": place}}
        begun = event("X", entry.name, "job", bar.begin, thread)
        yield {**begun, "dur": bar.end - bar.begin, "args": told}
        if job.sender is not None:
            yield {**event("f", "sent", "sent", bar.begin, thread), "bp": "e", "id": place}
        for number in job.sent:
            if number in self.place:
                begins = event("s", "sent", "sent", bar.end - 1, thread)
                yield {**begins, "id": self.place[number]}

    def wait(self, wait: Wait, thread: int) -> Event:
        """A time in which a worker was free, and the next job waited."""
        told: Event = {"job": self.place.get(wait.job.number)} if wait.job else {}
        made = event("X", reason_words(wait.reason), "wait", wait.begin, thread)
        return {**made, "dur": wait.end - wait.begin, "args": told}


def event(phase: str, name: str, category: str, time: int, thread: int) -> Event:
    return {
        "ph": phase,
        "name": name,
        "cat": category,
        "ts": time,
        "pid": PROCESS,
        "tid": thread,
    }


def named(what: str, thread: int, name: str) -> Event:
    """The name of a process or a thread."""
    return {"ph": "M", "name": what, "pid": PROCESS, "tid": thread, "ts": 0, "args": {"name": name}}
