"""Runs with a table, traces, and runs that change to another exchange, told a second time, slowly
and by hand.

`timed`, `trace` and `change` give what the program's commands of these names write, in bytes, and
the exit status. They follow docs/MACHINE.md and docs/FORMATS.md and share nothing with the program:
the single run is that of oracle.machine, turn by turn. All texts must break no rule. Where the jobs
count more statements than their patience, TooLong of oracle.machine is raised.
"""
from __future__ import annotations

from typing import Any, Iterable, Iterator, Optional, Sequence

from gate.oracle import machine as oracle_machine
from gate.oracle.analysis import Node
from plextools.limits import MOST_RESTARTS

STATUS = {"DONE": 0, "RESTART": 4, "LIMIT": 5}


class Machine(oracle_machine.Machine):
    """The single run, turn by turn."""

    def ending(self) -> Optional[str]:
        """How the run is over, or None."""
        if self.restarts == MOST_RESTARTS:
            return "RESTART"
        if self.nobody_waits():
            return "DONE"
        return "LIMIT" if self.ended == self.limit else None

    def turn(self) -> None:
        enter, values, forlopp = next(jobs for jobs in self.waiting.values() if jobs).pop(0)
        job = self.job_of(self, enter, values, forlopp, list(self.chains.get(forlopp, [])))
        fault = job.run()
        self.retire(job, fault)
        self.note(enter, values, job, fault)
        if self.restarts < MOST_RESTARTS:
            self.arrive()

    def note(self, enter: Node, values: Sequence[int], job: Any, fault: Optional[str]) -> None:
        """A job has retired: it started at this entry with these values."""

    def run(self) -> str:
        """The ending."""
        self.arrive()
        while True:
            ending = self.ending()
            if ending:
                return ending
            self.turn()

    def answer(self) -> tuple[bytes, int]:
        """The report and the status."""
        ending = self.run()
        return self.report(ending), STATUS[ending]


def words_in(text: bytes) -> Iterator[list[str]]:
    """The words of each line that is not skipped."""
    for line in text.split(b"\n"):
        words = line.decode().split()
        if words and not line.startswith(b"!"):
            yield words


# a table of periodic signals


def periods(exchange: oracle_machine.Exchange, text: bytes) -> Iterator[oracle_machine.Line]:
    """The lines that the periods of a table mean, period by period."""
    for words in words_in(text):
        every, first, times = (int(words[place]) for place in (1, 3, 5))
        for time in range(times):
            yield oracle_machine.Line(
                exchange, None, ["AFTER", str(first + time * every), *words[6:]]
            )


def merged(
    lines: Iterable[oracle_machine.Line], more: Iterable[oracle_machine.Line]
) -> list[oracle_machine.Line]:
    """The lines of a signal file and those of periods, by their counts, and numbered anew."""
    found = sorted([*lines, *more], key=lambda line: line.count)
    places = {line.number: place for place, line in enumerate(found, 1) if line.number}
    for place, line in enumerate(found, 1):
        line.number, line.same = place, line.same and places[line.same]
    return found


def timed(
    exchange_text: bytes,
    signal_text: bytes,
    table_text: bytes,
    limit: int = 1000000,
    patience: int = 10**9,
) -> tuple[bytes, int]:
    machine = Machine(exchange_text, signal_text, limit, patience)
    lines = merged(machine.lines, periods(machine.exchange, table_text))
    machine.lines = oracle_machine.Queue(lines)
    return machine.answer()


# the jobs that a filter shows


class Show:
    """A line of a filter."""

    def __init__(self, words: Sequence[str]) -> None:
        self.faults, self.parts = words[-1] == "FAULTS" and len(words) % 2 == 0, dict(
            zip(words[1::2], words[2::2])
        )

    def shows(
        self, number: int, signal: str, block: str, forlopp: int, fault: Optional[str]
    ) -> bool:
        parts = self.parts
        return (
            parts.get("BLOCK", block) == block
            and parts.get("SIGNAL", signal) == signal
            and int(parts.get("FORLOPP", forlopp)) == forlopp
            and int(parts.get("FROM", 0)) <= number
            and number <= int(parts.get("UPTO", number))
            and (fault is not None or not self.faults)
        )


class Traced(Machine):
    """A run that tells of the jobs that a filter shows."""

    def __init__(self, filter_text: bytes, *texts: Any) -> None:
        super().__init__(*texts)
        self.filter = [Show(words) for words in words_in(filter_text)]
        self.told: list[str] = []

    def line(self, *parts: object) -> None:
        self.told.append(" ".join(str(part) for part in parts) + "\n")

    def note(self, enter: Node, values: Sequence[int], job: Any, fault: Optional[str]) -> None:
        number, signal = self.ended, self.exchange.signal_of(enter).name
        block, forlopp = self.exchange.blocks[enter.block].name.text, f"F{job.forlopp}"
        if not any(one.shows(number, signal, block, job.forlopp, fault) for one in self.filter):
            return
        self.line("JOB", number, signal, block, *values, forlopp, fault or "ENDED")
        for sent, to, given, fresh in job.outbox:
            place = self.exchange.blocks[to.block].name.text if to else "OUTSIDE"
            self.line("SEND", number, sent.name, place, *given, "NEW" if fresh else forlopp)


def trace(
    exchange_text: bytes,
    signal_text: bytes,
    filter_text: bytes,
    limit: int = 1000000,
    patience: int = 10**9,
) -> tuple[bytes, int]:
    machine = Traced(filter_text, exchange_text, signal_text, limit, patience)
    report, status = machine.answer()
    return "".join(machine.told).encode() + report, status


# another exchange


class Names:
    """What an exchange has, by names."""

    def __init__(self, exchange: oracle_machine.Exchange) -> None:
        self.exchange = exchange
        self.blocks = [block.name.text for block in exchange.blocks]
        self.files = {
            (self.blocks[block], decl.name.text): file
            for file, (block, decl) in enumerate(exchange.files)
        }
        self.file_names = {file: name for name, file in self.files.items()}
        self.enters = {
            (self.blocks[node.block], node.signal.text): node for node in exchange.enter_at.values()
        }

    def entries(self) -> Iterator[tuple[tuple[str, str], tuple[str, int]]]:
        """Each entry: its block and signal, and what must agree in another exchange."""
        for node in self.exchange.entries:
            signal = self.exchange.signal_of(node)
            yield (self.blocks[node.block], signal.name), (signal.level, signal.count)

    def forlopp_files(self) -> Iterator[tuple[tuple[str, str], int]]:
        """Each FORLOPP FILE, and its size."""
        for file, (_, decl) in enumerate(self.exchange.files):
            if decl.forlopp:
                yield self.file_names[file], int(decl.size.text)


def lacking(old: Names, new: Names) -> Optional[str]:
    """The line that tells what the new exchange has not, or None."""
    entries, files = dict(new.entries()), dict(new.forlopp_files())
    for (block, signal), wanted in old.entries():
        if entries.get((block, signal)) != wanted:
            return f"CHANGE ENTRY {signal} {block}\n"
    for (block, file), size in old.forlopp_files():
        if files.get((block, file), 0) < size:
            return f"CHANGE FILE {block}.{file}\n"
    return None


def carry_data(old: Names, new: Names, before: Machine, after: Machine) -> None:
    """Variables and fields keep their values where they have the same names, and the values fit."""
    for (block, name), width in after.store.widths.items():
        place = new.blocks[block]
        value = (
            before.store.variables.get((old.blocks.index(place), name))
            if place in old.blocks
            else None
        )
        if value is not None and value < 2**width:
            after.store.variables[block, name] = value
    for name, file in new.files.items():
        if name not in old.files:
            continue
        fields = [field.name.text for field in before.exchange.files[old.files[name]][1].fields]
        for place, field in enumerate(after.exchange.files[file][1].fields):
            if field.name.text in fields:
                there = fields.index(field.name.text)
                for record, kept in zip(
                    after.store.records[file], before.store.records[old.files[name]]
                ):
                    if kept[there] < 2 ** int(field.width.text):
                        record[place] = kept[there]


def carry_jobs(old: Names, new: Names, before: Machine, after: Machine) -> None:
    """The jobs that wait, the lines and the chains go over by names; numbers and counts stay."""

    def other(enter: Node) -> Node:
        return new.enters[old.blocks[enter.block], enter.signal.text]

    for level, jobs in before.waiting.items():
        after.waiting[level] = oracle_machine.Queue(
            (other(enter), values, forlopp) for enter, values, forlopp in jobs
        )
    for line in before.lines:
        line.entry = other(line.entry)
    for forlopp, chain in before.chains.items():
        after.chains[forlopp] = [
            (new.files[old.file_names[file]], record) for file, record in chain
        ]
        for file, record in after.chains[forlopp]:
            after.store.marks[file][record] = 1
    for name in ("lines", "dead", "given", "drawn", "ended", "restarts", "counted"):
        setattr(after, name, getattr(before, name))


def change(
    exchange_text: bytes,
    signal_text: bytes,
    other_text: bytes,
    count: int,
    limit: int = 1000000,
    patience: int = 10**9,
) -> tuple[bytes, int]:
    before = Machine(exchange_text, signal_text, limit, patience)
    after = Machine(other_text, b"", limit, patience)
    old, new = Names(before.exchange), Names(after.exchange)
    missing = lacking(old, new)
    if missing:
        return missing.encode(), 12
    before.arrive()
    while before.ended < count and not before.ending():
        before.turn()
    ending = before.ending()
    if ending and (before.ended < count or ending == "RESTART"):
        return before.report(ending), STATUS[ending]
    carry_data(old, new, before, after)
    carry_jobs(old, new, before, after)
    report, status = after.answer()
    events = "".join(f"{line}\n" for line in [*before.events, f"CHANGE job {count}"])
    return events.encode() + report, status
