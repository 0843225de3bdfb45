"""plex-load [--json] [--precision | --diff] [OPTION ..] E S [E2 [S2]] [--workers N ..]

Reports the speed-up of N workers for the load of the exchange text E and the signal file S, and
what prevents more. It executes the load statement by statement, and simulates how plex hands its
jobs to workers, with time in statements. Without --workers it does so for 1, 2, 4, 8, 16 and 64,
and reports what jobs waited for with 4; else for each given N from 1 to 64, and what they waited
for with the last. --jobs N ends the run after N jobs, and --skip N leaves the first N jobs out of
the figures. --dense ignores the counts of the signal file. --json writes all figures for programs.
--trace-json writes the jobs of the workers of the last N, 4 without --workers, to the file F, in
the trace event format of Chrome, which Perfetto and speedscope open.
--precision reports which pairs of neighbouring jobs commute, how many of these the verdicts allow,
and why they do not allow the others. --diff compares the figures with those of E2 with S2, or with
S if there is no S2.
--cost-job N, --cost-send N and --cost-sync N are the costs of handing over a job, of a signal and
of a synchronised access on another machine: in statements, or in ns if --statement NS gives the ns
of a statement. --machines F reads several machines from the file F.
"""
import argparse
import gc
import os
from typing import List, Optional, Sequence

from plextools import limits, programs, progress, tables
from plextools.analysis import why
from plextools.commands import outputs
from plextools.commands.command_words import described
from plextools.runs import jobs, load_changes, machine_costs, play, precision, report
from plextools.show.trace_json import Trace

USUAL, CHOSEN = (1, 2, 4, 8, 16, 64), 4
OWN = "your machine"


def figures(
    exchange: why.Exchange, load: jobs.Load, counts: Sequence[int], chosen: int
) -> report.Figures:
    """The figures of the load; on a terminal a line tells how far they are."""
    line = progress.Line()

    def tell(workers: int, ended: int) -> None:
        plural = "s" if workers > 1 else ""
        line.draw(f"{ended} of {len(load.ran)} jobs are played with {workers} worker{plural}")

    try:
        return report.figures(exchange, load, counts, chosen, tell)
    finally:
        line.erase()


def write_trace(name: str, exchange: why.Exchange, load: jobs.Load, workers: int) -> None:
    """Writes the jobs of so many workers in the trace event format."""
    made = play.play(load, play.Rules(exchange.conflicts), workers, keep_bars=True)
    title = tables.quoted(os.path.basename(exchange.text.name))
    outputs.write(name, Trace(exchange.analysis.entries, title, made).parts())


def precise(exchange: why.Exchange, load: jobs.Load) -> precision.Figures:
    """The precision of the verdicts; on a terminal a line tells how far it is."""
    if load.is_traced:
        raise programs.Wrong(
            "the load has too many statements for --precision; --jobs ends it earlier"
        )
    line = progress.Line()
    try:
        return precision.precision(
            exchange,
            load,
            lambda place: line.draw(f"{place} of {len(load.ran)} jobs are looked at"),
        )
    finally:
        line.erase()


def machines(given: argparse.Namespace) -> List[machine_costs.Costs]:
    """The machines of which costs are given."""
    found = machine_costs.machines_of(given.machines) if given.machines else []
    words: List[Optional[str]] = [given.cost_job, given.cost_send, given.cost_sync]
    if any(word is not None for word in words):
        costs = [machine_costs.cost_of(word or "0") for word in words]
        statement = machine_costs.cost_of(given.statement) if given.statement else None
        found.insert(0, machine_costs.in_statements(OWN, costs, statement))
    elif given.statement:
        raise programs.Wrong("--statement goes with --cost-job, --cost-send or --cost-sync")
    return found


def words_of() -> programs.Words:
    words = programs.Words(__doc__)
    most_jobs, most_workers = limits.MOST_JOBS, limits.MOST_WORKERS
    words.add_argument("--json", action="store_true")
    words.add_argument("--precision", action="store_true")
    words.add_argument("--diff", action="store_true")
    words.add_argument("--dense", action="store_true")
    words.add_argument("--jobs", type=programs.number_to(most_jobs), default=limits.USUAL_JOBS)
    words.add_argument("--skip", type=programs.number_to(most_jobs), default=0)
    for option in ("--cost-job", "--cost-send", "--cost-sync", "--statement", "--machines"):
        words.add_argument(option)
    words.add_argument("--trace-json")
    words.add_argument("--workers", type=programs.number_to(most_workers), nargs="+")
    words.add_argument("exchange")
    words.add_argument("signals")
    words.add_argument("after", nargs="*", default=[])
    return described(words)


def read(words: programs.Words) -> argparse.Namespace:
    """The words, which must fit one another."""
    given = words.parse_args()
    if given.diff and len(given.after) not in (1, 2):
        words.error("--diff takes E S E2 [S2]")
    if given.after and not given.diff:
        words.error(f"unrecognized arguments: {' '.join(given.after)}")
    costs = (given.cost_job, given.cost_send, given.cost_sync, given.statement, given.machines)
    if sum([given.diff, given.precision, any(cost is not None for cost in costs)]) > 1:
        words.error("--diff, --precision and the costs of a machine do not go together")
    return given


def load_of(given: argparse.Namespace, exchange: why.Exchange, signals: str) -> jobs.Load:
    load = jobs.jobs_of(exchange, signals, given.jobs, touches=not given.precision)
    load.skip(given.skip)
    load.is_dense = given.dense
    return load


def main() -> int:
    """Runs the command."""
    given = read(words_of())
    counts, chosen = (given.workers, given.workers[-1]) if given.workers else (USUAL, CHOSEN)
    if given.trace_json:
        outputs.refuse_inputs(given.trace_json, [given.exchange, given.signals, *given.after])
    # What is made of a load is kept to the end, so that looking for what could go costs time alone.
    gc.disable()
    priced = machines(given)
    exchange = why.Exchange(given.exchange, keeps_facts=given.precision)
    load = load_of(given, exchange, given.signals)
    if given.trace_json:
        write_trace(given.trace_json, exchange, load, chosen)
    told: object
    if given.precision:
        told = pairs = precise(exchange, load)
        lines = precision.text_of(pairs)
    elif given.diff:
        after = why.Exchange(given.after[0])
        later = load_of(given, after, given.after[1] if given.after[1:] else given.signals)
        told = both = load_changes.changes(
            load_changes.Side(exchange, figures(exchange, load, counts, chosen)),
            load_changes.Side(after, figures(after, later, counts, chosen)),
        )
        lines = load_changes.text_of(both)
    elif priced:
        machine = machine_costs.Machines(exchange, load)
        told = rows = [machine.figures(costs, counts) for costs in priced]
        lines = machine_costs.text_of(rows)
    else:
        told = one = figures(exchange, load, counts, chosen)
        lines = report.text_of(exchange, one)
    for line in [tables.as_json(told)] if given.json else lines:
        print(line)
    return 0
