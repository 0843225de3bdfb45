"""Rows of altered answers, and the cases by which checks tell them soon."""
from typing import Dict, Tuple

from gate.planted import calls
from gate.planted.planted import Altered
from gate.planted.special import FAR_LINE, RUNS, USUAL_WORKERS


def of_some(*names: str) -> Tuple[str, str]:
    """The words for these cases alone."""
    return "-k", " or ".join(names)


# Cases of checks that have all kinds of lines.
CASES: Dict[str, Tuple[str, ...]] = {
    "analyses": ("--cases", "1"),
    "conformance": of_some(
        "trace_up_to_the_limit",
        "trace_of_all_jobs",
        "change_with_records_held",
        "range_in_no_forlopp",
        "two_periods_at_one_count",
        "periods_that_restart",
    ),
    "examples": of_some(
        "three_ticks",
        "job_limit",
        "listing",
        "load_of_five",
        "broken_rule",
        "broken_signal_line",
        "usage_help",
        "usage_version",
        "merged_ticks",
        "merge_broken_table",
        "conflicts_of_two",
    ),
}


def plex(
    name: str, commands: str, told: str, check: str, alter: calls.Alter, *words: str
) -> Altered:
    some = words or CASES.get(check, ())
    return Altered(name, "plex", tuple(commands.split()), told, check, alter, some)


def merger(name: str, told: str, check: str, alter: calls.Alter, *words: str) -> Altered:
    return Altered(name, "plex-merge", (), told, check, alter, words or CASES.get(check, ()))


def conflicts(name: str, told: str, check: str, alter: calls.Alter, *words: str) -> Altered:
    return Altered(name, "plex-conflicts", (), told, check, alter, words or CASES.get(check, ()))


ALL_RUNS = " ".join(RUNS)
LISTED = "--cases", "20", "-k", "by_chance"
TOO_EARLY = f"is told one line too early from line {FAR_LINE} on"
OTHER_WORKERS = "two lines VAR change places with `--workers` that are none of " + ", ".join(
    USUAL_WORKERS
)
