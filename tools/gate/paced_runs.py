"""How many jobs a program does in some seconds, whatever the pace of program and machine. For
`test_progress_line.py`.
"""
import pathlib
import subprocess
from typing import Sequence, Union

from gate import harness

JOBS = 50_000  # of the run that is timed
SHORTEST, LONGEST = 0.001, 600  # seconds


def jobs_in(
    seconds: float,
    words: Sequence[Union[str, pathlib.Path]],
    folder: pathlib.Path,
    least: int,
    most: int,
) -> int:
    """About so many jobs does a run of these words in so many seconds, within bounds."""
    begun = harness.processor()
    subprocess.run(
        [*words, "--jobs", str(JOBS)],
        cwd=folder,
        stdin=subprocess.DEVNULL,
        stdout=subprocess.DEVNULL,
        stderr=subprocess.DEVNULL,
        timeout=LONGEST,
        check=False,
    )
    taken = max(SHORTEST, harness.processor() - begun)
    return max(least, min(most, int(JOBS * seconds / taken)))
