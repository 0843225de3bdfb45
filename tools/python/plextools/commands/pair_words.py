"""What pairs_dot and pairs_table share: the analysis that they read, and how they write."""
import pathlib
import sys
from typing import Iterable, Optional

from plextools.analysis.lines import Analysis, NoAnalysis, read
from plextools.programs import Wrong

FAILED = 1


def analysis_in(name: Optional[str]) -> Analysis:
    """The analysis in a file, or on the standard input without a name."""
    try:
        data = pathlib.Path(name).read_bytes() if name else sys.stdin.buffer.read()
        lines = data.split(b"\n")
        return read(lines[:-1] if lines[-1] == b"" else lines)
    except (OSError, ValueError, NoAnalysis) as wrong:
        raise Wrong(str(wrong), FAILED) from wrong


def write(lines: Iterable[str]) -> int:
    """Writes the lines to the standard output."""
    for line in lines:
        print(line)
    return 0
