"""What each run of `test_large_texts.py` took in the gate when its figure was made, and whether it
takes more now.

case_costs.txt has a line for each run: the seconds of the processor, by the pace of the machine of
the known figures, the megabytes, and the name; unproved_costs.txt has those of the program that is
not proved. A run is worse where it takes more than twice its seconds and `BESIDE`, by the pace that
this machine has then, and `FRESH` for each megabyte above `SMALL`, since a system that has to find
its pages first gives them slowly; or more than one and a half times its memory and a little; and
where it lasts `ASLEEP` longer than twice what its seconds of the processor last on this machine
then. One that is worse is made again, up to `TRIES` times in all, since others may use the machine
beside it: the least of all tries counts, beside the median of the measures of the machine.
`pytest-3 test_large_texts.py -k case_costs --write` makes the figures of a program anew.
"""
import pathlib
import time
from typing import Callable, Dict, Iterable, NamedTuple, Optional, Sequence

from measure import measured

GATE = pathlib.Path(__file__).resolve().parent
TIMES, BESIDE = 2.0, 0.05  # of a figure, and seconds
FRESH, SMALL = 0.004, 40.0  # seconds for a megabyte, and megabytes
MEMORY, MORE_MEMORY = 1.5, 8.0  # of a figure, and megabytes
LASTS, ASLEEP = 2.0, 0.5  # how much longer than its seconds a run may last, and seconds
TRIES, MANY, TURNS, MEGABYTE = 5, 8, 3, 1024 * 1024  # MANY: then nothing is made again
MOMENT = 5.0  # seconds for which a measure of the machine goes
HEAD = """# What each run of test_large_texts.py takes in the gate: seconds of the processor by the
# pace of the machine of the known figures, megabytes, and its name. A run fails where it has no
# figure or gets worse (costs.py). `pytest-3 test_large_texts.py -k case_costs --write` makes all
# anew, with {program}.
"""
PROVED, UNPROVED = "a proved program", "a program that is not proved"


class Figure(NamedTuple):
    """Seconds of the processor and megabytes of a run."""

    seconds: float
    megabytes: float


class Machine:
    """How much slower this machine is now than the one of the known figures."""

    def __init__(self) -> None:
        self.renew()

    def renew(self) -> None:
        self.measure, self.when = measured.paced(3), time.monotonic()

    def now(self) -> measured.Pace:
        if time.monotonic() - self.when > MOMENT:
            self.renew()
        return self.measure


class Try(NamedTuple):
    """What a run came to, and the pace of the machine then."""

    came: measured.Measure
    pace: measured.Pace


class Costs:
    """The figures of all runs. Where there are none to compare with, nothing is worse."""

    def __init__(self, figures: Optional[Dict[str, Figure]]) -> None:
        self.figures = figures

    def worse(self, name: str, tries: Sequence[Try]) -> Optional[str]:
        """What is worse than the figure of a run, or None, by all tries of it."""
        if self.figures is None or any(one.came.status is None for one in tries):
            return None
        figure = self.figures.get(name)
        if figure is None:
            return "it has no figure, which `-k case_costs --write` makes"
        most = (TIMES * figure.seconds + BESIDE) * usual([one.pace.machine for one in tries])
        most += FRESH * max(0.0, figure.megabytes - SMALL)
        if min(one.came.seconds for one in tries) > most:
            return f"over {most:.2f} s, beside a figure of {figure.seconds:.3f} s"
        megabytes = MEMORY * figure.megabytes + MORE_MEMORY
        if min(one.came.memory for one in tries) > megabytes * MEGABYTE:
            return f"over {megabytes:.0f} megabytes, beside a figure of {figure.megabytes:.0f}"
        least = min((one.came for one in tries), key=lambda came: came.passed)
        if least.passed > LASTS * least.seconds * max(one.pace.delay for one in tries) + ASLEEP:
            return f"it lasted {least.passed:.1f} s, of which it worked {least.seconds:.2f} s"
        return None

    def unknown(self, names: Iterable[str]) -> Iterable[str]:
        """The figures of runs that are not there."""
        return sorted(set(self.figures or ()) - set(names))

    def missing(self, names: Iterable[str]) -> Iterable[str]:
        """The runs that have no figure."""
        return sorted(set(names) - set(self.figures or ()))


def usual(paces: Sequence[float]) -> float:
    """The median of paces; of two in the middle, that of the faster machine."""
    return sorted(paces)[(len(paces) - 1) // 2]


def place(is_proved: bool) -> pathlib.Path:
    """The file of the figures of a program that is proved or is not."""
    return GATE / ("case_costs.txt" if is_proved else "unproved_costs.txt")


def known(is_proved: bool) -> Costs:
    """The figures of a program that is proved or is not."""
    figures: Dict[str, Figure] = {}
    for line in place(is_proved).read_text().splitlines():
        if line and not line.startswith("#"):
            seconds, megabytes, name = line.split(maxsplit=2)
            figures[name] = Figure(float(seconds), float(megabytes))
    return Costs(figures)


def write(figures: Dict[str, Figure], is_proved: bool) -> None:
    """Writes the figures of a program that is proved or is not."""
    lines = [
        f"{one.seconds:.3f} {one.megabytes:.0f} {name}\n" for name, one in sorted(figures.items())
    ]
    head = HEAD.format(program=PROVED if is_proved else UNPROVED)
    place(is_proved).write_text(head + "".join(lines))


def least(run: Callable[[], measured.Measure], tries: int) -> Figure:
    """The figure of a run: the least of so many, each by the pace of the machine then."""
    came = [(run(), measured.machine()) for _ in range(tries)]
    seconds = min(one.seconds / machine for one, machine in came)
    return Figure(seconds, min(one.memory for one, _ in came) / MEGABYTE)
