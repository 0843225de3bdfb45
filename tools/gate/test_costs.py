"""What costs.py takes for worse than the figure of a run, on fast, slow and busy machines."""
from __future__ import annotations

import pytest

from gate import costs
from measure.measured import Measure, Pace

NAME, FIGURE = "certify, of a text", costs.Figure(0.09, 40)
KNOWN = costs.Costs({NAME: FIGURE})
FAST, USUAL, SLOW = Pace(0.5, 1.0), Pace(1.0, 1.0), Pace(4.0, 1.0)
BUSY = Pace(2.0, 8.0)  # others use the same processor
PACES = pytest.mark.parametrize("pace", [FAST, USUAL, SLOW, BUSY])


def made(pace: Pace, times: float = 1, asleep: float = 0, memory: float = 1) -> costs.Try:
    """A run that takes so many times its figure, and sleeps for some seconds."""
    seconds = times * FIGURE.seconds * pace.machine
    bytes_taken = int(memory * FIGURE.megabytes * costs.MEGABYTE)
    return costs.Try(Measure(0, seconds, bytes_taken, seconds * pace.delay + asleep), pace)


@PACES
def test_as_its_figure(pace: Pace) -> None:
    assert KNOWN.worse(NAME, [made(pace)]) is None
    assert KNOWN.worse(NAME, [made(pace, times=2, memory=1.5)]) is None


@PACES
def test_three_times(pace: Pace) -> None:
    """Three times the figure is told, whatever the pace of the machine, by one try and by all."""
    tries = [made(pace, times=3) for _ in range(costs.TRIES)]
    for number in range(1, costs.TRIES + 1):
        assert "over" in str(KNOWN.worse(NAME, tries[:number]))


@pytest.mark.parametrize("pace", [FAST, USUAL, SLOW])
def test_asleep(pace: Pace) -> None:
    """A second of sleep is told, where nobody else uses the machine."""
    assert "it lasted" in str(KNOWN.worse(NAME, [made(pace, asleep=1)]))


@PACES
def test_memory(pace: Pace) -> None:
    assert "megabytes" in str(KNOWN.worse(NAME, [made(pace, memory=2)]))


def test_least_of_the_tries() -> None:
    """One try beside which others use the machine is no fault; a measure of the machine that is too
    large for a moment hides none.
    """
    assert KNOWN.worse(NAME, [made(USUAL, times=3), made(USUAL)]) is None
    assert KNOWN.worse(NAME, [made(USUAL, asleep=1), made(USUAL)]) is None
    late = made(USUAL, times=3)._replace(pace=SLOW)
    assert KNOWN.worse(NAME, [made(USUAL, times=3), late])


def test_no_figure() -> None:
    """A run without a figure is told, but for where there are no figures at all."""
    assert "no figure" in str(KNOWN.worse("another", [made(USUAL)]))
    assert costs.Costs(None).worse(NAME, [made(USUAL, times=9)]) is None


def test_names() -> None:
    """Figures and runs that are not of one another are found."""
    assert (KNOWN.unknown([]), KNOWN.unknown([NAME])) == ([NAME], [])
    assert (KNOWN.missing(["another", NAME]), KNOWN.missing([NAME])) == (["another"], [])
