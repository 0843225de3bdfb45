"""plex-chart [OPTION ...] E S

Draws a sequence chart of the run of the exchange text E and the signal file S: a line for each
block, an arrow for each signal, with faults, releases and restarts. It writes text for a terminal,
or a picture. Without a selection it draws the first 100 jobs.

--forlopp, --block and --signal can be repeated: a job is selected if it matches one of each kind.
"""
import argparse
import os
import re
import shutil
import subprocess
import sys
from enum import Enum
from typing import Callable, Iterable, Iterator, List, NamedTuple, Optional, Tuple

from plextools import limits, programs, progress, tables
from plextools.commands import outputs
from plextools.commands.command_words import described
from plextools.runs import check, choice
from plextools.runs.observed import Among, Observed
from plextools.runs.signals import lines_of
from plextools.show import chart, chart_svg, chart_text, chart_words
from plextools.text.statements import Text

USUAL_MOST, LARGEST_MOST, USUAL_CONTEXT = 100, 10_000, 10
AHEAD = 1000  # so many jobs behind the last one, a signal is followed to the job that it starts
USUAL_WIDTH, WIDTHS = 80, (20, 10_000)
HIGHEST = 32_767  # pixels of a PNG
BETWEEN = 2000
LONGEST = 300
RANGE = re.compile(r"(\d{1,8})?(-)?(\d{1,8})?")
DRAWER = "rsvg-convert"


class Form(Enum):
    """In which form a chart is written."""

    TEXT = "text"
    ASCII = "ascii"
    SVG = "svg"
    PNG = "png"
    MERMAID = "mermaid"
    MSC = "msc"


ENDINGS = {
    ".svg": Form.SVG,
    ".png": Form.PNG,
    ".mmd": Form.MERMAID,
    ".mermaid": Form.MERMAID,
    ".msc": Form.MSC,
}


class Range(NamedTuple):
    """The jobs from a number to another one, or to the last."""

    first: int
    last: Optional[int]


def range_of(word: str) -> Range:
    """Reads a range of jobs."""
    found = RANGE.fullmatch(word)
    if not (word.isascii() and found and (found[1] or found[3])):
        raise argparse.ArgumentTypeError(f"{word!r} is no range of jobs, as 10-40")
    first = int(found[1] or 1)
    last = int(found[3]) if found[3] else None if found[2] else first
    if first < 1 or last is not None and last < first:
        raise argparse.ArgumentTypeError(f"{word!r} is no range of jobs from 1 on")
    return Range(first, last)


def forlopp_of(word: str) -> int:
    """Reads a forlopp with or without its F."""
    digits = word[1:] if word[:1] in ("F", "f") else word
    if not (digits.isascii() and digits.isdigit() and len(digits) <= limits.MOST_DIGITS):
        raise argparse.ArgumentTypeError(f"{word!r} is no forlopp, as F5")
    return min(int(digits), limits.LARGEST_NUMBER)


def around_of(word: str) -> str:
    """Reads a fault or the number of a job."""
    if word.upper() in (choice.ANY, *choice.FAULTS):
        return word.upper()
    if word.isascii() and word.isdigit() and 1 <= int(word) <= limits.MOST_JOBS:
        return str(int(word))
    faults = f"{choice.ANY}, {', '.join(choice.FAULTS)}"
    raise argparse.ArgumentTypeError(f"{word!r} is no fault and no job: faults are {faults}")


def number_in(least: int, most: int) -> Callable[[str], int]:
    """Reads a number within bounds."""

    def number(word: str) -> int:
        if not (word.isascii() and word.isdigit() and least <= int(word) <= most):
            raise argparse.ArgumentTypeError(f"{word!r} is no number from {least} to {most}")
        return int(word)

    return number


class Given(argparse.Namespace):
    """The words of the command."""

    exchange: str
    signals: str
    jobs: Range
    forlopp: List[int]
    block: List[str]
    signal: List[str]
    around: Optional[str]
    context: int
    most: int
    limit: int
    values: bool
    lines: bool
    form: Optional[Form]
    file: Optional[str]
    width: Optional[int]
    color: str

    @property
    def wishes(self) -> choice.Wishes:
        return choice.Wishes(
            *self.jobs,
            self.forlopp,
            self.block,
            self.signal,
            self.around,
            self.context,
            self.most,
        )


def parser() -> programs.Words:
    """Reads the words of the command."""
    words = programs.Words(__doc__)
    words.add_argument("exchange", metavar="E")
    words.add_argument("signals", metavar="S")
    words.add_argument("--jobs", type=range_of, default=Range(1, None))
    words.add_argument("--forlopp", type=forlopp_of, action="append", default=[])
    words.add_argument("--block", action="append", default=[])
    words.add_argument("--signal", action="append", default=[])
    words.add_argument("--around", type=around_of)
    words.add_argument("--context", type=number_in(0, LARGEST_MOST), default=USUAL_CONTEXT)
    words.add_argument("--most", type=programs.number_to(LARGEST_MOST), default=USUAL_MOST)
    words.add_argument(
        "--limit", type=programs.number_to(limits.MOST_JOBS), default=limits.USUAL_JOBS
    )
    words.add_argument("--values", action="store_true")
    words.add_argument("--lines", action="store_true")
    forms = words.add_mutually_exclusive_group()
    for form in (Form.ASCII, Form.SVG, Form.MERMAID, Form.MSC):
        forms.add_argument(f"--{form.value}", dest="form", action="store_const", const=form)
    words.add_argument("-o", dest="file")
    words.add_argument("--width", type=number_in(*WIDTHS))
    words.add_argument("--color", choices=("auto", "always", "never"), default="auto")
    return described(words)


def form_of(given: Given) -> Form:
    """The form that the words or the name of the file tell."""
    by_name = ENDINGS.get(os.path.splitext(given.file)[1].lower()) if given.file else None
    if given.form and by_name and by_name is not given.form:
        file = tables.quoted(given.file or "")
        told = f"{file} is to be {by_name.value.upper()}, and --{given.form.value} writes"
        raise programs.Wrong(f"{told} another form: leave one of them out")
    if by_name is Form.PNG and not shutil.which(DRAWER):
        raise programs.Wrong(f"{DRAWER} draws PNG, and is not there; -o FILE.svg writes SVG")
    return given.form or by_name or Form.TEXT


def run_of(given: Given) -> choice.Run:
    """The run, whose files plex accepts."""
    content, signals = programs.bytes_of(given.exchange), programs.bytes_of(given.signals)
    words = ["run", given.exchange, given.signals, "--workers", "1", "--jobs", "1"]
    programs.answer(words, programs.ENDINGS)
    text = Text(given.exchange, content)
    return choice.Run(given.exchange, given.signals, text, lines_of(text, signals), given.limit)


def observed(run: choice.Run, chosen: choice.Chosen, values: bool) -> Observed:
    """The run up to the chosen jobs, each job of which is as plex tells of it."""
    limit = min(run.limit, chosen.numbers[-1] + AHEAD)
    machine = Observed(run.text, run.lines, limit, Among(chosen.numbers), values)
    line = progress.Line()
    try:
        for job in check.compared(machine, choice.traced(run, ["SHOW"], limit)):
            if job.place % BETWEEN == 0:
                line.draw(f"{job.place} jobs have run")
        words = [*run.words("run", limit), "--workers", "1"]
        check.compare_report(machine, programs.lines_of(words, programs.ENDINGS))
    except check.Different as different:
        raise check.refused(different) from different
    finally:
        line.erase()
    return machine


def has_colours(given: Given) -> bool:
    """Whether the text has colours."""
    if given.color != "auto":
        return given.color == "always"
    return is_shown(given) and not os.environ.get("NO_COLOR")


def is_shown(given: Given) -> bool:
    """Whether the text goes to a terminal."""
    return not given.file and sys.stdout.isatty()


def has_boxes() -> bool:
    """Whether the standard output can take box characters."""
    try:
        chart_text.CHARACTERS.encode(sys.stdout.encoding or "ascii")
    except (LookupError, UnicodeError):
        return False
    return True


def lines_in(made: chart.Chart, form: Form, given: Given) -> Iterator[str]:
    """The lines of the chart in a form that is written by lines."""
    if form is Form.SVG or form is Form.PNG:
        return chart_svg.svg_of(made, given.width)
    if form is Form.MERMAID:
        return chart_words.mermaid(made)
    if form is Form.MSC:
        return chart_words.msc(made)
    width = given.width or (shutil.get_terminal_size().columns if is_shown(given) else USUAL_WIDTH)
    is_ascii = form is Form.ASCII or not (given.file or has_boxes())
    return chart_text.text_of(made, width, is_ascii, has_colours(given))


def png_of(svg: Iterable[str]) -> bytes:
    """The picture of an SVG, by another program."""
    content = "\n".join(svg).encode()
    found = re.search(rb' height="(\d+)"', content)
    if found and int(found[1]) > HIGHEST:
        raise programs.Wrong("the chart is too high for PNG: choose fewer jobs, or write SVG")
    try:
        done = subprocess.run(
            [DRAWER, "--format=png"], input=content, capture_output=True, timeout=LONGEST
        )
    except (OSError, subprocess.TimeoutExpired) as wrong:
        raise programs.Wrong(f"{DRAWER} did not draw the chart: {wrong}") from wrong
    if done.returncode or not done.stdout:
        told = tables.printed(done.stderr.decode("utf-8", "replace").strip()[:200])
        raise programs.Wrong(f"{DRAWER} did not draw the chart: {told}")
    return done.stdout


def write(made: chart.Chart, form: Form, given: Given) -> None:
    """Writes the chart to its file, or to the standard output."""
    lines = lines_in(made, form, given)
    if given.file and form is Form.PNG:
        outputs.write_bytes(given.file, [png_of(lines)])
    elif given.file:
        outputs.write(given.file, (f"{line}\n" for line in lines))
    else:
        for line in lines:
            print(line)


def title_of(names: Tuple[str, str]) -> str:
    return " with ".join(tables.quoted(os.path.basename(name)) for name in names)


def main() -> int:
    """Runs the command."""
    given = parser().parse_args(namespace=Given())
    form = form_of(given)
    inputs = given.exchange, given.signals
    if given.file:
        outputs.refuse_inputs(given.file, inputs)
    run = run_of(given)
    chosen = choice.Chooser(run, given.wishes).chosen()
    for note in chosen.notes:
        print(f"plex-chart: {note}", file=sys.stderr)
    machine = observed(run, chosen, given.values)
    look = chart.Look(given.lines, given.values)
    write(chart.Maker(machine, chosen, look).chart(title_of(inputs)), form, given)
    return 0
