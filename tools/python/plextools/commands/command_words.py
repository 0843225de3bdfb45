"""The words and options of all commands: what --help tells of options, and what shells complete.

`test_completion.py` of the gate compares them with the manual pages, with what --help says, and
with what bash completes.
"""
import textwrap
from typing import Callable, Iterator, NamedTuple, Tuple, Union

from plextools import programs

FILES, FOLDERS, NOTHING = "files", "folders", "nothing"


class Option(NamedTuple):
    """An option: its names, what it does, what stands behind it, and the words that are offered
    for that, or what gives them; what --help tells beside that. Nothing stands behind one without
    `value`.
    """

    names: Tuple[str, ...]
    does: str
    value: str = ""
    words: Union[Tuple[str, ...], Callable[[], Tuple[str, ...]]] = ()
    takes_file: bool = False
    more: str = ""

    @property
    def offered(self) -> Tuple[str, ...]:
        return self.words() if callable(self.words) else self.words

    @property
    def told(self) -> str:
        """What --help tells of it."""
        return self.does + self.more


class Command(NamedTuple):
    """A command, or one of plex: its name, what it does, its options, what else it takes, and how
    many of that, or 0 where that is not fixed.
    """

    name: str
    does: str
    options: Tuple[Option, ...] = ()
    takes: str = FILES
    files: int = 0


def explained() -> Tuple[str, ...]:
    """The words that plex-check explains."""
    from plextools.text.explanations import explanations

    return tuple(explanations())


def switched_off() -> Tuple[str, ...]:
    """The words that plex-check leaves out."""
    from plextools.text.change import CHANGES, NOTES
    from plextools.text.warnings import WARNINGS

    return (*WARNINGS, *CHANGES, *NOTES)


def option(
    name: str, does: str, value: str = "", more: str = "", takes_file: bool = False
) -> Option:
    """An option of one name, for whose value no words are offered."""
    return Option((name,), does, value, (), takes_file, more)


COUNTS, ENDS = ("1", "2", "4", "8", "16", "32", "64"), ("1000", "1000000", "10000000")
COLOUR = Option(
    ("--color",),
    "whether there are colours",
    "when",
    ("always", "never", "auto"),
    more=": always, never, or auto, which is on a terminal where NO_COLOR is not set",
)
WORKERS = Option(("--workers",), "the number of workers", "n", COUNTS)
JOBS = Option(("--jobs",), "ends the run after so many jobs", "n", ENDS)
LIMIT = Option(
    ("--limit",), "ends the run after so many jobs", "n", ENDS, more="; 1,000,000 without it"
)
CERTIFICATE = option("--cert", "a certificate of the exchange", "certificate", takes_file=True)
JSON = option("--json", "writes JSON")
HELP, VERSION = option("--help", "writes this text"), option("--version", "writes the version")
FAULTS = tuple(
    "FAULT POINTER RANGE DIVIDE NOTOWN NOFORLOPP CHAIN BADEND DEPTH SENDS BUDGET".split()
)

OF_PLEX = (
    Command("run", "runs an exchange with several workers", (WORKERS, JOBS, CERTIFICATE), FILES, 2),
    Command("single", "runs an exchange job by job", (JOBS,), FILES, 2),
    Command("timed", "runs it with a table of periodic signals", (WORKERS, JOBS), FILES, 3),
    Command("change", "runs it, and another exchange from some job on", (WORKERS, JOBS), FILES, 4),
    Command("trace", "runs it, and shows jobs", (JOBS,), FILES, 3),
    Command("analyse", "tells which entries may run at once", (), FILES, 1),
    Command("certify", "writes a certificate of the analysis", (), FILES, 1),
    Command("list", "writes the code of an exchange", (), FILES, 1),
    Command("load", "writes an exchange and signals as a load", (), NOTHING, 1),
)
LOADS = ("1", "10", "100", "1000", "10000")  # what is offered for plex load
CHECK_OPTIONS = (
    Option(
        ("--explain",),
        "tells what a word means",
        "word",
        explained,
        more=", with a wrong and a right example",
    ),
    option("--long", "writes the form of a terminal", more=", wherever the output goes"),
    option("--short", "writes a line for each fault", more=", also on a terminal"),
    option("--json", "writes a record of JSON for each fault", more=", each on a line"),
    option("--sarif", "writes a document of SARIF 2.1.0"),
    COLOUR,
    option("--werror", "ends with 1 where there are warnings and no faults"),
    Option(
        ("--no",),
        "leaves the warnings or notes of a word out",
        "word",
        switched_off,
        more="; WORD,WORD leaves several out",
    ),
    Option(
        ("--most",),
        "tells at most so many faults or warnings of each word in a file",
        "n",
        ("1", "100", "1000", "100000"),
        more="; 1000 without it",
    ),
    option("--change", "compares two exchange texts"),
    option("--help", "writes this text", more=", and all words that --no takes"),
    VERSION,
)
CHART_OPTIONS = (
    option(
        "--jobs", "shows the jobs of a range", "range", ", as 10-20; also 10 alone, 10- and -20"
    ),
    option("--forlopp", "shows the jobs of a forlopp", "number", "; F0 is that of no forlopp"),
    option("--block", "shows the jobs that come to a block", "name", ", by whatever signal"),
    option("--signal", "shows the jobs that a signal starts, or that send it", "name"),
    Option(
        ("--around",),
        "shows the first job that ended by a fault",
        "fault",
        FAULTS,
        more=", as RANGE, or by any one with FAULT, or the job of a number, with those around it",
    ),
    Option(
        ("--context",),
        "so many jobs before and behind that one",
        "n",
        ("10", "100", "1000"),
        more="; 10 without it",
    ),
    Option(
        ("--most",),
        "shows so many jobs at most",
        "n",
        ("10", "100", "1000"),
        more="; 100 without it",
    ),
    LIMIT,
    option("--values", "tells what jobs store, seize and free"),
    option(
        "--lines",
        "tells the line of each statement",
        "",
        " as :12, and the line of the signal file as S:3",
    ),
    option("--ascii", "draws without box characters"),
    option("--svg", "draws as SVG"),
    option("--mermaid", "writes for Mermaid"),
    option("--msc", "writes for mscgen"),
    option(
        "-o",
        "writes a file",
        "file",
        "; its ending tells how: .svg, .png (by rsvg-convert), .mmd, .msc, or else text",
        True,
    ),
    Option(
        ("--width",), "about so many columns, or pixels of a picture", "n", ("80", "100", "1000")
    ),
    COLOUR,
    HELP,
    VERSION,
)
COMMANDS = (
    Command("plex", "compiles and runs exchange texts"),
    Command("plex-merge", "makes one signal file of a signal file and a table", (), FILES, 3),
    Command("plex-conflicts", "tells all conflicts of entries", (), FILES, 1),
    Command("plex-check", "tells all faults of files, and what is odd in them", CHECK_OPTIONS),
    Command(
        "plex-format",
        "gives exchange texts their one layout",
        (
            option(
                "--check", "names the files that have another layout", more=", and rewrites none"
            ),
            option(
                "--diff", "tells what would change as unified diffs", more=", and rewrites no file"
            ),
            HELP,
            VERSION,
        ),
    ),
    Command(
        "plex-why",
        "tells which statements keep jobs apart",
        (
            option("--all", "lists all statements", more=", and not the first few of each kind"),
            option("--diff", "compares two exchange texts"),
            JSON,
            HELP,
            VERSION,
        ),
    ),
    Command(
        "plex-load",
        "tells what workers bring for a load",
        (
            Option(
                ("--workers",),
                "the number of workers",
                "n",
                COUNTS,
                more="; several may stand there",
            ),
            JOBS,
            Option(("--skip",), "leaves so many first jobs out", "n", ("10", "100", "1000")),
            option("--dense", "takes each line to be there in time"),
            option("--precision", "tells which pairs of jobs commute"),
            option("--diff", "compares two loads"),
            option("--cost-job", "what handing out a job costs", "n"),
            option("--cost-send", "what a signal costs", "n"),
            option("--cost-sync", "what a synchronised access costs", "n"),
            option("--statement", "how many ns a statement takes", "ns"),
            option("--machines", "reads the costs of several machines", "file", takes_file=True),
            option("--trace-json", "writes the jobs as a trace of Chrome", "file", takes_file=True),
            JSON,
            HELP,
            VERSION,
        ),
    ),
    Command(
        "plex-step",
        "steps through a run, forward and backward",
        (
            option(
                "-x",
                "takes the commands of a file",
                "file",
                ", a line each; ! begins a comment",
                True,
            ),
            Option(
                ("-e",),
                "takes a command",
                "command",
                ("c", "s", "n", "where", "help", "quit"),
                more="; -e and -x may stand several times, and are taken in their order",
            ),
            LIMIT,
            HELP,
            VERSION,
        ),
    ),
    Command(
        "plex-lsp",
        "tells faults and meanings in an editor",
        (
            option("--stdio", "talks over the standard input and output", more=", as without it"),
            HELP,
            VERSION,
        ),
        NOTHING,
    ),
    Command(
        "plex-page",
        "shows what keeps jobs apart on a page",
        (
            option("-o", "the page that is written", "page", takes_file=True),
            WORKERS._replace(more="; 4 without it"),
            JOBS,
            HELP,
            VERSION,
        ),
    ),
    Command(
        "plex-test",
        "runs folders of cases, and compares their reports",
        (
            Option(("-j", "--jobs"), "runs so many cases at once", "n", COUNTS),
            option("-k", "runs the cases with a text in their names", "text"),
            option("--list", "lists the cases", more=", and runs none"),
            Option(("-v", "--verbose"), "tells passed cases too"),
            option("--update", "takes what the programs write into the files of the cases"),
            option("--no-faults", "fails a case whose report has a RELEASE or a RESTART"),
            option(
                "--junit", "writes the outcomes into a file as JUnit XML", "file", takes_file=True
            ),
            Option(
                ("--timeout",),
                "ends a run after so many seconds",
                "s",
                ("10", "60", "600"),
                more="; 600 without it",
            ),
            HELP,
            VERSION,
        ),
        FOLDERS,
    ),
    Command("plex-chart", "draws the sequence chart of a run", CHART_OPTIONS),
)
BY_NAME = {command.name: command for command in COMMANDS}
WIDEST, WIDTH = 15, 100  # columns of the options and of lines of plex-check --help


def described(words: programs.Words) -> programs.Words:
    """The words of a tool, of whose options --help tells what stands here."""
    told = {name: one for one in BY_NAME[words.name].options for name in one.names}
    words.tell_options({name: (one.value.upper(), one.told) for name, one in told.items()})
    return words


def rows(command: Command) -> Iterator[str]:
    """The options of a command, and what each does."""
    for one in command.options:
        head = ", ".join(one.names) + (f" {one.value.upper()}" if one.value else "")
        yield textwrap.fill(
            f"  {head:<{WIDEST}} {one.told}", WIDTH, subsequent_indent=" " * (WIDEST + 3)
        )
