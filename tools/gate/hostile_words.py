"""Cases of test_hostile.py: fronts of a text, broken rules, words, devices and limits."""
from __future__ import annotations

import functools
import operator
from typing import Any, Iterator

from gate.hostile_case import (
    ANY_WRITTEN,
    CALLS,
    CHANGED,
    CHANGE_TOLD,
    CLOSED,
    DIVE_BLOCK,
    DIVE_SIGNALS,
    EMPTY,
    FILTER,
    FULL,
    GONE,
    HELP,
    LEFT,
    LONG,
    NAMES,
    NO_MEMORY,
    REG,
    TABLE,
    TENS,
    THREE,
    TICKS,
    TIMED,
    TOLD,
    TRACE,
    TRACED,
    USAGE,
    VERSION,
    Case,
)
from plextools.limits import MOST_BYTES


def fronts() -> Iterator[Case]:
    """A front is an exchange where its tokens are none, whole signals, or all; no line of the
    signal file is there.
    """
    text = "".join(DIVE_SIGNALS) + DIVE_BLOCK
    wholes = {"".join(DIVE_SIGNALS[:count]).strip(): EMPTY for count in range(4)}
    wholes[text.strip()] = EMPTY.replace("END", "VAR R.V 0\nEND")
    for end in range(len(text) + 1):
        whole = wholes.get(text[:end].strip())
        yield Case(
            f"the first {end} bytes",
            0 if whole else 2,
            whole or ANY_WRITTEN,
            files={"E": text[:end], "S": ""},
        )


# For each rule a text that breaks it: the line that is told, and lines of TICKS that are others.
DECLARED = "DECLARE; VARIABLE N WIDTH 32; "
FILES = (
    DECLARED
    + "TEMPORARY T; FILE F SIZE 4; FIELD X WIDTH 8; FORLOPP FILE G SIZE 4; FIELD Y WIDTH 8;"
)
SIGNAL = "SIGNAL TICK SINGLE BUFFERED B DATA 0; "
SENT = "SURVEY; RECEIVE TICK; SEND TICK;"
OTHER = "BLOCK L; DECLARE; SURVEY; %s PROGRAM; %s END BLOCK;"
RULES = {
    "BADBYTE": (7, {7: "N = n;"}),
    "BADNUMBER": (7, {7: "N = 4294967296;"}),
    "LONGNAME": (7, {7: "N = " + "N" * 32 + ";"}),
    "UNEXPECTED": (7, {7: "IF (N = 1) GOTO A;"}),
    "TOODEEP": (7, {7: "N = (((((((1)))))));"}),
    "ENDED": (10, {9: ""}),
    "N1": (3, {3: DECLARED + "TEMPORARY N;"}),
    "N2": (3, {3: "DECLARE; VARIABLE N WIDTH 33;"}),
    "N3": (3, {3: "DECLARE; VARIABLE N WIDTH 8 INIT 256;"}),
    "N4": (3, {3: DECLARED + "FILE H SIZE 65536;"}),
    "N5": (3, {3: DECLARED + "".join(f"TEMPORARY T{number}; " for number in range(25))}),
    "N6": (7, {7: "N = W;"}),
    "N7": (7, {7: "GOTO DONE;"}),
    "N8": (7, {3: FILES, 7: "A) FOR FIRST T IN G WHERE Y = 1 GOTO A;"}),
    "N9": (7, {3: FILES, 7: "FREE T IN F;"}),
    "N10": (7, {7: "TRANSFER TICK;"}),
    "N11": (7, {7: "SEND TICK WITH 1;"}),
    "N12": (
        7,
        {1: SIGNAL + "SIGNAL ASK COMBINED DATA 0 ANSWER TOLD DATA 0;", 7: "SEND ASK; EXIT;"},
    ),
    "N13": (7, {7: "N = 1" + " + 1" * 64 + ";"}),
    "N14": (7, {1: SIGNAL + "SIGNAL RING OUTSIDE DATA 0;", 7: "SEND RING NEW FORLOPP;"}),
    "N15": (7, {7: "CASE N IS WHEN 1 DO WHEN 1 DO OTHERWISE DO ESAC;"}),
    "N16": (1, {1: "SIGNAL TICK SINGLE BUFFERED B DATA 9;"}),
    "N17": (7, {7: "N = REFERENCE Q;"}),
    "NORECEIVER": (
        7,
        {1: SIGNAL + "SIGNAL GO SINGLE DIRECT DATA 0;", 4: SENT + " SEND GO;", 7: "SEND GO;"},
    ),
    "NEEDSREFERENCE": (7, {4: SENT, 7: "SEND TICK;", 10: OTHER % ("RECEIVE TICK;", "ENTER TICK;")}),
    "NOTRECEIVED": (7, {4: SENT, 7: "SEND TICK REFERENCE L;", 10: OTHER % ("", "")}),
    "NOTINSURVEY": (7, {7: "SEND TICK;"}),
    "TWOENTERS": (7, {7: "ENTER TICK;"}),
    "NOENTER": (
        4,
        {1: SIGNAL + "SIGNAL GO SINGLE DIRECT DATA 0;", 4: "SURVEY; RECEIVE TICK; RECEIVE GO;"},
    ),
    "LIMIT": (7, {7: "N = N; " * 20000}),
}


def rules() -> Iterator[Case]:
    for rule, (number, changes) in RULES.items():
        lines = dict(enumerate(TICKS.split("\n"), 1))
        lines.update(changes)
        text = "\n".join(lines[place] for place in sorted(lines))
        for words, name, first in (
            (["run", "E", "S"], "E", "SOURCE"),
            ([*CHANGED, "2"], "X", "NEWSOURCE"),
        ):
            yield Case(
                f"a text that breaks {rule}",
                2,
                f"{first} line {number} {rule}\n",
                words,
                {name: text},
            )


def is_no_option(word: str, command: str, wants: str, options: str) -> str:
    return f"'{word}' is no option of {command}; behind {wants} may stand {options}"


def is_too_many(word: str, command: str, wants: str) -> str:
    return f"'{word}' is a word too many; {command} wants {wants}"


RUN, SINGLE = ("run", "two files", "--workers N, --jobs N or --cert F"), (
    "single",
    "two files",
    "--jobs N",
)
TIMED_WANTS, TRACE_WANTS = ("timed", "three files", "--workers N or --jobs N"), (
    "trace",
    "three files",
    "--jobs N",
)
CHANGE_WANTS = ("change", "three files and a number of jobs", "--workers N or --jobs N")
NO_TEXT, NO_JOBS = "a word is no UTF-8 text", "--jobs wants a number from 1 to 10000000"
WRONG_WORDS: list[tuple[list[Any], str]] = [
    ([], f"no command; {NAMES}; plex --help tells what each does"),
    ([""], f'no command ""; {NAMES}'),
    (["a\nb\x1b"], f'no command "a\\nb\\u{{1b}}"; {NAMES}'),
    (["RUN", "E", "S"], f"no command 'RUN'; {NAMES}"),
    (["run ", "E", "S"], f"no command 'run '; {NAMES}"),
    (["Timed", *TIMED[1:]], f"no command 'Timed'; {NAMES}"),
    (["help"], f"no command 'help'; {NAMES}"),
    (["run"], "run wants two files"),
    (["run", "E"], "run wants two files"),
    (["run", "--help"], "run wants two files"),
    (["run", "E", "S", "F"], is_no_option("F", *RUN)),
    (["run", "--workers", "2", "E", "S"], is_no_option("E", *RUN)),
    (["run", "E", "S", "--Jobs", "3"], is_no_option("--Jobs", *RUN)),
    (["run", "E", "S", "--workers"], "--workers wants a number from 1 to 64"),
    (["run", "E", "S", "--workers", "--jobs"], "--workers --jobs: from 1 to 64"),
    (["run", "E", "S", "--workers", "2", "--workers", "2"], "--workers stands twice"),
    (["run", "E", "S", "--cert", "F", "--jobs", "3", "--cert", "F"], "--cert stands twice"),
    (["run", "E", "S", "--cert"], "--cert wants a file"),
    (["run", "E", "S", b"\xff"], NO_TEXT),
    ([b"\xc3\x28", "E", "S"], NO_TEXT),
    (["run", b"\x80", "S"], NO_TEXT),
    (["single", "E"], "single wants two files"),
    (["single", "E", "S", "--workers", "2"], is_no_option("--workers", *SINGLE)),
    (["analyse"], "analyse wants one file"),
    (["analyse", "E", "S"], is_too_many("S", "analyse", "one file")),
    (["certify", "E", "--jobs", "3"], is_too_many("--jobs", "certify", "one file")),
    (["list"], "list wants one file"),
    (["load"], "load wants a number of calls"),
    (["load", "1", "--workers", "2"], is_too_many("--workers", "load", "a number of calls")),
    (["timed"], "timed wants three files"),
    (["timed", "E", "S"], "timed wants three files"),
    ([*TIMED, "U"], is_no_option("U", *TIMED_WANTS)),
    ([*TIMED, "--cert", "F"], is_no_option("--cert", *TIMED_WANTS)),
    ([*TIMED, "--workers"], "--workers wants a number from 1 to 64"),
    (["timed", "E", "S", "--jobs", "3"], is_no_option("3", *TIMED_WANTS)),
    (["timed", "--jobs", "3", "E", "S", "T"], is_no_option("S", *TIMED_WANTS)),
    ([*TIMED, "--jobs", "3", "--jobs", "3"], "--jobs stands twice"),
    (["timed", "E", "S", b"\xff"], NO_TEXT),
    (["trace", "E", "S"], "trace wants three files"),
    ([*TRACED, "U"], is_no_option("U", *TRACE_WANTS)),
    ([*TRACED, "--workers", "2"], is_no_option("--workers", *TRACE_WANTS)),
    ([*TRACED, "--cert", "F"], is_no_option("--cert", *TRACE_WANTS)),
    ([*TRACED, "--jobs"], NO_JOBS),
    (["trace", "--jobs", "3", "E", "S", "Q"], is_no_option("S", *TRACE_WANTS)),
    (["trace", "E", "S", b"\xff"], NO_TEXT),
    (CHANGED, "change wants three files and a number of jobs"),
    (["change", "E", "S", "2"], "change wants three files and a number of jobs"),
    ([*CHANGED, "2", "3"], is_no_option("3", *CHANGE_WANTS)),
    ([*CHANGED, "--jobs", "2"], "change after --jobs: from 1 to 10000000"),
    (["change", "2", "E", "S", "X"], "change after X: from 1 to 10000000"),
    ([*CHANGED, "2", "--cert", "F"], is_no_option("--cert", *CHANGE_WANTS)),
    ([*CHANGED, "2", "--jobs"], NO_JOBS),
    (["change", "E", "S", b"\xff", "2"], NO_TEXT),
    (["run", "E", "S"] + ["--jobs"] * 20000, "--jobs --jobs: from 1 to 10000000"),
]


def wrong_numbers() -> Iterator[tuple[list[str], str]]:
    """Words with a number that is none, or out of its range, and what is said of it."""
    larger = {
        "--workers": (64, "65 4294967297"),
        "--jobs": (10**7, "10000001 18446744073709551617"),
    }
    for option, (most, beyond) in larger.items():
        more = [
            "0",
            "",
            "-1",
            "+1",
            "1.0",
            "1e1",
            " 1",
            "1 ",
            "0x1",
            "00000000001",
            "\u0663",
            "1\n",
        ]
        for number in beyond.split() + more:
            shown = {"": '""', "1\n": '"1\\n"'}.get(number, number)
            for words in (["run", "E", "S"], TIMED, [*CHANGED, "2"]):
                yield [*words, option, number], f"{option} {shown}: from 1 to {most}"
            if option == "--jobs":
                yield [*TRACED, option, number], f"{option} {shown}: from 1 to {most}"
                yield [*CHANGED, number], f"change after {shown}: from 1 to {most}"
    for number in ("0", "10001", "00000000001", "", "-1", "4294967297", "1 "):
        shown = number or '""'
        yield ["load", number], f"load {shown}: from 1 to 10000"


def commands() -> Iterator[Case]:
    """Words that are no command, and numbers at their ends."""
    for words, message in [*WRONG_WORDS, *wrong_numbers()]:
        yield Case(f"words {words[:6]}", 1, USAGE, words, error=f"plex: {message}\n")
    for words in (["--help"], ["-h"], ["--help", "run"]):
        yield Case(f"words {words}", 1, USAGE, words, error=HELP)
    yield Case("the version", 1, USAGE, ["--version"], error=f"{VERSION}\n")
    for text in (
        "--workers 64 --jobs 10000000",
        "--jobs 0000000003",
        "--workers 0000000001",
        "--jobs 3 --workers 1",
    ):
        yield Case(f"options {text}", 0, TOLD, ["run", "E", "S", *text.split()])
    for text in ("--workers 64 --jobs 10000000", "--jobs 0000000003 --workers 0000000001", ""):
        yield Case(
            f"options {text} of timed", 0, TOLD, [*TIMED, *text.split()], {"S": "", "T": TABLE}
        )
    yield Case(
        "options of trace", 0, TRACE + TOLD, [*TRACED, "--jobs", "0000000003"], {"Q": FILTER}
    )
    for text in ("2", "0000000002 --workers 1", "2 --jobs 10000000 --workers 64"):
        yield Case(f"change after {text}", 0, CHANGE_TOLD, [*CHANGED, *text.split()])
    yield Case("change after too many jobs", 0, TOLD, [*CHANGED, "10000000"])
    named = {"--jobs": TICKS, "--workers": "", "--cert": TABLE}
    yield Case(
        "options for files",
        0,
        TOLD,
        ["timed", "--jobs", "--workers", "--cert", "--jobs", "3"],
        named,
    )
    yield Case(
        "a job too many",
        5,
        TOLD.replace("3", "2").replace("DONE", "LIMIT"),
        ["run", "E", "S", "--jobs", "2"],
    )


# Names of files that cannot be read, each with what is said of it.
UNREAD = {
    "missing": "missing: no such file",
    ".": ".: it is a folder",
    "": '"": no such file',
    "E/E": "E/E: no such file",
    "x" * 5000: "x" * 5000 + ": its name is too long",
    "no/such/folder": "no/such/folder: no such file",
    "a\tb": '"a\\tb": no such file',
    "/proc/self/mem": "/proc/self/mem: its device failed",
}


def devices() -> Iterator[Case]:
    for name, told in UNREAD.items():
        error = f"plex: {told}\n"
        yield Case(f"exchange file {name[:20]!r}", 6, "", ["run", name, "S"], error=error)
        yield Case(f"signal file {name[:20]!r}", 6, "", ["run", "E", name], error=error)
        yield Case(
            f"certificate file {name[:20]!r}", 6, "", ["run", "E", "S", "--cert", name], error=error
        )
        yield Case(f"table {name[:20]!r}", 6, "", ["timed", "E", "S", name], error=error)
        yield Case(f"filter {name[:20]!r}", 6, "", ["trace", "E", "S", name], error=error)
        yield Case(
            f"new exchange {name[:20]!r}", 6, "", ["change", "E", "S", name, "2"], error=error
        )
    missing = "plex: missing: no such file\n"
    for command, *more in (["timed"], ["trace"], ["change", "2"]):
        yield Case(
            f"{command} of no exchange", 6, "", [command, "missing", "S", "T", *more], error=missing
        )
        yield Case(
            f"{command} of no signals",
            6,
            "",
            [command, "E", "missing", "missing", *more],
            error=missing,
        )
        yield Case(
            f"{command} of a broken exchange",
            2,
            "SOURCE line 1 UNEXPECTED\n",
            [command, "S", "missing", "missing", *more],
        )
        yield Case(
            f"{command} of broken signals",
            3,
            "SIGNALS line 1 BADLINE\n",
            [command, "E", "E", "missing", *more],
        )
        yield Case(
            f"{command} of empty files",
            0,
            EMPTY,
            [command, "/dev/null", "/dev/null", "/dev/null", *more],
        )
    forbidden: dict[str, Any] = {"error": "plex: locked: no right to read it\n", "locked": "locked"}
    yield Case(
        "a file that may not be read", 6, "", ["run", "E", "locked"], {"locked": ""}, **forbidden
    )
    yield Case(
        "a change to nothing",
        12,
        "CHANGE ENTRY TICK COUNTER\n",
        ["change", "E", "S", "/dev/null", "2"],
    )
    smaller = REG.replace("LINE SIZE 2", "LINE SIZE 1")
    files = {"E": REG, "S": CALLS, "X": smaller}
    yield Case("a change to a smaller file", 12, "CHANGE FILE REG.LINE\n", [*CHANGED, "2"], files)
    yield Case(
        "a new exchange that is none",
        2,
        "NEWSOURCE line 1 UNEXPECTED\n",
        ["change", "E", "S", "S", "2"],
    )
    yield Case(
        "a new exchange without an end",
        2,
        "NEWSOURCE line 0 TOOLARGE\n",
        ["change", "E", "S", "/dev/zero", "2"],
    )
    yield Case("nothing in either file", 0, EMPTY, ["run", "/dev/null", "/dev/null"])
    yield Case(
        "an exchange file without an end", 2, "SOURCE line 0 TOOLARGE\n", ["run", "/dev/zero", "S"]
    )
    yield Case(
        "a signal file without an end", 3, "SIGNALS line 0 TOOLARGE\n", ["run", "E", "/dev/zero"]
    )
    yield Case(
        "a certificate without an end",
        9,
        "CERTIFICATE line 0 TOOLARGE\n",
        ["run", "E", "S", "--cert", "/dev/zero"],
    )
    yield Case(
        "a table without an end", 11, "TABLE line 0 TOOLARGE\n", ["timed", "E", "S", "/dev/zero"]
    )
    yield Case(
        "a filter without an end", 13, "FILTER line 0 TOOLARGE\n", ["trace", "E", "S", "/dev/zero"]
    )
    named: dict[str, Any] = {"files": {"a file: 7.plex": "B\n", "a\nb": "B\n"}}
    told, broken = (
        "SOURCE line 1 UNEXPECTED\n",
        '"a\\nb":1: UNEXPECTED: a token that does not fit there\n'
        'plex-check "a\\nb" tells all faults, with columns\n',
    )
    yield Case("a name with blanks and a colon", 2, told, ["run", "a file: 7.plex", "S"], **named)
    yield Case("a name of two lines", 2, told, ["run", "a\nb", "S"], error=broken, **named)
    outputs = ("run E S", "run E missing", "analyse E", "list E", "load 5", "no words", "run S S")
    for text in (
        *outputs,
        "timed E S T",
        "trace E S Q",
        "trace E S E",
        "change E S X 2",
        "change E S S 2",
    ):
        words = text.split()
        status = 6 if "missing" in words else 7
        unread = {6: dict.fromkeys((FULL, CLOSED, LEFT), missing)}.get(status, {})
        yield Case(
            f"{words} to a full device",
            status,
            "",
            words,
            output=">/dev/full",
            error=unread.get(FULL, FULL),
        )
        yield Case(
            f"{words} to a closed output",
            status,
            "",
            words,
            output=">&-",
            error=unread.get(CLOSED, CLOSED),
        )
        yield Case(
            f"{words} to a reader that has gone",
            status,
            "",
            words,
            output=GONE,
            error=unread.get(LEFT, LEFT),
        )
    small: dict[str, Any] = {
        "output": ">>long",
        "files": {"long": "x" * 4096},
        "limit": "trap '' XFSZ; ulimit -f 1;",
    }
    yield Case("an output that may not be so large", 7, "", error=LONG, **small)
    small["limit"] = "ulimit -f 1;"
    yield Case(
        "an output that may not be so large, as it is installed",
        7,
        "",
        error=LONG,
        installed=True,
        **small,
    )
    large = {"E": lambda: TICKS.replace("N = N + 1;", "N=N;" * 3000000).encode()}
    yield Case(
        "a text for which memory is short",
        8,
        "",
        files=large,
        limit="ulimit -v 100000;",
        error=NO_MEMORY,
    )
    for output in ("2>/dev/full", "2>&-"):
        yield Case(f"a complaint with {output}", 6, "", ["run", "E", "missing"], output=output)
        yield Case(f"no complaint with {output}", 0, TOLD, output=output)


def limits() -> Iterator[Case]:
    brackets = TICKS.replace("N = N + 1;", "N = %s1%s;")
    yield Case(
        "six brackets", 0, TOLD.replace("N 3", "N 1"), files={"E": brackets % ("(" * 6, ")" * 6)}
    )
    yield Case(
        "seven brackets", 2, "SOURCE line 7 TOODEEP\n", files={"E": brackets % ("(" * 7, ")" * 7)}
    )
    nested = TICKS.replace("N = N + 1;", "%sN = N + 1; %s")
    for depth, status, text in ((12, 0, TOLD), (13, 2, "SOURCE line 7 TOODEEP\n")):
        yield Case(
            f"statements {depth} deep",
            status,
            text,
            files={"E": nested % ("IF 1 = 1 THEN " * depth, "FI; " * depth)},
        )
    blocks = "".join(
        f"BLOCK X{number}; DECLARE; SURVEY; PROGRAM; END BLOCK;\n" for number in range(1, 66)
    )
    yield Case("64 blocks", 0, EMPTY, files={"E": "".join(blocks.splitlines(True)[:64]), "S": ""})
    yield Case("65 blocks", 2, "SOURCE line 65 LIMIT\n", files={"E": blocks, "S": ""})
    name = "COUNTER"
    for length, status, text in ((31, 0, TOLD), (32, 2, "SOURCE line 2 LONGNAME\n")):
        long = name.ljust(length, "X")
        files = {"E": TICKS.replace(name, long), "S": THREE.replace(name, long)}
        yield Case(f"a name of {length} letters", status, text.replace(name, long), files=files)
    for size, more in ((MOST_BYTES, False), (MOST_BYTES + 1, True)):
        blanks = functools.partial(operator.mul, b" ", size)
        tens = functools.partial(TENS.encode().ljust, size)
        source = (2, "SOURCE line 0 TOOLARGE\n") if more else (0, EMPTY)
        yield Case(f"exchange text of {size} bytes", *source, files={"E": blanks, "S": ""})
        signals = (3, "SIGNALS line 0 TOOLARGE\n") if more else (0, TOLD.replace("3", "0"))
        yield Case(f"signal file of {size} bytes", *signals, files={"S": blanks})
        table = (11, "TABLE line 0 TOOLARGE\n") if more else (0, TOLD)
        yield Case(f"table of {size} bytes", *table, TIMED, {"T": blanks})
        new = (2, "NEWSOURCE line 0 TOOLARGE\n") if more else (0, CHANGE_TOLD)
        yield Case(f"new exchange of {size} bytes", *new, [*CHANGED, "2"], {"X": tens})
        shows = (13, "FILTER line 0 TOOLARGE\n") if more else (0, TOLD)
        yield Case(f"filter of {size} bytes", *shows, TRACED, {"Q": blanks})
        line = "CERTIFICATE line 0 TOOLARGE\n" if more else "CERTIFICATE line 1 BADTEXT\n"
        yield Case(
            f"certificate of {size} bytes", 9, line, ["run", "E", "S", "--cert", "F"], {"F": blanks}
        )
