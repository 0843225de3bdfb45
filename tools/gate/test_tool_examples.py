"""The examples of plex-chart, plex-step, plex-why, plex-load and plex-page, and wrong words for the
last 3.

Each file NAME.words below examples/ has the words of a run, one a line, the tool first, and
NAME.txt what it must write, from that folder; `--write` writes the texts anew. Each command of
docs/GUIDE.md and README.md that begins with one of these tools must be the words of an example.

Then plex-why, plex-load and plex-page get wrong words, files that are missing, no text, or refused
by plex, and a reader who does not read on. Each time they must write one clear message, and end
with the status 2, or with that of plex where plex refuses a text.
"""
from __future__ import annotations

import os
import pathlib
import re
import subprocess
from typing import Any, Iterator, NamedTuple, Sequence

import pytest

from gate import harness
from gate.checking import EXAMPLES, ROOT, TOOLS, check, check_enough, read_words

PRINTED = [ROOT / "README.md", *harness.GUIDE]
COMMANDS = re.compile(r"^```\n((?:plex-(?:chart|why|load|page) .*\n)+)```$", re.M)
LEAST, LEAST_WRONG, LONGEST = 8, 56, harness.WHILE
MANY = 40  # statements of a kind
GOOD = EXAMPLES / "guide" / "bills" / "exchange.plex"
LINES = EXAMPLES / "guide" / "bills" / "signals.txt"
REFUSED = EXAMPLES / "guide" / "first_refusal" / "exchange.plex"
WORDS = sorted(EXAMPLES.rglob("*.words"))
NAMES = [str(path.relative_to(EXAMPLES)) for path in WORDS]
KNOWN = {" ".join(read_words(path)) for path in WORDS}
TOLD = [
    command
    for document in PRINTED
    for command in "".join(COMMANDS.findall(document.read_text())).splitlines()
]


@pytest.fixture(autouse=True)
def programs(plex: pathlib.Path, conflicts: pathlib.Path) -> None:
    """The programs that the tools take."""


def run(
    words: Sequence[Any], folder: pathlib.Path, **more: Any
) -> subprocess.CompletedProcess[bytes]:
    """A run of a tool for users."""
    tool, *rest = words
    return subprocess.run(
        [TOOLS / "bin" / tool, *rest],
        cwd=folder,
        stdin=subprocess.DEVNULL,
        stdout=subprocess.PIPE,
        stderr=subprocess.PIPE,
        timeout=LONGEST,
        **more,
    )


@pytest.mark.parametrize("path", WORDS, ids=NAMES)
def test_example(pytestconfig: pytest.Config, path: pathlib.Path) -> None:
    """An example writes its text."""
    done, told = run(read_words(path), path.parent), path.with_suffix(".txt")
    if pytestconfig.option.write:
        told.write_bytes(done.stdout)
    assert (done.returncode, done.stdout, done.stderr) == (0, told.read_bytes(), b"")


@pytest.mark.parametrize("command", TOLD)
def test_command_of_a_document(command: str) -> None:
    """A command that a document shows is an example."""
    assert command in KNOWN


class Folder:
    """The files that the wrong words name."""

    def __init__(self, place: pathlib.Path) -> None:
        self.place = place
        (place / "empty").write_bytes(b"")
        (place / "strange").write_bytes(b"AFTER 0 CALL DESK\n")
        (place / "bytes").write_bytes(bytes(range(256)))
        os.mkfifo(place / "fifo")


class Wrong(NamedTuple):
    """Words with what they must come to: the status, and a part of the message, or the written text
    where plex refuses.

    A word that begins with `@` names a file of the folder; `@` alone is the folder.
    """

    words: Sequence[Any]
    status: int
    told: str


def wrong_for_all() -> Iterator[Wrong]:
    """Words that are wrong for each of the tools."""
    unread = "no file that can be read more than once"
    of_tools: dict[str, list[Any]] = {
        "plex-why": [GOOD],
        "plex-load": [GOOD, LINES],
        "plex-page": [GOOD, LINES, "-o", "@page"],
    }
    for tool, files in of_tools.items():
        yield Wrong([tool], 2, "usage: " + tool)
        yield Wrong([tool, "--no-such-word", *files], 2, "usage: " + tool)
        yield Wrong([tool, "@no such file", *files[1:]], 2, "could not be read: No such file")
        yield Wrong([tool, "@", *files[1:]], 2, unread)
        yield Wrong([tool, "@fifo", *files[1:]], 2, unread)
        yield Wrong([tool, REFUSED, *files[1:]], 2, "SOURCE line 8 NOTINSURVEY\n")
        yield Wrong([tool, "@bytes", *files[1:]], 2, "SOURCE line 1 BADBYTE\n")
        yield Wrong([tool, os.fsdecode(b"\xff\xfe"), *files[1:]], 2, "could not be read")
        yield Wrong([tool, *files, "one", "two", "three"], 2, tool)


def wrong_for_loads() -> Iterator[Wrong]:
    """Words that are wrong for the tools that take a signal file."""
    rests: tuple[tuple[str, list[str]], ...] = (("plex-load", []), ("plex-page", ["-o", "@page"]))
    for tool, rest in rests:
        yield Wrong([tool, GOOD, "@no such file", *rest], 2, "could not be read: No such file")
        yield Wrong([tool, GOOD, "@strange", *rest], 3, "SIGNALS line 1 BADLINE\n")
        for number in ("0", "65"):
            words = [tool, GOOD, LINES, *rest, "--workers", number]
            yield Wrong(words, 2, "no number from 1 to 64")
        yield Wrong([tool, GOOD, LINES, *rest, "--jobs", "-1"], 2, "usage: ")


def wrong_for_one() -> Iterator[Wrong]:
    """Words that are wrong for one tool."""
    yield Wrong(["plex-why", GOOD, "0", "2"], 2, "there is no entry 2; they are 0 to 1")
    yield Wrong(["plex-why", GOOD, "0"], 2, "a pair is two numbers")
    large = "9" * 20
    yield Wrong(["plex-why", GOOD, "0", large], 2, f"there is no entry {large}; they are")
    none = "there is no entry CALL FEES; there are CALL DESK, BILL DESK"
    yield Wrong(["plex-why", GOOD, "CALL", "DESK", "CALL", "FEES"], 2, none)
    yield Wrong(["plex-why", "@empty", "0", "0"], 2, "there is no entry 0; the text has none")
    yield Wrong(["plex-page", GOOD, "-o", "@"], 2, "could not be written")
    yield Wrong(["plex-page", GOOD, "-o", "@none/page"], 2, "could not be written")


ALL_WRONG = [*wrong_for_all(), *wrong_for_loads(), *wrong_for_one()]


def named(words: Sequence[Any]) -> str:
    """A name for words."""
    return " ".join(ascii(word)[1:-1] if isinstance(word, str) else word.name for word in words)


def placed(words: Sequence[Any], folder: pathlib.Path) -> list[Any]:
    """The words with the files of the folder."""
    return [
        folder / word[1:] if isinstance(word, str) and word.startswith("@") else word
        for word in words
    ]


def is_complaint(message: str, told: str) -> bool:
    """Whether a message is what plex itself says of what it has refused: its line, and what tells
    all faults."""
    _, _, line, rule = told.split()
    first, *more = message.splitlines()
    return f":{line}: {rule}: " in first and [text.split()[0] for text in more] == ["plex-check"]


@pytest.mark.parametrize("wrong", ALL_WRONG, ids=[named(wrong.words) for wrong in ALL_WRONG])
def test_wrong_words(folder: pathlib.Path, wrong: Wrong) -> None:
    """A tool writes one clear message, and no page."""
    words = placed(wrong.words, Folder(folder).place)
    done = run(words, folder)
    wrote, message = (text.decode("utf-8", "replace") for text in (done.stdout, done.stderr))
    is_clear = (
        wrote == wrong.told and is_complaint(message, wrong.told)
        if wrong.told.endswith("\n")
        else wrong.told in message and not wrote and message.startswith(f"{words[0]}: ")
    )
    is_short = "Traceback" not in message and message.count("\n") <= 2
    is_right = done.returncode == wrong.status and is_clear and is_short
    check(
        None if is_right else f"status {done.returncode}, {wrote[:200]!r}, {message[-300:]!r}",
        "a page is left where none could be made" if list(folder.glob("*page*")) else None,
    )


EMPTY = {
    "plex-why": ["nothing"],
    "plex-load": ["nothing", "nothing"],
    "plex-page": ["nothing", "nothing", "-o", "empty page"],
}
NO_PROGRAM = ["/no/such/program", "/bin/true", "/bin/false"]
OF_TOOLS: dict[str, list[Any]] = {
    "PLEX_CONFLICTS": ["plex-why", GOOD],
    "PLEX": ["plex-load", GOOD, LINES],
}
READ = [f"plex-why {GOOD}", f"plex-load {GOOD} {LINES}", f"plex-load --json {GOOD} {LINES}"]


@pytest.mark.parametrize("words", [[], ["--all"]], ids=["the first ones", "--all"])
def test_all_statements(folder: pathlib.Path, words: list[str]) -> None:
    """plex-why tells the first few statements of a kind, and all of them with --all."""
    text = (EXAMPLES / "three_ticks" / "exchange.plex").read_text()
    (folder / "E").write_text(text.replace("N = N + 1;", "N = N + 1;\n" * MANY))
    done = run(["plex-why", *words, "E", "0", "0"], folder)
    told = done.stdout.decode().count("E:")
    assert done.returncode == 0 and (told >= 2 * MANY if words else 0 < told < MANY)


def test_names_of_entries(folder: pathlib.Path) -> None:
    """plex-why takes the names of signal and block for the number of an entry."""
    counter = (EXAMPLES / "three_ticks" / "exchange.plex").read_text()
    _, block, text = counter.partition("BLOCK ")
    (folder / "E").write_text(counter + block + text.replace("COUNTER", "OTHER"))
    numbered = [run(["plex-why", "E", word, word], folder).stdout for word in ("0", "1")]
    named = [
        run(["plex-why", "E", *["TICK", name] * 2], folder).stdout for name in ("COUNTER", "OTHER")
    ]
    assert named == numbered and named[0] != named[1] and all(named)


@pytest.mark.parametrize("tool", EMPTY)
def test_empty_texts(folder: pathlib.Path, tool: str) -> None:
    """An empty text is one."""
    (folder / "nothing").write_bytes(b"")
    done = run([tool, *EMPTY[tool]], folder)
    assert (done.returncode, done.stderr) == (0, b"")


@pytest.mark.parametrize("variable", OF_TOOLS)
@pytest.mark.parametrize("program", NO_PROGRAM)
def test_no_program(folder: pathlib.Path, program: str, variable: str) -> None:
    """Another program in the place of one that a tool takes is told in one message."""
    words = OF_TOOLS[variable]
    done = run(words, folder, env={**os.environ, variable: program})
    assert done.returncode == 2 and done.stderr.startswith(f"{words[0]}: ".encode())


@pytest.mark.parametrize("words", READ, ids=["why", "load", "load --json"])
def test_reader_who_goes(words: str) -> None:
    """A reader who does not read on is no fault."""
    done = subprocess.run(
        ["sh", "-c", f"{TOOLS}/bin/{words} | true"],
        stdin=subprocess.DEVNULL,
        stdout=subprocess.PIPE,
        stderr=subprocess.PIPE,
        timeout=LONGEST,
    )
    assert not done.stderr


def test_all_examples_are_there() -> None:
    """No example and no wrong word is lost."""
    check_enough("examples", WORDS, LEAST)
    careless = len(ALL_WRONG) + len(EMPTY) + len(NO_PROGRAM) * len(OF_TOOLS) + len(READ)
    check_enough("wrong or careless words", careless, LEAST_WRONG)
