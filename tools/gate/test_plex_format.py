"""plex-format: what it makes of texts, and what the command does with files.

Each folder of cases/layout has a text, `exchange.plex`, and what it is in the layout,
`layout.plex`. The other texts are the right ones of all tables, and texts made by chance, with
comments in all places. Of each it is looked whether the layout is one: that of a text in the layout
is that text; the words and their tree are the same; a comment is behind the same word, or alone on
its line as before; and plex makes the same code of both.
"""
import os
import pathlib
import random
import re
import stat
import subprocess
import sys
from typing import Iterator, List, NamedTuple, Optional, Sequence, Tuple, Union

import pytest

from gate import document_texts, harness
from gate.checking import Tally, need_command
from gate.makers import made_exchange, made_text, put_comments
from gate.test_broken_texts import TEXTS as BROKEN_TEXTS
from gate.test_sentences import TEXTS as SENTENCES
from plextools import VERSION
from plextools.commands import format as command
from plextools.limits import MOST_BYTES
from plextools.text import layout
from plextools.text.faults import GRAMMAR, Checker
from plextools.text.grammar import Node
from plextools.text.statements import Reader
from plextools.text.tokens import Text, Token
from plextools.text.tree import tree

TOOL = harness.ROOT / "tools" / "bin" / "plex-format"
FOLDERS = sorted(path.parent for path in harness.CASES.glob("layout/*/layout.plex"))
FILES = sorted(
    [
        *harness.ROOT.glob("examples/**/*.plex"),
        *harness.CASES.glob("*/*/exchange"),
        *harness.CASES.glob("diagnostics/*/mended"),
    ]
)
TABLES = [text.replace("@", "\n").encode("latin-1") for _, text in [*SENTENCES, *BROKEN_TEXTS]]
LEAST_FOLDERS, LEAST_FILES, LEAST_TEXTS, LEAST_REFUSED = 6, 380, 180, 60
WIDTH, LONGEST, A_MEGABYTE, APART = 80, harness.WHILE, 2**20, 8
WORD = re.compile(r"![^\n]*|[A-Z][A-Z0-9]*|[0-9]+|<=|>=|<>|[;,()=+\-*/<>]")
EASY = "BLOCK K;\nDECLARE;\nSURVEY;\nPROGRAM;\nEND BLOCK;\n"


class Placed(NamedTuple):
    """A word or a comment of a text, and whether it is the first on its line."""

    text: str
    is_first: bool


class Told(NamedTuple):
    """How a call of plex-format ended, and what it wrote."""

    status: int
    wrote: bytes
    complaint: str


def name_of(path: pathlib.Path) -> str:
    """The name of a file, with its folder."""
    return f"{path.parent.name}-{path.name}"


def placed(data: bytes) -> List[Placed]:
    """The words and the comments of a text."""
    text = data.decode("latin-1")
    return [
        Placed(
            found[0].rstrip(" \t\r"),
            not text[text.rfind("\n", 0, found.start()) + 1 : found.start()].strip(" \t\r"),
        )
        for found in WORD.finditer(text)
    ]


def comments(data: bytes) -> List[Tuple[str, bool]]:
    """The comments of a text, and whether each is alone on its line."""
    return [(one.text, one.is_first) for one in placed(data) if one.text[0] == "!"]


def is_refused(data: bytes) -> bool:
    """Whether a text has a fault of its words or its grammar."""
    return any(fault.phase <= GRAMMAR for fault in Checker(Text(data, 9)).check())


def shape(part: object) -> object:
    """A tree, or a part of it, without the places of its words."""
    if isinstance(part, Token):
        return part.text
    if isinstance(part, (list, tuple)):
        return [shape(one) for one in part]
    if isinstance(part, Node):
        return {name: shape(value) for name, value in sorted(vars(part).items())}
    return part


def wrong_lines(text: bytes) -> Iterator[str]:
    """The lines that the layout does not have."""
    lines = text.decode("latin-1").split("\n")
    if text and (lines[0] == "" or text.endswith(b"\n\n") or not text.endswith(b"\n")):
        yield "a blank line at the beginning or the end, or no newline at the end"
    for line, following in zip(lines, [*lines[1:], "."]):
        code = line.split("!", 1)[0]
        if line != line.rstrip(" \t\r") or "\t" in code or "\r" in code:
            yield f"blanks: {line!r}"
        if line == following == "":
            yield "two blank lines"
        if len(code.rstrip()) > WIDTH:
            yield f"a long line: {line!r}"
        if code.count(";") > 1 or re.search(r"\b(THEN|DO|IS|ELSE)\b +(?!GOTO)\S", code):
            yield f"two phrases: {line!r}"


def wrong(data: bytes) -> List[str]:
    """What is wrong with the layout of a right text."""
    text, faults = layout.format_text(data)
    if text is None:
        return [f"refused: {faults[:1]}"]
    told = list(wrong_lines(text))
    if layout.format_text(text).text != text:
        told.append("the layout of the layout is another one")
    if [one.text for one in placed(text)] != [one.text for one in placed(data)]:
        told.append("other words or comments")
    if comments(text) != comments(data):
        told.append("a comment behind a word is alone on its line, or one that was alone is not")
    if shape(tree(Reader, text)) != shape(tree(Reader, data)):
        told.append("another tree")
    return told


def listed(plex: pathlib.Path, folder: pathlib.Path, data: bytes) -> harness.Answer:
    """The code that plex makes of a text."""
    (folder / "E").write_bytes(data)
    return harness.answer(plex, ["list", "E"], folder)


def check(data: bytes) -> bytes:
    """The layout of a right text, which is looked at."""
    told = wrong(data)
    assert not told, f"{told}\n{data.decode('latin-1')}"
    text = layout.format_text(data).text
    assert text is not None
    return text


def test_there_are_enough() -> None:
    """No text was lost."""
    assert len(FOLDERS) >= LEAST_FOLDERS and len(FILES) >= LEAST_FILES


@pytest.mark.parametrize("folder", FOLDERS, ids=lambda folder: str(folder.name))
def test_layout(folder: pathlib.Path) -> None:
    """A text is laid out as it is written by hand."""
    assert check((folder / "exchange.plex").read_bytes()) == (folder / "layout.plex").read_bytes()


@pytest.mark.parametrize("path", FILES, ids=name_of)
def test_files(path: pathlib.Path) -> None:
    """The texts of examples and of cases."""
    data = path.read_bytes()
    if is_refused(data):
        assert layout.format_text(data).text is None
    else:
        check(data)


def test_tables() -> None:
    """A text of the tables is refused exactly where its words or its grammar are at fault."""
    counts = {True: 0, False: 0}
    for data in TABLES:
        refused = is_refused(data)
        counts[refused] += 1
        text, faults = layout.format_text(data)
        assert (text is None) == refused == bool(faults), data
        if not refused:
            check(data)
    assert counts[False] >= LEAST_TEXTS and counts[True] >= LEAST_REFUSED, counts


def test_documents() -> None:
    """The texts that docs/LANGUAGE.md has for its rules are sentences."""
    texts = [text for text, _ in document_texts.BROKEN.findall(document_texts.LANGUAGE)]
    assert len(texts) >= 20
    for text in texts:
        check(text.encode())


@pytest.mark.by_chance(60)
def test_by_chance(
    plex: pathlib.Path, folder: pathlib.Path, seed: str, tally: Tally, number: int
) -> None:
    """A text made by chance, with comments by chance; plex makes the same code of its layout."""
    chance = random.Random(f"{seed}.format.{number}")
    if number % 3:
        words = made_text.right_words(chance)
    else:
        words = re.sub(r"![^\n]*", "", made_exchange.made_case(chance).exchange.decode()).split()
        words = WORD.findall(" ".join(words))
    share = chance.choice([0.0, 0.02, 0.2, 1.0])
    data = put_comments.commented(words, chance, share)
    text = check(data)
    first, second = listed(plex, folder, data), listed(plex, folder, text)
    assert first == second and first.status == 0
    tally.add("formatted", {"texts": 1, "comments": len(comments(data))})


@pytest.mark.parametrize("first", range(APART))
@pytest.mark.parametrize("is_alone", (False, True), ids=("behind", "alone"))
def test_each_place(is_alone: bool, first: int) -> None:
    """A comment at each place of a text with all statements, some of them at once. It stays
    between the same two words.
    """
    data = (harness.CASES / "layout" / "everything" / "exchange.plex").read_bytes()
    words = WORD.findall(data.decode())
    places = range(first, len(words) + 1, APART)
    check(put_comments.at_places(words, places, is_alone))


@pytest.mark.parametrize(
    "data",
    (
        b"",
        b" \t\r\n\n",
        b"!",
        b"! alone",
        b"\n\n! first\n\n\n! last\n\n",
        EASY.replace("\n", "\r\n").encode(),
        EASY.replace("\n", "\t\t").encode(),
        EASY.strip().encode(),
        EASY.strip().encode() + b"! \xff\x00\x1b",
        b"\r" + EASY.encode(),
    ),
)
def test_small_texts(data: bytes) -> None:
    """Texts of comments and blanks alone, with CR LF, with tabs, and without a newline at the
    end."""
    check(data)


def large(size: int) -> bytes:
    """A text of about a size, with comments and lists in each other."""
    why = f"! {'why ' * 40}\n"
    piece = f"IF A + 1 > B THEN {why} A = B; ELSE\n {why} B = A * (B + 1); FI; L%d) EXIT;\n"
    parts = [piece % number for number in range(size // len(piece))]
    return EASY.replace("END", "".join(parts) + "END").encode()


def test_megabyte() -> None:
    """A text of 1 MiB."""
    data = large(A_MEGABYTE)
    assert layout.format_text(check(data)).text != data


def test_too_large(monkeypatch: pytest.MonkeyPatch) -> None:
    """A text that is too large, or would be in the layout, is refused."""
    assert refusals(b" " * (MOST_BYTES + 1)) == [layout.TOO_LARGE]
    check(EASY.replace("\n", "").encode())
    monkeypatch.setattr(layout, "MOST_BYTES", len(EASY) - 1)
    assert refusals(EASY.replace("\n", "").encode()) == [layout.TOO_LARGE]


def refusals(data: bytes) -> List[str]:
    """The words of the faults for which a text is refused."""
    text, faults = layout.format_text(data)
    assert (text is None) == bool(faults)
    return [fault.rule for fault in faults]


def call(*words: str, folder: pathlib.Path, given: bytes = b"", to: Optional[int] = None) -> Told:
    """Calls plex-format in a folder."""
    done = subprocess.run(
        [sys.executable, TOOL, *words],
        cwd=folder,
        input=given,
        stdout=subprocess.PIPE if to is None else to,
        stderr=subprocess.PIPE,
        timeout=LONGEST,
        check=False,
    )
    assert b"Traceback" not in done.stderr, done.stderr.decode()
    return Told(done.returncode, done.stdout or b"", done.stderr.decode())


GIVEN, LAID_OUT = EASY.replace("\n", " ").encode(), EASY.encode()
FAULTY = b"BLOCK K; DECLARE; VARIABLE V WIDTH; SURVEY; PROGRAM; v = 1; END BLOCK;\n"
FAULTS = """E:1:35: UNEXPECTED: found ;, wanted a number
E:1:54: BADBYTE: v has small letters: words are in capital letters
plex-format: E stays as it is, with its faults; plex-check tells all
"""


def test_files_are_rewritten(tmp_path: pathlib.Path) -> None:
    """Files are rewritten, with their mode, through links; one in the layout is not touched."""
    for name in ("E", "F", "in order"):
        (tmp_path / name).write_bytes(LAID_OUT if name == "in order" else GIVEN)
    (tmp_path / "E").chmod(0o640)
    (tmp_path / "link").symlink_to("F")
    os.utime(tmp_path / "in order", (1, 1))
    assert call("E", "link", "in order", folder=tmp_path) == Told(0, b"", "")
    assert {path.read_bytes() for path in tmp_path.iterdir()} == {LAID_OUT}
    assert stat.S_IMODE((tmp_path / "E").stat().st_mode) == 0o640
    assert (tmp_path / "link").is_symlink() and (tmp_path / "in order").stat().st_mtime == 1
    assert len(list(tmp_path.iterdir())) == 4


def test_faults(tmp_path: pathlib.Path) -> None:
    """A text with faults is told of and not touched; the files beside it are rewritten."""
    (tmp_path / "E").write_bytes(FAULTY)
    (tmp_path / "F").write_bytes(GIVEN)
    for words in (["E", "F"], ["--check", "E"], ["--diff", "E"]):
        assert call(*words, folder=tmp_path) == Told(2, b"", FAULTS)
    assert (tmp_path / "E").read_bytes() == FAULTY
    assert (tmp_path / "F").read_bytes() == LAID_OUT
    got = call(folder=tmp_path, given=FAULTY)
    told = re.sub("^E:", "standard input:", FAULTS, flags=re.M)
    assert got == Told(2, b"", told.replace(": E ", ": standard input "))


def test_check_and_diff(tmp_path: pathlib.Path) -> None:
    """--check names the files with another layout, --diff tells the changes; none is rewritten."""
    patch = need_command("patch")
    given = {"E": GIVEN, "F": LAID_OUT, "G": GIVEN.replace(b";", b"; ! why\n")}
    harness.write_files(tmp_path, given)
    assert call("--check", *given, folder=tmp_path) == Told(1, b"E\nG\n", "")
    got = call("--diff", *given, folder=tmp_path)
    assert (got.status, got.complaint) == (1, "")
    assert call("--check", "--diff", *given, folder=tmp_path) == got
    assert call("--check", "F", folder=tmp_path) == Told(0, b"", "")
    assert call("--check", "-", folder=tmp_path, given=GIVEN) == Told(1, b"standard input\n", "")
    assert {name: (tmp_path / name).read_bytes() for name in given} == given
    subprocess.run([patch, "-s"], cwd=tmp_path, input=got.wrote, check=True, timeout=LONGEST)
    for name, data in given.items():
        assert (tmp_path / name).read_bytes() == layout.format_text(data).text


def test_standard_input(tmp_path: pathlib.Path) -> None:
    """Without a file, or for -, a text goes from the standard input to the standard output."""
    assert call(folder=tmp_path, given=GIVEN) == Told(0, LAID_OUT, "")
    assert call("-", folder=tmp_path, given=LAID_OUT) == Told(0, LAID_OUT, "")


def test_what_cannot_be(tmp_path: pathlib.Path) -> None:
    """Files that cannot be read, and wrong words, are told."""
    (tmp_path / "E").write_bytes(GIVEN)
    os.mkfifo(tmp_path / "pipe")
    for name, told in (
        ("none", "none could not be read: No such file or directory"),
        ("a\nb", '"a\\nb" could not be read: No such file or directory'),
        (".", ". is no file that can be rewritten"),
        ("pipe", "pipe is no file that can be rewritten"),
    ):
        assert call(name, folder=tmp_path) == Told(2, b"", f"plex-format: {told}\n")
    got = call("none", "E", folder=tmp_path)
    assert got.status == 2 and (tmp_path / "E").read_bytes() == LAID_OUT
    got = call("--chek", "E", folder=tmp_path)
    assert got.status == 2 and got.complaint.startswith("plex-format: unrecognized arguments")
    assert call("--version", folder=tmp_path) == Told(0, f"plex-format {VERSION}\n".encode(), "")
    assert call("--help", folder=tmp_path).wrote.startswith(b"usage: plex-format ")


def test_full_disk(tmp_path: pathlib.Path) -> None:
    """An output that cannot be written is told."""
    with open("/dev/full", "wb") as full:
        got = call(folder=tmp_path, given=GIVEN, to=full.fileno())
    told = "plex-format: the output could not be written: No space left on device\n"
    assert got == Told(2, b"", told)


@pytest.mark.parametrize("lost", ("!", "+", "K"))
def test_another_text_is_not_written(
    lost: str,
    tmp_path: pathlib.Path,
    monkeypatch: pytest.MonkeyPatch,
    capsys: pytest.CaptureFixture[str],
) -> None:
    """Where the layout would have lost a comment, a mark or a name, nothing is written."""
    data = EASY.replace("END", "A = B + K; ! why\nEND").encode()
    (tmp_path / "E").write_bytes(data)
    filled = layout.filled

    def losing(level: int, parts: Sequence[Union[str, layout.Comment]]) -> Iterator[layout.Line]:
        for line in filled(level, parts):
            yield layout.Line(line.text.replace(lost, ""), line.comment.replace(lost, ""))

    monkeypatch.setattr(layout, "filled", losing)
    assert command.attempted(str(tmp_path / "E"), False, False) == command.WRONG
    assert "it would become another text" in capsys.readouterr().err
    assert (tmp_path / "E").read_bytes() == data
