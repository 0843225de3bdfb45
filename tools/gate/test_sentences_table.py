"""What plex says of faults on the standard error, beside docs/FORMATS.md, without running it.

The tables of the document have the words and the sentences of crates/process_ends/src/sentences.rt,
in the same order; there is a sentence for each word that the program writes; and the document, the
manual pages and the folder of VS Code name the version of the programs.
"""
from __future__ import annotations

import re

import pytest

from gate import harness, sentence_tables
from gate.checking import check, check_enough

ROOT = sentence_tables.ROOT
CRATES = ROOT / "crates"
NUMBERS = CRATES / "text_rules" / "src" / "rule.rt"
# The files that name the version of the programs, each with the words in which it does.
VERSIONS = (
    ("docs/FORMATS.md", "`plex {}`"),
    ("docs/FORMATS.md", "`plex-merge {}`"),
    ("docs/FORMATS.md", "`plex-conflicts {}`"),
    ("docs/plex.1", "plex {}.\n"),
    ("docs/plex-merge.1", "plex-merge {} .\n"),
    ("docs/plex-conflicts.1", "plex-conflicts {} .\n"),
    ("editors/vscode/package.json", '"version": "{}",\n'),
)
LEAST_SENTENCES, LEAST_WORDS = 59, 54

# The functions of the program that have the words of each table, behind the file in which they
# stand.
WRITERS = {
    "SOURCE": ("refusal_lines/src/stops.rt", "add_rule", "link_word"),
    "SIGNALS": ("signal_file/src/fault.rt", "word"),
    "TABLE": ("job_table/src/fault.rt", "word"),
    "FILTER": ("signal_trace/src/fault.rt", "word"),
    "CERTIFICATE": ("refusal_lines/src/stops.rt", "certificate_line", "other_exchange_line"),
}
WORD = re.compile(r'b"(?:CERTIFICATE )?([A-Z]+) ?"')


def body_of(text: str, function: str) -> str:
    """The text of a function, up to the next one."""
    start = text.index(f"fn {function}(")
    end = text.find("\n}\n", start)
    return text[start:end]


def words_written(table: str) -> set[str]:
    """The words that the program writes behind the first word of the table's lines."""
    file, *functions = WRITERS[table]
    text = (CRATES / file).read_text()
    words = {word for function in functions for word in WORD.findall(body_of(text, function))} - {
        "N",
        "AND",
    }
    if table == "SOURCE":
        words |= {f"N{number}" for number in numbers_of_rules()}
    return words


def numbers_of_rules() -> set[int]:
    """The numbers of the rules of a text, which the program writes behind an N."""
    return {int(number) for number in re.findall(r"=> (\d+),", NUMBERS.read_text())}


def told_of(table: str) -> set[str]:
    """The words for which the program has a sentence, in lines that begin with the word of this
    table.
    """
    rows = sentence_tables.compiled()[table]
    more = sentence_tables.compiled()["SIGNALS"] if table in ("TABLE", "FILTER") else []
    return {row[0] for row in [*rows, *more]}


@pytest.mark.parametrize("table", sentence_tables.TABLES)
def test_table(table: str) -> None:
    """A table of the program is that of the document."""
    ours = sentence_tables.compiled().get(table, [])
    theirs = sentence_tables.documented()[table]
    assert list(ours) == list(theirs), "the program and docs/FORMATS.md differ"


@pytest.mark.parametrize("table", WRITERS)
def test_each_word_has_a_sentence(table: str) -> None:
    """There is a sentence for each word that the program writes."""
    missing = sorted(words_written(table) - told_of(table))
    check(*(f"the program has no sentence for {word}" for word in missing))


@pytest.mark.parametrize(("name", "form"), VERSIONS)
def test_version(name: str, form: str) -> None:
    """A file names the version of the programs."""
    wanted = form.format(harness.version())
    has = wanted in (ROOT / name).read_text()
    check(None if has else f"{name} does not have {wanted.strip()}, the version of the programs")


def test_all_sentences_are_there() -> None:
    """No sentence and no word is lost."""
    check_enough("sentences", sum(map(len, sentence_tables.compiled().values())), LEAST_SENTENCES)
    words = sum(len(words_written(name)) for name in WRITERS)
    check_enough("words that are written", words, LEAST_WORDS)
