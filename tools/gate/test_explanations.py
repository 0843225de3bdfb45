"""The explanations of plex-check: each word that plex and plex-check tell of a file has one, its
wrong example gives that word first, by plex-check and by plex, and its right one gives none.
"""
import pathlib
import re
import subprocess
from typing import Dict, List, NamedTuple, Optional

import pytest

from gate import harness, sentence_tables
from plextools.commands import check
from plextools.text import change, explanations, warnings
from plextools.text.explanations import EXCHANGE, MADE, Explanation, Files

KNOWN = explanations.explanations()
LARGEST = 2**24
WIDEST, LONGEST = 80, 34
SOON = harness.WHILE  # seconds within which the shell ends
# The words that plex-check tells alone.
OWN = {*warnings.WARNINGS, *change.CHANGES, *change.NOTES}
CERTIFICATE = ("BADTEXT", "WRONGEXCHANGE", "STRANGE", "MISSING")
NAMES = ("signals.txt", "table.txt", "filter.txt")


class Answer(NamedTuple):
    """What plex writes first, and whether it took the files."""

    line: str
    is_accepted: bool


def documented() -> List[str]:
    """The words of the tables of docs/FORMATS.md."""
    tables = ("SOURCE", "SIGNALS", "TABLE", "FILTER", "CERTIFICATE", "CHANGE")
    return [row[0] for name in tables for row in sentence_tables.documented()[name]]


def write(folder: pathlib.Path, files: Files) -> None:
    for name, text in files.items():
        (folder / name).write_text(text)


def told(monkeypatch: pytest.MonkeyPatch, folder: pathlib.Path, files: Files) -> List[str]:
    """The words that plex-check tells of the files of an example, in their order."""
    write(folder, files)
    monkeypatch.chdir(folder)
    words = ["--short", EXCHANGE]
    if "new.plex" in files:
        words = ["--change", *words, "new.plex"]
    elif len(files) > 1:
        (folder / "none").write_text("")
        name = next(name for name in files if name != EXCHANGE)
        words += [name] if name == "signals.txt" else ["none", name]
    lines = [line for line in check.checked(words).lines if "none:" not in line]
    return [re.sub(r"^[^:]*:\d+:\d+: (\w+): .*\n", r"\1", line) for line in lines]


def answer(plex: pathlib.Path, folder: pathlib.Path, files: Files) -> Answer:
    """What plex says of the files of an example."""
    write(folder, {"none": "", **files})
    signals = "signals.txt" if "signals.txt" in files else "none"
    words = ["run", EXCHANGE, signals, "--jobs", "9"]
    if "new.plex" in files:
        words = ["change", EXCHANGE, signals, "new.plex", "1"]
    elif "table.txt" in files:
        words = ["timed", EXCHANGE, signals, "table.txt", "--jobs", "9"]
    elif "filter.txt" in files:
        words = ["trace", EXCHANGE, signals, "filter.txt", "--jobs", "9"]
    elif "certificate.txt" in files:
        words += ["--cert", "certificate.txt"]
        if files["certificate.txt"] == MADE:
            made = harness.answer(plex, ["certify", EXCHANGE], folder)
            (folder / "certificate.txt").write_bytes(made.wrote)
    got = harness.answer(plex, words, folder)
    line = got.wrote.decode().split("\n", 1)[0]
    return Answer(line, got.status in harness.SILENT)


def test_every_word_is_explained() -> None:
    """The words are those of the documents and of plex-check, each once."""
    wanted = [*documented(), *OWN]
    assert set(wanted) == set(KNOWN)


def test_every_word_that_can_be_switched_off_is_explained() -> None:
    """--no takes no word that --explain does not know."""
    assert set(check.TO_SWITCH_OFF) <= set(KNOWN)


@pytest.mark.parametrize("one", KNOWN.values(), ids=list(KNOWN))
def test_form(one: Explanation) -> None:
    """An explanation fits a terminal, and its section is in the documents."""
    lines = list(one.lines())
    assert all(len(line) <= WIDEST for line in lines)
    assert len(lines) <= LONGEST
    document, heading, *rest = one.section.split(", ")
    text = (harness.ROOT / "docs" / document).read_text()
    assert re.search(rf"^#+ {heading}$", text, re.M) or f"**{heading}.**" in text, one.section
    assert all(f"**{word}.**" in text for word in rest), one.section
    assert bool(one.wrong) == bool(one.right) == (one.word != "TOOLARGE")


@pytest.mark.parametrize("word", [word for word in KNOWN if word not in CERTIFICATE])
def test_by_plex_check(word: str, tmp_path: pathlib.Path, monkeypatch: pytest.MonkeyPatch) -> None:
    """plex-check tells the word first of the wrong example, and nothing of the right one; a change
    may have notes.
    """
    wrong, right = examples(KNOWN[word])
    assert told(monkeypatch, tmp_path, wrong)[:1] == [word]
    notes = set(change.NOTES) - {word} if "new.plex" in right else set()
    assert set(told(monkeypatch, tmp_path, right)) <= notes


@pytest.mark.parametrize("word", [word for word in KNOWN if word not in OWN])
def test_by_plex(word: str, plex: pathlib.Path, tmp_path: pathlib.Path) -> None:
    """plex tells the word of the wrong example, and runs the right one."""
    wrong, right = examples(KNOWN[word])
    line, is_accepted = answer(plex, tmp_path, wrong)
    assert word in line.split(" ") and not is_accepted
    assert answer(plex, tmp_path, right).is_accepted


@pytest.mark.parametrize("word", sorted(OWN))
def test_plex_takes_what_is_odd(word: str, plex: pathlib.Path, tmp_path: pathlib.Path) -> None:
    """plex takes both examples of a warning or a note."""
    for files in examples(KNOWN[word]):
        assert answer(plex, tmp_path, files).is_accepted


def examples(one: Explanation) -> List[Files]:
    """The wrong and the right example; of a file that is too large they are made here."""
    if one.wrong:
        return [one.wrong, one.right]
    frame = KNOWN["BADLINE"].right[EXCHANGE]
    return [{EXCHANGE: frame.ljust(size)} for size in (LARGEST + 1, LARGEST)]


def test_unknown_word() -> None:
    """A word that is not known is told, with one that is near."""
    with pytest.raises(check.Unusable, match="no word NOTINSURVY .* NOTINSURVEY is one"):
        check.checked(["--explain", "NOTINSURVY"])


@pytest.mark.parametrize("written", ["n6", "N6"])
def test_written(written: str) -> None:
    """A word may stand in small letters, and its examples in the text."""
    text = "".join(check.checked(["--explain", written]).lines)
    assert text.startswith("N6: ")
    parts: Dict[str, Optional[Files]] = {"Wrong:": KNOWN["N6"].wrong, "Right:": KNOWN["N6"].right}
    for head, files in parts.items():
        assert files
        lines = "".join(f"    {line}\n" for line in files[EXCHANGE].splitlines())
        assert f"\n{head}\n{lines}" in text


def test_completion() -> None:
    """Completion offers the words that --explain and --no take."""
    place = harness.ROOT / "tools" / "maintain" / "completions" / "plex-tools.bash"
    script = f". {place}; COMP_CWORD=2"
    for word in ("explain", "no"):
        script += f"; COMP_WORDS=(plex-check --{word} ''); _plex_check; echo ${{COMPREPLY[@]}}"
    done = subprocess.run(
        ["bash", "-c", script], capture_output=True, text=True, check=True, timeout=SOON
    )
    explained, switched = done.stdout.splitlines()
    assert explained.split() == list(KNOWN)
    assert switched.split() == list(check.TO_SWITCH_OFF)
