"""What plex-check shows of faults beside a line for each: the long form, JSON, SARIF, colours.

Each folder of cases/diagnostics has a text, maybe other files, and `long.txt`, which is all that
--long writes of it. A folder with a file `mended` has one cure of each fault: where the cures are
made, one after the other, plex-check finds no fault any more.
"""
import importlib.util
import json
import os
import pathlib
import pty
import re
import subprocess
import sys
from typing import Any, Dict, List, Sequence, Set, Tuple

import jsonschema  # type: ignore[import]
import pytest
from attr import NOTHING

from gate import harness
from gate.checking import leave_out
from gate.test_broken_texts import TEXTS as BROKEN_TEXTS
from gate.test_sentences import TEXTS as SENTENCES
from plextools.commands import check
from plextools.text.finding import Severity
from plextools.text.findings import by_cause, of_exchange
from plextools.text.habits import habits
from plextools.text.retelling import retold
from plextools.text.tokens import Text
from plextools.text.warnings import Oddities

FOLDERS = sorted(path.parent for path in harness.CASES.glob("diagnostics/*/long.txt"))
SCHEMA = json.loads((harness.CASES / "sarif" / "schema.json").read_text())
CHECK = harness.ROOT / "tools" / "bin" / "plex-check"
NAMES = ("exchange.plex", "signals.txt", "table.txt", "filter.txt")
COLOUR = re.compile(r"\x1b\[[0-9;]*m")
LEAST, MOST_ROUNDS = 49, 12
ALL_FAULTS = harness.ROOT / "examples" / "guide" / "all_faults"

# The tables of other checks: texts with faults of all kinds.
TEXTS = [text.replace("@", "\n") for _, text in [*SENTENCES, *BROKEN_TEXTS]]
RIGHT = sorted(harness.ROOT.glob("examples/**/exchange.plex"))


def name_of(folder: pathlib.Path) -> str:
    """The name of a case."""
    return folder.name


def names(folder: pathlib.Path) -> List[str]:
    """The files of a case that are there."""
    return [name for name in NAMES if (folder / name).is_file()]


def written(monkeypatch: pytest.MonkeyPatch, folder: pathlib.Path, *words: str) -> str:
    """What plex-check writes of the files of a folder."""
    monkeypatch.chdir(folder)
    return "".join(check.checked([*words, *names(folder)]).lines)


def test_there_are_enough() -> None:
    """No folder was lost."""
    assert len(FOLDERS) >= LEAST


@pytest.mark.parametrize("folder", FOLDERS, ids=name_of)
def test_long_form(folder: pathlib.Path, monkeypatch: pytest.MonkeyPatch) -> None:
    """The long form is the one that is kept, and fits 80 columns."""
    told = written(monkeypatch, folder, "--long")
    assert told == (folder / "long.txt").read_text()
    assert all(len(line) <= 80 for line in told.splitlines())


@pytest.mark.parametrize("folder", FOLDERS, ids=name_of)
def test_first_fault(folder: pathlib.Path, monkeypatch: pytest.MonkeyPatch) -> None:
    """The first fault of the long form is the first of the short one, by place and word."""
    short = written(monkeypatch, folder, "--short").split("\n", 1)[0]
    record = json.loads(written(monkeypatch, folder, "--json").split("\n", 1)[0])
    file, line, column, word = short.split(":", 4)[:4]
    assert (record["file"], record["word"]) == (file, word.strip())
    assert (record["line"], record["column"]) == (int(line), int(column))


@pytest.mark.parametrize("folder", FOLDERS, ids=name_of)
def test_colours(folder: pathlib.Path, monkeypatch: pytest.MonkeyPatch) -> None:
    """Colours change no letter of the long form."""
    told = written(monkeypatch, folder, "--long", "--color=always")
    assert "\x1b[1;31merror[" in told or "\x1b[1;33mwarning[" in told
    assert COLOUR.sub("", told) == (folder / "long.txt").read_text()


@pytest.mark.parametrize("folder", FOLDERS, ids=name_of)
def test_sarif(folder: pathlib.Path, monkeypatch: pytest.MonkeyPatch) -> None:
    """The document is one of SARIF, with a result for each record of JSON."""
    document = json.loads(written(monkeypatch, folder, "--sarif"))
    jsonschema.validate(document, SCHEMA, cls=jsonschema.Draft7Validator)
    (run,) = document["runs"]
    records = [json.loads(line) for line in written(monkeypatch, folder, "--json").splitlines()]
    assert [result_of(run, one) for one in run["results"]] == [essence(one) for one in records]


def result_of(run: Dict[str, Any], result: Dict[str, Any]) -> Tuple[object, ...]:
    """The word, the weight, the sentence, the place, the other places and the cure of a result."""
    rule = run["tool"]["driver"]["rules"][result["ruleIndex"]]["id"]
    assert rule == result["ruleId"]
    (place,) = result["locations"]
    others = [place_of(one) for one in result.get("relatedLocations", [])]
    cures = [cure_of(one) for one in result.get("fixes", [])]
    return rule, result["level"], result["message"]["text"], place_of(place), others, cures


def place_of(location: Dict[str, Any]) -> Tuple[object, ...]:
    """What is said of a place, its file, and where it begins and ends."""
    place = location["physicalLocation"]
    told = location.get("message", {"text": ""})["text"]
    return (told, place["artifactLocation"]["uri"], *region_of(place["region"]))


def region_of(region: Dict[str, int]) -> Tuple[int, ...]:
    return region["startLine"], region["startColumn"], region["endLine"], region["endColumn"]


def cure_of(fix: Dict[str, Any]) -> Tuple[object, ...]:
    """A cure in words, its file, and each part with what is to stand there."""
    (change,) = fix["artifactChanges"]
    edits = [
        (*region_of(one["deletedRegion"]), one["insertedContent"]["text"])
        for one in change["replacements"]
    ]
    return fix["description"]["text"], change["artifactLocation"]["uri"], edits


def essence(record: Dict[str, Any]) -> Tuple[object, ...]:
    """The same of a record."""
    file, fix = record["file"], record["fix"]
    others = [("also here", file, *span_of(one)) for one in record["also"]]
    others += [(one["message"], one["file"], *span_of(one)) for one in record["notes"]]
    cures = []
    if fix and fix["edits"]:
        edits = [(*span_of(one), one["text"]) for one in fix["edits"]]
        cures.append((fix["message"], file, edits))
    place = ("", file, *span_of(record))
    return record["word"], record["severity"], record["message"], place, others, cures


def span_of(record: Dict[str, Any]) -> Tuple[int, ...]:
    end = record["end"]
    return record["line"], record["column"], end["line"], end["column"]


DEFINITIONS = {"sarifLog": SCHEMA, **SCHEMA["definitions"]}


@pytest.mark.parametrize("name", DEFINITIONS)
def test_schema(name: str) -> None:
    """The schema, which is a part of that of SARIF, has the properties of Debian's model of it: no
    other one, and all that must be there.
    """
    if importlib.util.find_spec("sarif_om") is None:
        leave_out("there is no python3-sarif-python-om")
    model = importlib.import_module("sarif_om")
    fields = getattr(model, name[0].upper() + name[1:]).__attrs_attrs__
    known = {field.metadata["schema_property_name"] for field in fields}
    needed = {one.metadata["schema_property_name"] for one in fields if one.default is NOTHING}
    assert DEFINITIONS[name]["additionalProperties"] is False
    assert set(DEFINITIONS[name]["properties"]) <= known
    assert needed <= set(DEFINITIONS[name]["required"])


def test_schema_is_used(monkeypatch: pytest.MonkeyPatch) -> None:
    """The schema has nothing that plex-check never writes."""
    found: Set[Tuple[str, str]] = set()
    for folder in FOLDERS:
        note_properties(json.loads(written(monkeypatch, folder, "--sarif")), "sarifLog", found)
    known = {(name, key) for name, one in DEFINITIONS.items() for key in one["properties"]}
    assert found == known


def note_properties(value: object, name: str, found: Set[Tuple[str, str]]) -> None:
    """Notes the properties of an object of the schema, and of those in it."""
    if isinstance(value, list):
        for one in value:
            note_properties(one, name, found)
    elif isinstance(value, dict):
        for key, one in value.items():
            found.add((name, key))
            told = DEFINITIONS[name]["properties"][key]
            inner = told.get("$ref") or told.get("items", {}).get("$ref", "")
            note_properties(one, inner.rpartition("/")[2], found)


@pytest.mark.parametrize(
    "folder",
    [folder for folder in FOLDERS if (folder / "mended").is_file()],
    ids=name_of,
)
def test_cures(
    plex: pathlib.Path,
    folder: pathlib.Path,
    tmp_path: pathlib.Path,
    monkeypatch: pytest.MonkeyPatch,
) -> None:
    """Where the first cure is made again and again, no fault is left, and plex takes the text."""
    for name in names(folder):
        (tmp_path / name).write_bytes((folder / name).read_bytes())
    for _ in range(MOST_ROUNDS):
        lines = written(monkeypatch, tmp_path, "--json").splitlines()
        records = [json.loads(line) for line in lines]
        first = next((one for one in records if one["severity"] == "error"), None)
        if first is None:
            break
        assert first["fix"] and first["fix"]["edits"], first
        mend(tmp_path / first["file"], first["fix"]["edits"])
    assert first is None, first
    assert (tmp_path / "exchange.plex").read_text() == (folder / "mended").read_text()
    (tmp_path / "none").write_text("")
    signals = "signals.txt" if (tmp_path / "signals.txt").is_file() else "none"
    words = ["run", "exchange.plex", signals, "--jobs", "9"]
    assert harness.answer(plex, words, tmp_path).status in harness.SILENT


def mend(path: pathlib.Path, edits: Sequence[Dict[str, Any]]) -> None:
    """Makes edits, whose columns count characters."""
    lines = path.read_text().split("\n")
    text = "\n".join(lines)

    def place(position: Dict[str, int]) -> int:
        before = sum(len(line) + 1 for line in lines[: position["line"] - 1])
        return before + position["column"] - 1

    placed = [(place(one), place(one["end"]), one["text"]) for one in edits]
    for start, end, added in sorted(placed, reverse=True):
        text = text[:start] + added + text[end:]
    path.write_text(text)


@pytest.mark.parametrize("number", range(0, len(TEXTS), 8))
def test_first_of_causes(number: int) -> None:
    """Where faults are told by their causes, the first one stays as plex tells it, and no text is
    without faults by that.
    """
    for text in TEXTS[number : number + 8]:
        checker = Oddities(Text(text.encode(), check.MOST))
        found = of_exchange(0, checker, checker.check(), checker.oddities(), True)
        told = by_cause(retold(text, check.MOST, 0, found))
        first = [(one.place, one.word) for one in found if one.severity is Severity.ERROR][:1]
        assert [(one.place, one.word) for one in told[:1] if first] == first, text


@pytest.mark.parametrize("path", RIGHT, ids=lambda path: str(path.parent.name))
def test_no_habit_in_right_texts(path: pathlib.Path) -> None:
    """A right text has no form of another language."""
    text = path.read_text()
    if not Oddities(Text(text.encode(), 1)).check():
        assert not habits(text)


def test_how_it_is_said_here(plex: pathlib.Path, tmp_path: pathlib.Path) -> None:
    """The forms of the table in docs/GUIDE.md, chapter 6, that are no cure of a case are right."""
    text = """SIGNAL TICK SINGLE BUFFERED B DATA 2;
BLOCK K; DECLARE; VARIABLE S WIDTH 1; VARIABLE B WIDTH 8 INIT 5; TEMPORARY P; TEMPORARY T;
FILE F SIZE 8; FIELD A WIDTH 16; SURVEY; RECEIVE TICK; PROGRAM; ENTER TICK WITH P, T;
L) IF B > 3 THEN B = B - 1; GOTO L; FI;
ON T FROM 0 UPTO 7 DO P = 7 - T; A(P) = B MOD 8; NO;
IF S <> 0 THEN S = 0; ELSE IF S = 1 AND B = 255 THEN S = 1; FI; FI; EXIT; END BLOCK;
"""
    (tmp_path / "E").write_text(text)
    (tmp_path / "S").write_text("AFTER 0 TICK K 1 2 NONE\n")
    checker = Oddities(Text(text.encode(), check.MOST))
    assert not checker.check() and not checker.oddities()
    got = harness.answer(plex, ["run", "E", "S"], tmp_path)
    assert got.wrote.startswith(b"JOBS 1\nVAR K.S 0\nVAR K.B 3\n") and b"RESTART" not in got.wrote


def test_no_habit_by_names() -> None:
    """Names that other languages have as words are names here."""
    words = (
        "ELSIF WHILE OD DOWNTO DELAY SYMBVAR NSYMB ARRAY RECORD POINTER STRUCTURE STRING DOCUMENT"
    )
    names = words.split()
    declared = " ".join(f"VARIABLE {name} WIDTH 8;" for name in names)
    used = " ".join(
        f"{name} = 1; IF A > {name} THEN A = {name}; FI; ON T FROM {name} UPTO {name} DO NO;"
        for name in names
    )
    text = f"BLOCK K; DECLARE; {declared} VARIABLE A WIDTH 8; TEMPORARY T; SURVEY; PROGRAM; {used}"
    text += " IF DELAY + WHILE = ELSIF - OD THEN GOTO POINTER2; FI; POINTER2) EXIT; END BLOCK;"
    assert not Oddities(Text(text.encode(), 1)).check()
    assert not habits(text)


def on_terminal(words: Sequence[str], folder: pathlib.Path, **variables: str) -> str:
    """What plex-check writes to a terminal."""
    ours, theirs = pty.openpty()
    environment = {key: value for key, value in os.environ.items() if key != "NO_COLOR"}
    environment.update({"TERM": "xterm", "COLUMNS": "80", **variables})
    with subprocess.Popen(
        [sys.executable, str(CHECK), *words], cwd=folder, env=environment, stdout=theirs
    ) as process, harness.ended_late(process):
        os.close(theirs)
        told = b""
        while True:
            try:
                some = os.read(ours, 65536)
            except OSError:
                break
            if not some:
                break
            told += some
        process.wait(harness.WHILE)
    os.close(ours)
    return told.decode().replace("\r\n", "\n")


def test_terminal(monkeypatch: pytest.MonkeyPatch) -> None:
    """A terminal gets the long form in colours; --short, NO_COLOR and TERM=dumb are heard."""
    files = ["desk.plex", "signals.txt"]
    monkeypatch.chdir(ALL_FAULTS)
    plain = "".join(check.checked(["--long", *files]).lines)
    told = on_terminal(files, ALL_FAULTS)
    assert "\x1b[" in told and COLOUR.sub("", told) == plain
    assert on_terminal(files, ALL_FAULTS, NO_COLOR="1") == plain
    assert on_terminal(files, ALL_FAULTS, TERM="dumb") == plain
    assert on_terminal(["--color=never", *files], ALL_FAULTS) == plain
    short = (ALL_FAULTS / "report.txt").read_text()
    assert on_terminal(["--short", *files], ALL_FAULTS) == short
    assert on_terminal(files, ALL_FAULTS, INSIDE_EMACS="29.1,compile") == short


@pytest.mark.parametrize("columns", [1, 40, 57, 200])
def test_narrow(columns: int) -> None:
    """Lines are at most as wide as the terminal, or 40 columns, but for names of files."""
    told = on_terminal(
        ["--color=never", "desk.plex", "signals.txt"], ALL_FAULTS, COLUMNS=str(columns)
    )
    wide = [line for line in told.splitlines() if len(line) > max(columns, 40)]
    assert not wide


def test_strange_bytes(tmp_path: pathlib.Path, monkeypatch: pytest.MonkeyPatch) -> None:
    """Nothing that would steer a terminal comes from a text, and all forms are whole."""
    (tmp_path / "exchange.plex").write_bytes(bytes(range(256)) * 3 + b"\xe6\xbc\xa2\tV = \x1b[31m;")
    told = written(monkeypatch, tmp_path, "--long")
    assert not set(told) & {chr(code) for code in range(32) if chr(code) != "\n"}
    for line in written(monkeypatch, tmp_path, "--json").splitlines():
        json.loads(line)
    document = json.loads(written(monkeypatch, tmp_path, "--sarif"))
    jsonschema.validate(document, SCHEMA, cls=jsonschema.Draft7Validator)


def test_whole_file(tmp_path: pathlib.Path, monkeypatch: pytest.MonkeyPatch) -> None:
    """A file that is too large is told without a line, in each form."""
    (tmp_path / "exchange.plex").write_bytes(b" " * (2**24 + 1))
    assert "error[TOOLARGE]" in written(monkeypatch, tmp_path, "--long")
    assert json.loads(written(monkeypatch, tmp_path, "--json"))["line"] == 0
    document = json.loads(written(monkeypatch, tmp_path, "--sarif"))
    jsonschema.validate(document, SCHEMA, cls=jsonschema.Draft7Validator)


def test_nothing_to_tell(monkeypatch: pytest.MonkeyPatch) -> None:
    """A right text has an empty report, and a document of SARIF without results."""
    folder = harness.ROOT / "examples" / "guide" / "porting"
    monkeypatch.chdir(folder)
    for form in ("--long", "--short", "--json"):
        assert check.checked([form, "exchange.plex", "signals.txt"]).lines == []
    document = json.loads("".join(check.checked(["--sarif", "exchange.plex"]).lines))
    jsonschema.validate(document, SCHEMA, cls=jsonschema.Draft7Validator)
    assert document["runs"][0]["results"] == []
