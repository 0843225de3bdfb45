"""The form of the crates' sources: lengths of lines and files, parameters, clauses of a contract.

What `rt fmt` lays out itself is not counted: an attribute stands on one line, however long. What is
over a bound today stands in a table here; a row that is not needed any more is a failure, so that
the tables can only become shorter.
"""
import pathlib
import re
from typing import Iterator, NamedTuple

CRATES = pathlib.Path(__file__).resolve().parents[2] / "crates"
MOST_COLUMNS = 100
MOST_PROOF_COLUMNS = 160
MOST_LINES = 800
MOST_PARAMETERS = 7
MOST_CLAUSES = 8

# Files with lines over the bound, and how many: a text that the program writes, and what the
# formatter joins.
LONG_LINES = {
    "answer_meaning/specs/Text.antt": 1,
    "command_answers/src/usage.rt": 1,
    "entry_summary/src/summary.rt": 2,
    "forlopp_chain/src/held.rt": 1,
    "job_run/src/make.rt": 1,
    "listing/src/rows.rt": 1,
    "process_ends/src/sentences.rt": 2,
    "rule_checks/src/amounts.rt": 1,
}

# Functions with more parameters than the bound, and how many.
MANY_PARAMETERS = {
    "access_summary/src/least.rt by_learned": 8,
    "access_summary/src/least.rt summarise": 8,
    "access_summary/src/summary.rt summary_within": 8,
    "code_gen/src/records.rt for_first": 10,
    "code_gen/src/records.rt push_search": 8,
    "code_gen/src/signals.rt send": 8,
    "fact_flows/src/flows.rt push_flow_to": 9,
    "flow_table/src/giving.rt push_flow": 8,
    "flow_table/src/giving.rt push_given": 8,
    "interleave_core/src/interleaving.rt run_events": 9,
    "register_machine/src/advance.rt go_on": 8,
    "register_machine/src/by_form.rt by_form": 9,
    "source_interpreter/src/records.rt go_to_first": 8,
    "start_permit/src/granting.rt push_freed": 8,
    "start_permit/src/granting.rt push_own": 9,
}

# Functions whose contract has more clauses than the bound, and how many. A law about definitions is
# not counted: it has a clause for each of its parts.
MANY_CLAUSES = {
    "job_run/src/run/row.rt act": 12,
    "machine_step/src/machine.rt step": 10,
    "machine_step/src/table.rt make_any": 11,
}

FUNCTION = re.compile(r"^ *(?:pub(?:\([a-z]+\))? )?fn (\w+)", re.MULTILINE)
CLAUSE = re.compile(r"^\s+(?:requires|ensures)\b", re.MULTILINE)
OPENING, CLOSING = "(<[{", ")>]}"


class Function(NamedTuple):
    """A function of a source: its name, how many parameters it has, and how many clauses."""

    name: str
    parameters: int
    clauses: int


def sources(kind: str) -> Iterator[tuple[str, str]]:
    """The path below crates/ and the text of each source in the folders of this kind."""
    for path in sorted(CRATES.glob(f"*/{kind}/**/*")):
        if path.suffix in (".rt", ".antt"):
            yield path.relative_to(CRATES).as_posix(), path.read_text(encoding="utf-8")


def is_attribute(line: str) -> bool:
    """Whether the formatter keeps the line in one."""
    return line.lstrip().startswith("#[")


def long_lines(kind: str, most: int) -> dict[str, int]:
    """How many lines of each file have more columns than this."""
    counts = {}
    for path, text in sources(kind):
        long = [line for line in text.split("\n") if len(line) > most and not is_attribute(line)]
        if long:
            counts[path] = len(long)
    return counts


def closing(text: str, start: int) -> int:
    """The place of the bracket that closes the one at the place; `->` closes none."""
    depth = 0
    for place in range(start, len(text)):
        if text[place] in OPENING:
            depth += 1
        elif text[place] in CLOSING and text[place - 1 : place + 1] != "->":
            depth -= 1
            if depth == 0:
                return place
    raise AssertionError("a bracket is not closed")


def parts_of(text: str) -> int:
    """How many parts of a list stand between its commas outside of brackets."""
    depth, parts, here = 0, 0, ""
    for place, letter in enumerate(text):
        if letter in OPENING:
            depth += 1
        elif letter in CLOSING and text[place - 1 : place + 1] != "->":
            depth -= 1
        if letter == "," and depth == 0:
            parts, here = parts + 1, ""
        else:
            here += letter
    return parts + bool(here.strip())


def functions(text: str) -> Iterator[Function]:
    """The functions of a source."""
    for match in FUNCTION.finditer(text):
        place = match.end()
        if text[place] == "<":
            place = closing(text, place) + 1
        end = closing(text, place)
        body = re.compile(r"\{$|;$", re.MULTILINE).search(text, end)
        head = text[end : body.start() if body else len(text)]
        parameters = parts_of(text[place + 1 : end])
        yield Function(match[1], parameters, len(CLAUSE.findall(head)))


def counted(most: int, field: str) -> dict[str, int]:
    """How much each function has of a thing, where it is more than this."""
    return {
        f"{path} {function.name}": getattr(function, field)
        for path, text in sources("src")
        for function in functions(text)
        if getattr(function, field) > most
    }


def test_lines_of_code_and_definitions() -> None:
    found = long_lines("src", MOST_COLUMNS) | long_lines("specs", MOST_COLUMNS)
    assert found == LONG_LINES


def test_lines_of_proofs() -> None:
    assert long_lines("proofs", MOST_PROOF_COLUMNS) == {}


def test_lengths_of_files() -> None:
    lengths = {
        path: text.count("\n")
        for kind in ("src", "specs", "proofs")
        for path, text in sources(kind)
    }
    assert lengths
    assert {path: lines for path, lines in lengths.items() if lines > MOST_LINES} == {}


def test_parameters() -> None:
    assert counted(MOST_PARAMETERS, "parameters") == MANY_PARAMETERS


def test_clauses() -> None:
    found = counted(MOST_CLAUSES, "clauses")
    calls = {name: count for name, count in found.items() if "/laws.rt " not in name}
    assert calls == MANY_CLAUSES


def test_a_function_is_taken_apart() -> None:
    text = "pub fn f<A: B<C>, D>(a: &[A], (b, c): (A, D), d: fn(A) -> D) -> A\n"
    text += "    requires x { y }\n    ensures { z }\n{\n}\n"
    assert list(functions(text)) == [Function("f", 3, 2)]
