"""The numbers of the documents that stand in several places, or that change with the sources.

Each is counted in one place, below, and each sentence that has such numbers is listed: between the
words of a sentence any blanks may stand. `written()` puts the numbers into a document, and
`wrong()` tells which sentences are missing or have other ones. For tools/maintain/guide.
"""
import ast
import functools
import pathlib
import re
import sys
from typing import Dict, Iterator, List, NamedTuple

TOOLS = pathlib.Path(__file__).resolve().parent.parent
sys.path[:0] = [str(TOOLS), str(TOOLS / "python")]
from maintain import counted_runs, crate_list, wrong_bodies  # noqa: E402
from plextools import limits  # noqa: E402

ROOT = TOOLS.parent
CASES = TOOLS / "gate" / "cases"
OTHER_COMMANDS = "table", "new_exchange", "filter"  # files that a case of another command has


class Sentence(NamedTuple):
    """A sentence of a document, in which names of numbers stand in braces."""

    document: str
    words: str


SENTENCES = [
    Sentence("docs/CRATES.md", "{crates turned} of the {crates} also have wrong bodies"),
    Sentence("docs/CRATES.md", "the machine of {instructions} instructions"),
    Sentence(
        "docs/ARCHITECTURE.md", "runs {programs} programs whose reports were computed by hand"
    ),
    Sentence("docs/ARCHITECTURE.md", "{analyses} analyses computed by hand"),
    Sentence("docs/CLAIMS.md", "refuse {wrong bodies} wrong bodies, of {crates turned} crates."),
    Sentence("docs/CLAIMS.md", "What the program writes for {programs run} small programs"),
    Sentence("docs/CLAIMS.md", "and for {programs of others} more by `timed`, `trace`"),
    Sentence("docs/CLAIMS.md", "for {no sentences} texts that are no sentences"),
    Sentence("docs/CLAIMS.md", "and {broken texts} that break a rule,"),
    Sentence("docs/CLAIMS.md", "`tools/gate/test_fuzz.py`; {random runs} of them in the gate"),
    Sentence("docs/CLAIMS.md", "`tools/gate/test_compare_runs.py`; {compared runs} exchanges"),
    Sentence("docs/CLAIMS.md", "`tools/gate/test_compare_texts.py`; {random texts} in the gate"),
    Sentence("docs/CLAIMS.md", "`tools/gate/test_compare_checks.py`; {checked texts} texts"),
    Sentence("docs/CLAIMS.md", "`tools/gate/test_compare_conflicts.py`; {conflicts} exchanges"),
    Sentence("docs/CLAIMS.md", "`tools/gate/test_hostile.py`, {hostile} cases, gate"),
    Sentence("docs/LANGUAGE.md", "These {keywords} words, numbered from 0 in this order"),
    Sentence("docs/LANGUAGE.md", "A text is a list of at most {bytes} bytes."),
    Sentence("docs/LANGUAGE.md", "A word of at most {letters} bytes that is a keyword"),
    Sentence("docs/LANGUAGE.md", "SIZE is 1 to {records}."),
    Sentence("docs/LANGUAGE.md", "**N5.** A block has at most {temporaries} temporaries"),
    Sentence("docs/LANGUAGE.md", "at most {signals} signals, answers among them; {blocks} blocks;"),
    Sentence("docs/LANGUAGE.md", "{entries} entries, which are ENTERs of buffered signals;"),
    Sentence("docs/LANGUAGE.md", "{statements} statements, ENTERs and ends of text among them;"),
    Sentence("docs/LANGUAGE.md", "Brackets `( expr )` nest at most {brackets} deep."),
    Sentence("docs/LANGUAGE.md", "Statements that hold statements nest at most {nested} deep."),
    Sentence(
        "docs/LANGUAGE.md",
        "that is no RETRIEVE. A block has at most {temporaries} temporaries.",
    ),
    Sentence("docs/LANGUAGE.md", "A file has 1 to {records} records"),
    Sentence("docs/LANGUAGE.md", "the mark of the record. There are at most {cells}."),
    Sentence("docs/LANGUAGE.md", "Labels have none. There are at most {statements}."),
    Sentence("docs/MACHINE.md", "The **budget** of a job is {counted}."),
    Sentence(
        "docs/MACHINE.md",
        "STMT p` | the current point is p, the count rises by one; BUDGET above {counted}",
    ),
    Sentence("docs/MACHINE.md", "The outbox holds {sent} signals"),
    Sentence("docs/MACHINE.md", "It has {held} records at most."),
    Sentence("docs/FORMATS.md", "`--workers N`: at most N jobs run at once. N is 1 to {workers}"),
    Sentence("docs/FORMATS.md", "at the latest. N is 1 to {jobs}, and {usual jobs} without"),
    Sentence("docs/FORMATS.md", "| bytes of the exchange text, of that of E2 | {bytes} |"),
    Sentence("docs/FORMATS.md", "| bytes of the signal file | {bytes} |"),
    Sentence("docs/FORMATS.md", "| bytes of the table, of the filter | {bytes} |"),
    Sentence("docs/FORMATS.md", "where the table has any | {periodic signals} |"),
    Sentence("docs/FORMATS.md", "nested brackets, nested statements | {brackets}, {nested} |"),
    Sentence("docs/FORMATS.md", "| values of a signal | {values} |"),
    Sentence("docs/FORMATS.md", "| bits of a variable or a field | {width} |"),
    Sentence("docs/FORMATS.md", "| records of a file | {records} |"),
    Sentence("docs/FORMATS.md", "| temporaries of a block | {temporaries} |"),
    Sentence("docs/FORMATS.md", "| operands of a statement | {operands} |"),
    Sentence("docs/FORMATS.md", "| signals, answers among them | {signals} |"),
    Sentence("docs/FORMATS.md", "| blocks | {blocks} |"),
    Sentence("docs/FORMATS.md", "| entries | {entries} |"),
    Sentence("docs/FORMATS.md", "ENTERs and ends of text among them | {statements} |"),
    Sentence("docs/FORMATS.md", "| cells, marks among them | {cells} |"),
    Sentence("docs/FORMATS.md", "| statements that a job counts | {counted} |"),
    Sentence("docs/FORMATS.md", "outside signals that a job sends | {sent} |"),
    Sentence("docs/FORMATS.md", "| callers of a job that wait | {callers} |"),
    Sentence("docs/FORMATS.md", "| records of a chain | {held} |"),
    Sentence("docs/FORMATS.md", "| restarts of a run | {restarts} |"),
    Sentence("docs/FORMATS.md", "| `--jobs`: {usual jobs} if it is not given, {jobs} at most |"),
    Sentence("docs/ANALYSIS.md", "an exchange has {statements} statements at most"),
    Sentence("docs/CLAIMS.md", "all of it up to {bytes of conflicts} bytes"),
    Sentence("docs/CLAIMS.md", "takes 2 MB, a text of {statements} statements"),
    Sentence("docs/DECISIONS.md", "{unrolled}, each command that runs jobs"),
    Sentence("docs/DECISIONS.md", "{looks of a pair}, a verdict is computed"),
    Sentence("docs/DECISIONS.md", "than {looks of a fact} for each least fact"),
    Sentence("docs/MACHINE.md", "counted as the {past the budget}st is the fault BUDGET"),
    Sentence("docs/MACHINE.md", "| 10 | BUDGET | the {past the budget}st counted statement |"),
    Sentence("docs/PERFORMANCE.md", "since it has at most {statements} statements"),
    Sentence("docs/PERFORMANCE.md", "more than {unrolled} instructions for FREE"),
    Sentence(
        "docs/PERFORMANCE.md",
        "{long with few} instructions in the mean with {usual workers} workers, "
        "{long with most} with {workers}; the former are some {long job} statements.",
    ),
    Sentence(
        "docs/THREADS.md", "{long with few} with four workers, {long with most} with {workers}"
    ),
    Sentence("docs/THREADS.md", "{first looks} looks at first"),
    Sentence("docs/plex-conflicts.1", "would be more than {bytes of conflicts} bytes"),
    Sentence("docs/plex-load.1", "{long job} statements or more with four"),
    Sentence(
        "docs/guide/06-porting-an-exchange.md", "| yes, up to {counted} statements in a job |"
    ),
    Sentence("docs/guide/06-porting-an-exchange.md", "the limit of {counted} statements for a job"),
    Sentence("docs/guide/06-porting-an-exchange.md", "The old text has {lines before} lines"),
    Sentence("docs/guide/06-porting-an-exchange.md", "and the ported one {lines after}, ["),
    Sentence("docs/guide/06-porting-an-exchange.md", "A job of more than {counted} statements"),
    Sentence("docs/guide/11-a-switch-from-nothing.md", "at least {statements of a scan}."),
    Sentence(
        "docs/guide/11-a-switch-from-nothing.md", "{statements of a tick} statements a second"
    ),
    Sentence(
        "docs/guide/13-periodic-jobs-and-a-time-out.md",
        "Of the {jobs that poll} jobs of this run {polls} are LOOKs.",
    ),
    Sentence("docs/guide/17-which-change-pays.md", "{long job} statements or more, since the"),
    Sentence(
        "docs/guide/18-all-faults-at-once-and-what-is-odd.md",
        "of at most {mebibytes of warnings} MiB",
    ),
    Sentence(
        "docs/guide/18-all-faults-at-once-and-what-is-odd.md", "A text of {statements} statements"
    ),
    Sentence(
        "docs/guide/06-porting-an-exchange.md", "at most {letters} bytes. The {keywords} keywords"
    ),
    Sentence(
        "docs/guide/18-all-faults-at-once-and-what-is-odd.md", "These {keywords} words are never"
    ),
]
# Where crates without wrong bodies are named: a document, and the words around their names.
WITHOUT = [
    ("docs/DECISIONS.md", "`plex_parser`,", "are expensive too and have none"),
    ("docs/CLAUSES.md", "**Another law.**", "are definitions and laws without a body too"),
]
NAMES = re.compile(r'\bb"[A-Z]+" \d+')  # a row of a table of names in the crate name_tables
NAMED = re.compile(r"\{([a-z ]+)\}")
NUMBER = r"(\d+(?:,\d{3})*)"


def names_in(table: str) -> int:
    """How many names a table of the crate name_tables has."""
    text = (ROOT / "crates" / "name_tables" / "src" / "tables.rt").read_text(encoding="utf-8")
    return len(NAMES.findall(text.split(f"pub fn {table}", 1)[1].split("pub fn ", 1)[0]))


def number_of(node: ast.expr) -> int:
    """A number of a text in Python, which may be a power."""
    if isinstance(node, ast.BinOp) and isinstance(node.op, ast.Pow):
        return int(number_of(node.left) ** number_of(node.right))
    return int(ast.literal_eval(node))


def constant(module: str, name: str) -> int:
    """A number that a file of the tools names at its top."""
    tree = ast.parse((TOOLS / f"{module}.py").read_text(encoding="utf-8"))
    for node in tree.body:
        if isinstance(node, ast.Assign):
            target, value = node.targets[0], node.value
            names = target.elts if isinstance(target, ast.Tuple) else [target]
            values = value.elts if isinstance(value, ast.Tuple) else [value]
            for one, number in zip(names, values):
                if isinstance(one, ast.Name) and one.id == name:
                    return number_of(number)
    raise KeyError(f"{module}: {name}")


def constant_of_crate(source: str, name: str) -> int:
    """A number that a source of a crate names."""
    text = (ROOT / "crates" / source).read_text(encoding="utf-8")
    found = re.search(rf"\bconst {name}: \w+ = ([\d_]+);", text)
    if not found:
        raise KeyError(f"{source}: {name}")
    return int(found[1])


def lines_of(example: str) -> int:
    """How many lines a file of the examples has."""
    return (ROOT / "examples" / example).read_text(encoding="utf-8").count("\n")


def of_sources() -> Dict[str, int]:
    """The numbers that crates and tools name, and those that follow from them."""
    found = {
        "no sentences": constant("gate/test_sentences", "LEAST"),
        "broken texts": constant("gate/test_broken_texts", "LEAST"),
        "random runs": constant("gate/test_fuzz", "GATE"),
        "compared runs": constant("gate/test_compare_runs", "GATE"),
        "random texts": constant("gate/test_compare_texts", "GATE"),
        "checked texts": constant("gate/test_compare_checks", "GATE"),
        "conflicts": constant("gate/test_compare_conflicts", "GATE"),
        "hostile": constant("gate/test_hostile", "LEAST"),
        "bytes of conflicts": constant_of_crate("conflicts_meaning/src/rows.rt", "MOST_TOLD"),
        "first looks": constant_of_crate("offload_policy/src/analysing.rt", "FIRST_LOOKS"),
        "looks of a fact": constant_of_crate("least_facts/src/looks.rt", "LOOKS_OF_FACT"),
        "looks of a pair": constant_of_crate("interference_check/src/table.rt", "MOST_LOOKS"),
        "unrolled": constant_of_crate("run_answers/src/shortness.rt", "MOST_UNROLLED"),
        "long job": limits.LONG_JOB,
        "past the budget": limits.MOST_COUNTED + 1,
        "periodic signals": limits.MOST_PERIODIC_SIGNALS,
        "usual jobs": limits.USUAL_JOBS,
        "usual workers": limits.USUAL_WORKERS,
    }
    looked_at = constant("python/plextools/text/warnings", "MOST_LOOKED_AT")
    found["mebibytes of warnings"] = looked_at // 2**20
    for name, workers in (("few", limits.USUAL_WORKERS), ("most", limits.MOST_WORKERS)):
        found[f"long with {name}"] = limits.LEAST_LENGTH + limits.LENGTH_ALONE // workers
    for name, value in vars(limits).items():
        if name.startswith("MOST_") and isinstance(value, int):
            found.setdefault(name[len("MOST_") :].lower(), value)
    return found


@functools.lru_cache(maxsize=None)
def numbers() -> Dict[str, int]:
    """Each number by its name."""
    edits = sorted((ROOT / "crates").glob("*/must-fail/*.edit"))
    kinds = [
        any((case / name).exists() for name in OTHER_COMMANDS)
        for case in (CASES / "conformance").iterdir()
    ]
    found = {
        "crates": len(crate_list.listed()),
        "crates turned": len({path.parent for path in edits}),
        "wrong bodies": sum(len(wrong_bodies.read(path).bodies) for path in edits),
        "instructions": names_in("operations"),
        "keywords": names_in("keywords"),
        "programs": len(kinds),
        "programs run": kinds.count(False),
        "programs of others": kinds.count(True),
        "analyses": len([*(CASES / "analysis").iterdir()]),
        "lines before": lines_of("guide/port_before/old.plex"),
        "lines after": lines_of("guide/port/exchange.plex"),
    }
    return {**of_sources(), **found, **counted_runs.numbers()}


def pattern(words: str) -> "re.Pattern[str]":
    """A sentence with groups for its numbers, and any blanks between its words."""
    parts = NAMED.split(words)[::2]
    return re.compile(NUMBER.join(re.escape(part).replace(r"\ ", r"\s+") for part in parts))


def with_numbers(text: str, words: str) -> str:
    """A document with the right numbers in a sentence."""
    names = NAMED.findall(words)

    def right(found: "re.Match[str]") -> str:
        whole, start = found[0], found.start()
        for place, name in reversed([*enumerate(names, 1)]):
            begin, end = (at - start for at in found.span(place))
            whole = f"{whole[:begin]}{numbers()[name]:,}{whole[end:]}"
        return whole

    return pattern(words).sub(right, text)


def written(document: str, text: str) -> str:
    """The text of a document, with the right numbers in all its sentences."""
    for sentence in SENTENCES:
        if sentence.document == document:
            text = with_numbers(text, sentence.words)
    return text


def wrong() -> Iterator[str]:
    """The sentences that do not stand once in their documents, and those with other numbers."""
    for document, words in SENTENCES:
        text = (ROOT / document).read_text(encoding="utf-8")
        times = len(pattern(words).findall(text))
        if times != 1:
            yield f"{document}: the sentence {words!r} stands there {times} times"
        elif with_numbers(text, words) != text:
            yield f"{document}: another number in {words!r}"


def turned() -> Iterator[str]:
    """The crates that are named as ones without wrong bodies, and have some."""
    for document, begin, end in WITHOUT:
        text = " ".join((ROOT / document).read_text(encoding="utf-8").split())
        _, _, behind = text.partition(begin)
        part, found, _ = behind.partition(end)
        if not found:
            yield f"{document}: no sentence {begin} .. {end}"
        for crate in re.findall(r"`(\w+)`", begin + part):
            if (ROOT / "crates" / crate / "must-fail").is_dir():
                yield f"{document}: {crate} has wrong bodies"


def documents() -> List[pathlib.Path]:
    """The documents that have such numbers."""
    return [ROOT / name for name in sorted({sentence.document for sentence in SENTENCES})]
