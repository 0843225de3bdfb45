"""plex-why [--all] [--json] E [I J | SIGNAL BLOCK SIGNAL BLOCK] | --diff [--json] E E2

Explains why jobs of two entries of the exchange text E conflict, with the statements that cause it:
for the entries I and J, given by their numbers in the analysis or by the names of signal and block,
or else for all pairs that never run in parallel. The first entry is that of the job that comes
first. --all lists all statements, not only the first few of each kind. --json writes a list of
objects for programs, one pair per line, with all statements. It needs plex-conflicts. --diff
compares the pairs of E with those of the exchange text E2: which can now run in parallel, and which
conflicts are gone, still there or new.
"""
from typing import Iterable, Iterator, List, Optional, Sequence

from plextools import limits, programs, tables
from plextools.commands.command_words import described
from plextools.analysis import pair_changes, why
from plextools.analysis.conflicts import Conflicts, Pair
from plextools.analysis.lines import Analysis
from plextools.show import pair_json

EVERYTHING = 10**9


def is_entry(word: str) -> bool:
    """Whether a word may be the number of an entry."""
    return word.isascii() and word.isdigit() and len(word) < 10 and int(word) < limits.MOST_ENTRIES


def asked(words: List[str]) -> Optional[Pair]:
    """The pair that two numbers name, about which alone the program is asked."""
    if len(words) == 2 and all(map(is_entry, words)):
        return int(words[0]), int(words[1])
    return None


def entry_of(analysis: Analysis, words: List[str]) -> int:
    """The number of the entry that a number or two names tell."""
    count = len(analysis.entries)
    if len(words) == 1:
        if is_entry(words[0]) and int(words[0]) < count:
            return int(words[0])
        there = f"they are 0 to {count - 1}"
    else:
        for entry in analysis.entries:
            if [entry.signal, entry.block] == words:
                return entry.number
        there = "there are " + ", ".join(entry.name for entry in analysis.entries[:8])
        there += ", .." if count > 8 else ""
    named = " ".join(map(tables.quoted, words))
    raise programs.Wrong(f"there is no entry {named}; {there if count else 'the text has none'}")


def pairs_of(analysis: Analysis, words: List[str]) -> Sequence[Pair]:
    """The pairs to tell of: the one that the words name, or all that never run together."""
    if words:
        half = len(words) // 2
        return [(entry_of(analysis, words[:half]), entry_of(analysis, words[half:]))]
    return [pair for pair in analysis.told if analysis.is_never(*pair)]


def as_text(exchange: why.Exchange, pairs: Iterable[Pair], shown: int) -> Iterator[str]:
    """The lines for these pairs, for a reader."""
    none = "no two jobs are kept apart for good"
    for i, j in pairs:
        none = ""
        yield from why.told(exchange, i, j, shown)
    if none:
        yield none


def as_json(exchange: why.Exchange, pairs: Sequence[Pair]) -> Iterator[str]:
    """The same for a program: a list with an object for each pair, on a line of its own."""
    yield "["
    for place, (i, j) in enumerate(pairs, 1):
        told = tables.as_json(pair_json.of_pair(exchange, i, j), is_short=True)
        yield told + ("," if place < len(pairs) else "")
    yield "]"


def differences(before: str, after: str, json: bool) -> Iterator[str]:
    """What has become of the pairs of a text in another one."""
    told = pair_changes.changes(Conflicts(before), Conflicts(after))
    yield from [tables.as_json(told)] if json else pair_changes.text_of(told)


def main() -> int:
    """Runs the command."""
    words = programs.Words(__doc__)
    words.add_argument("--diff", action="store_true")
    words.add_argument("--all", action="store_true")
    words.add_argument("--json", action="store_true")
    words.add_argument("exchange")
    words.add_argument("pair", nargs="*", default=[])
    given = described(words).parse_args()
    if given.diff:
        if len(given.pair) != 1 or given.all:
            words.error("--diff takes two exchange texts, and may have --json alone beside it")
        for line in differences(given.exchange, given.pair[0], given.json):
            print(line)
        return 0
    if len(given.pair) not in (0, 2, 4):
        words.error("a pair is two numbers of entries, or SIGNAL BLOCK SIGNAL BLOCK")
    exchange = why.Exchange(given.exchange, asked(given.pair))
    pairs = pairs_of(exchange.analysis, given.pair)
    exchange.look_at({entry for pair in pairs for entry in pair})
    shown = EVERYTHING if given.all else why.SHOWN
    for line in as_json(exchange, pairs) if given.json else as_text(exchange, pairs, shown):
        print(line)
    return 0
