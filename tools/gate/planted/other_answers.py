"""The answers of plex-merge and plex-conflicts that are altered, each with the check that must tell
it.
"""
from gate.planted import calls
from gate.planted.calls import Answer
from gate.planted.rows import conflicts, merger
from gate.planted.special import (
    is_line,
    of_all_pairs,
    with_narrow_variables,
    with_one_side,
)

OF_MERGER = [
    merger(
        "merge_fails_well",
        "the status of a failed write is 0",
        "hostile",
        calls.status_becomes((7,), 0),
        "-k",
        "test_plex_merge",
    ),
    merger(
        "merge_says_nothing",
        "nothing on the standard error",
        "hostile",
        calls.complained(rb"(?s).+", b""),
        "-k",
        "test_plex_merge",
    ),
    merger(
        "merge_unread_as_refused",
        "the status 6 becomes 2",
        "hostile",
        calls.status_becomes((6,), 2),
        "-k",
        "test_plex_merge",
    ),
    merger(
        "merge_other_word",
        "BADLINE is told as WRONGDATA",
        "hostile",
        calls.replaced(rb" BADLINE$", b" WRONGDATA"),
        "-k",
        "test_plex_merge",
    ),
    merger(
        "merge_memory_as_refused",
        "the status 8 becomes 2",
        "hostile",
        calls.status_becomes((8,), 2),
        "-k",
        "test_plex_merge and memory",
    ),
    merger(
        "merge_too_large",
        "a file that is too large is merged",
        "hostile",
        calls.only_if(is_line(rb"\S+ line 0 TOOLARGE$"), lambda *_: Answer(0, b"", b"")),
        "-k",
        "test_plex_merge and 16777217",
    ),
    merger(
        "merged_lines_swapped",
        "two neighbouring lines change places",
        "fuzz",
        calls.swapped(rb"^AFTER "),
        "--cases",
        "40",
    ),
    merger(
        "merged_as_one_later",
        "the first AS names one line further",
        "fuzz",
        calls.counted(rb" AS (\d+)$"),
        "--cases",
        "40",
    ),
    merger(
        "merged_without_newline",
        "the last newline is missing",
        "examples",
        calls.replaced(rb"\n\Z", b""),
    ),
    merger(
        "merge_takes_any_table",
        "a table that is refused ends with status 0",
        "examples",
        calls.status_becomes((11,), 0),
    ),
]

OF_CONFLICTS = [
    conflicts(
        "clash_lost",
        "the last line CLASH is missing",
        "compare_conflicts",
        calls.without(rb"^CLASH ", slice(-1, None)),
    ),
    conflicts(
        "clashes_swapped",
        "two neighbouring lines CLASH change places",
        "compare_conflicts",
        calls.swapped(rb"^CLASH "),
    ),
    conflicts(
        "statement_one_later",
        "the line of the first statement is one larger",
        "compare_conflicts",
        calls.counted(rb"^AT .* LINE (\d+)$"),
    ),
    conflicts(
        "level_clash_lost",
        "no conflict of a level",
        "compare_conflicts",
        calls.without(rb"^CLASH \d+ \d+ \d+$"),
    ),
    conflicts(
        "adds_lost",
        "the last line ADDS is missing",
        "compare_additions",
        calls.without(rb"^ADDS ", slice(-1, None)),
    ),
    conflicts(
        "adds_swapped",
        "two neighbouring lines ADDS of one entry change places",
        "compare_additions",
        calls.swapped(rb"^ADDS 0 "),
    ),
    conflicts(
        "narrow_added",
        "a variable of WIDTH 16 is among what is added to",
        "compare_additions",
        with_narrow_variables,
    ),
    conflicts(
        "adding_lost",
        "the last line ADDING is missing",
        "compare_additions",
        calls.without(rb"^PAIR \d+ \d+ ADDING ", slice(-1, None)),
    ),
    conflicts(
        "one_side_spared",
        "a pair passes with additions where one entry alone adds",
        "compare_additions",
        with_one_side,
    ),
    conflicts(
        "far_adds_lost",
        "no line ADDS of an entry from number 2 on",
        "compare_conflicts",
        calls.without(rb"^ADDS (?![01] )"),
    ),
    conflicts("pair_not_heeded", "the numbers of a pair are not heeded", "examples", of_all_pairs),
    conflicts(
        "conflicts_end_lost",
        "the last line is missing",
        "examples",
        calls.without(rb"^END CONFLICTS$"),
    ),
]

ALTERED = [*OF_MERGER, *OF_CONFLICTS]
