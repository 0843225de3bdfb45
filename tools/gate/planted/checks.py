"""The checks that must tell planted faults, each with the command that runs it."""
from typing import Dict, Tuple

TESTS = (
    "analyses",
    "broken_texts",
    "check_editors",
    "compare_additions",
    "compare_bounds",
    "compare_checks",
    "compare_conflicts",
    "compare_load",
    "compare_runs",
    "compare_steps",
    "compare_texts",
    "compare_why",
    "completion",
    "conformance",
    "diagnostics",
    "examples",
    "explanations",
    "fuzz",
    "hostile",
    "large_texts",
    "load_options",
    "look_at_page",
    "lsp",
    "lsp_edits",
    "lsp_speed",
    "outputs",
    "plex_chart",
    "plex_format",
    "plex_step",
    "plex_test",
    "progress_line",
    "rules",
    "sentences",
    "sentences_table",
    "step_terminal",
    "slips",
    "tool_examples",
    "trace_json",
    "vsix",
)
# Those that measure time, so that no other check may run beside them.
ALONE = ("large_texts", "look_at_page", "lsp_speed")
PYTEST = ("pytest-3", "-q", "-x", "-p", "no:cacheprovider")


def file_of(name: str) -> str:
    """The file of a test."""
    return f"tools/gate/test_{name}.py"


PICTURES = ("tools/maintain/pictures", "--check")
CHECKS: Dict[str, Tuple[str, ...]] = {
    **{name: (*PYTEST, file_of(name)) for name in TESTS},
    "pictures": PICTURES,
}


def called(name: str) -> str:
    """How a check is called in a table: by its file, or by its command."""
    if name in TESTS:
        return file_of(name).rpartition("/")[2]
    command, *words = CHECKS[name]
    return " ".join([command.rpartition("/")[2], *words])
