"""Texts that are dear for the tools for users, and for plex-conflicts, with what they may cost. For
`test_large_texts.py`.

Each of `CASES` has files, the words of a tool, and bounds for the seconds of the processor and for
the bytes of what it writes: some twice of what it takes.
"""
from typing import Callable, Dict, NamedTuple, Sequence

GO = "SIGNAL GO SINGLE BUFFERED B DATA 0;\n"
ONE_ENTRY = "SURVEY; RECEIVE GO;\nPROGRAM;\nENTER GO;\n"
END = "EXIT;\nEND BLOCK;\n"
PAGE = "P"  # the file that plex-page writes


class ToolCase(NamedTuple):
    """A tool with its words and files, the status, and what it may take and write."""

    name: str
    words: Sequence[str]
    files: Callable[[], Dict[str, bytes]]
    status: int
    seconds: float
    written: int


def common_statements(entries: int, declared: str, statements: str) -> Dict[str, bytes]:
    """So many entries that all run the same statements."""
    text = "".join(f"SIGNAL G{entry} SINGLE BUFFERED B DATA 0;\n" for entry in range(entries))
    text += f"BLOCK K;\nDECLARE;\n{declared}SURVEY;\n"
    text += "".join(f"RECEIVE G{entry};\n" for entry in range(entries)) + "PROGRAM;\n"
    text += "".join(f"ENTER G{entry};\n" for entry in range(entries)) + statements + END
    return {"E": text.encode()}


def common_variables(entries: int, variables: int) -> Dict[str, bytes]:
    """So many entries that all add 1 to the same variables."""
    declared = "".join(f"VARIABLE V{name} WIDTH 8;\n" for name in range(variables))
    statements = "".join(f"V{name} = V{name} + 1;\n" for name in range(variables))
    return common_statements(entries, declared, statements)


def common_counter(entries: int, variables: int) -> Dict[str, bytes]:
    """So many entries that all read the same variables, and add 1 to another one."""
    declared = "".join(f"VARIABLE V{name} WIDTH 8;\n" for name in range(variables))
    declared += "VARIABLE N WIDTH 32;\nTEMPORARY T;\n"
    statements = "".join(f"T = V{name};\n" for name in range(variables)) + "N = N + 1;\n"
    return common_statements(entries, declared, statements)


def faulting_jobs(count: int) -> Dict[str, bytes]:
    """Jobs that all wait from the start, each in a forlopp of its own, and each faults."""
    text = f"{GO}BLOCK K;\nDECLARE; TEMPORARY T;\n{ONE_ENTRY}T = 1 / T;\n{END}"
    return {"E": text.encode(), "S": b"AFTER 0 GO K NEW\n" * count}


def short_jobs(count: int) -> Dict[str, bytes]:
    """Jobs of two statements that conflict with one another."""
    text = f"{GO}BLOCK K;\nDECLARE; VARIABLE V WIDTH 32;\n{ONE_ENTRY}V = V + 1;\n{END}"
    return {"E": text.encode(), "S": b"AFTER 0 GO K NEW\n" * count}


def short_blocks(count: int) -> Dict[str, bytes]:
    """Blocks that have nothing in them, far more than a text may have."""
    blocks = (f"BLOCK B{number}; DECLARE; SURVEY; PROGRAM; END BLOCK;\n" for number in range(count))
    return {"E": (GO + "".join(blocks)).encode()}


CASES = (
    ToolCase(
        "plex-page, 128 entries that use 100 variables",
        ["plex-page", "E", "-o", PAGE],
        lambda: common_variables(128, 100),
        0,
        3.4,
        1_000_000,
    ),
    ToolCase(
        "plex-load, 6,000 jobs that fault",
        ["plex-load", "E", "S"],
        lambda: faulting_jobs(6000),
        0,
        0.55,
        10_000,
    ),
    ToolCase(
        "plex-load, 50,000 short jobs",
        ["plex-load", "E", "S"],
        lambda: short_jobs(50_000),
        0,
        1.1,
        10_000,
    ),
    ToolCase(
        "plex-conflicts, 128 entries that add to one variable and read 1,000 others",
        ["plex-conflicts", "E"],
        lambda: common_counter(128, 1000),
        0,
        0.5,
        9_000_000,
    ),
    ToolCase(
        "plex-check, 80,000 short blocks",
        ["plex-check", "E"],
        lambda: short_blocks(80_000),
        2,
        3.4,
        10_000,
    ),
)
