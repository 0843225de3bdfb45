"""The two texts of a load, which `plex load N` makes of itself. For `rates`.

The patterns of the exchange text are read from the sources of the crate load_maker.
"""
import pathlib
import re
import sys

SOURCE = (
    pathlib.Path(__file__).resolve().parents[2] / "crates" / "load_maker" / "src" / "exchange.rt"
)
BLOCKS = (
    "first_block",
    "plain_block",
    "plain_block",
    "tone_block",
    "plain_block",
    "plain_block",
    "plain_block",
    "last_block",
)


def pattern(source: str, name: str) -> str:
    """The text that a function of the crate gives."""
    found = re.search(rf'fn {name}\(\).*?\n{{\n    b"(.*?)"\n}}', source, re.S)
    if not found:
        sys.exit(f"{SOURCE} has no function {name} that gives a text")
    return found[1].replace("\\n", "\n")


def filled(text: str, calls: int, place: int) -> str:
    """A pattern with its numbers: n calls, the block i, and the next one j."""
    numbers = {"n": calls, "i": place, "j": place + 1}
    return re.sub("[nij]", lambda letter: str(numbers[letter[0]]), text)


def exchange(calls: int) -> str:
    """The exchange text of a load of so many calls."""
    source = SOURCE.read_text()
    signals = "".join(filled(pattern(source, "call_signal"), calls, place) for place in range(1, 9))
    blocks = "".join(
        filled(pattern(source, name), calls, place) for place, name in enumerate(BLOCKS, 1)
    )
    return signals + pattern(source, "other_signals") + blocks


def signals(calls: int) -> str:
    """Its signal file."""
    return "".join(f"AFTER 0 S1 B1 {call} 0 0 NEW\n" for call in range(calls))
