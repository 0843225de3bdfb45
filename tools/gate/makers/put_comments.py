"""Texts whose words have comments, blanks and ends of lines between them, by chance.

`commented(words, chance, share)` writes words with a comment in this share of the places in which
one may stand, which are those before each word and behind the last. `at_places(words, places,
is_alone)` writes them on one line, but for a comment in each of some places.
"""
from __future__ import annotations

import random
from typing import Container, Sequence

BLANKS = (" ", "  ", "\t", " \t ", "\r")
LINE_ENDS = ("\n", "\n\n", "\r\n", "\n\n\n", " \n", "\n\t", "\r\n \r\n", "\n   ")
TEXTS = ("", " why", " X = 1;", "! twice", "\tEND BLOCK;", " \xe9\xff", " a  b \t", " 'FI'", "\r")


def comment(chance: random.Random) -> str:
    """A comment with the blanks and ends of lines around it."""
    before = chance.choice(["", " ", "\t", "\n", "\r\n", "\n\n", "\n      "])
    return f"{before}!{chance.choice(TEXTS)}{chance.choice(LINE_ENDS)}"


def between(chance: random.Random, share: float) -> str:
    """What stands between two words."""
    if chance.random() < share:
        return " " + "".join(comment(chance) for _ in range(chance.choice([1, 1, 2])))
    return chance.choice(BLANKS if chance.random() < 0.7 else LINE_ENDS)


def commented(words: Sequence[str], chance: random.Random, share: float) -> bytes:
    """The words with comments between them."""
    parts = [between(chance, share) + word for word in words]
    return "".join([*parts, between(chance, share)]).encode("latin-1")


def at_places(words: Sequence[str], places: Container[int], is_alone: bool) -> bytes:
    """The words on one line, but for a comment in each of these places."""
    comment = "\n! alone\n" if is_alone else "! behind\n"
    parts = [(f"{comment} " if place in places else "") + word for place, word in enumerate(words)]
    return " ".join([*parts, comment if len(words) in places else ""]).encode()
