"""Texts of labels that meet in a table of names, for two cases of `large_cases`.

A name's place in a table hangs on a hash of its bytes and on a seed. Whoever knows the seed can
choose names whose search begins in the same eighth of the table, so that each walks past most of
the others. `fixed(size)` makes a text of such labels for tables without a seed. `chased(size)`
makes one for the seed that the other names of the text draw, so that its labels would meet if the
seed did not hang on them too. Both texts are right, and what they cost should grow no faster than
their size. To find the names takes longer than the program takes for them, so the last texts are
kept.
"""
from __future__ import annotations

import functools
import itertools
from typing import Iterable, Optional

BEFORE = (
    b"SIGNAL A SINGLE BUFFERED B DATA 0;\nBLOCK C;\n"
    b"DECLARE;\nVARIABLE N WIDTH 32;\nSURVEY;\nPROGRAM;\n"
)
AFTER = b"END BLOCK;\n"
OTHERS = (b"A", b"C", b"N")
LETTERS = b"ABCDEFGHIJKLMNOPQRSTUVWXYZ"
SIGNS = LETTERS + b"0123456789"
LENGTH = 8
LINE = LENGTH + len(b")\n")
GROUP_LOAD, PART = 9, 8

WORD = (1 << 64) - 1
START, MULTIPLIER = 0x243F6A8885A308D3, 0x9E3779B97F4A7C15
SPREAD = 0x10101


# the hash of a name, and its place


def folded(state: int, word: int, length: int) -> int:
    product = (state ^ word) * (MULTIPLIER ^ 2 * length)
    return (product ^ product >> 64) & WORD


def started(seed: Optional[int]) -> int:
    """What a table with this seed begins each hash with; None is a table without a seed."""
    return START if seed is None else folded(START, seed, 8)


def groups_for(count: int) -> int:
    """How many groups a table of so many names has."""
    groups = 1
    while GROUP_LOAD * groups < count:
        groups *= 2
    return groups


def meeting(count: int, seed: Optional[int]) -> list[bytes]:
    """So many names whose search begins in the first eighth of the groups of such a table."""
    mask = groups_for(count) - 1
    most = max(1, (mask + 1) // PART)
    begun = folded(started(seed), LENGTH, 8)
    found: list[bytes] = []
    for front in itertools.product(LETTERS, *[SIGNS] * (LENGTH - 2)):
        state = begun
        for sign in front:
            state = folded(state, SPREAD * sign, 1)
        for sign in SIGNS:
            product = (state ^ SPREAD * sign) * (MULTIPLIER ^ 2)
            hashed = product ^ product >> 64
            if (hashed ^ hashed >> 32) & mask < most:
                found.append(bytes((*front, sign)))
        if len(found) >= count:
            return found[:count]
    return found


# the seed that a text draws


def turned(word: int, bits: int) -> int:
    return (word << bits | word >> 64 - bits) & WORD


def mixed(a: int, b: int, c: int, d: int) -> tuple[int, int, int, int]:
    """One round of SipHash."""
    a, c = a + b & WORD, c + d & WORD
    b, d = turned(b, 13) ^ a, turned(d, 16) ^ c
    a, c = turned(a, 32) + d & WORD, c + b & WORD
    return a, turned(b, 17) ^ c, turned(c, 32), turned(d, 21) ^ a


def with_name(seed: int, name: bytes) -> int:
    """The seed that hangs on this name too."""
    fed = seed.to_bytes(8, "little") + name
    last = fed[len(fed) // 8 * 8 :].ljust(7, b"\0") + bytes([len(fed) % 256])
    a, b, c, d = 0x736F6D6570736575, 0x646F72616E646F6D, 0x6C7967656E657261, 0x7465646279746573
    for at in range(0, len(fed) // 8 * 8, 8):
        word = int.from_bytes(fed[at : at + 8], "little")
        a, b, c, d = mixed(a, b, c, d ^ word)
        a ^= word
    word = int.from_bytes(last, "little")
    a, b, c, d = mixed(a, b, c, d ^ word)
    a, c = a ^ word, c ^ 0xFF
    for _ in range(3):
        a, b, c, d = mixed(a, b, c, d)
    return a ^ b ^ c ^ d


def drawn(names: Iterable[bytes]) -> int:
    """The seed that a text of these names draws, in their order."""
    seed = 0
    for name in names:
        seed = with_name(seed, name)
    return seed


# texts


def room(size: int) -> int:
    return (size - len(BEFORE) - len(AFTER)) // LINE


def text_of(labels: Iterable[bytes]) -> bytes:
    return BEFORE + b"".join(name + b")\n" for name in labels) + AFTER


@functools.lru_cache(maxsize=2)
def fixed(size: int) -> bytes:
    """A text of at most so many bytes, whose labels meet in a table without a seed."""
    return text_of(meeting(room(size), None))


@functools.lru_cache(maxsize=2)
def chased(size: int) -> bytes:
    """A text of at most so many bytes, whose labels meet under the seed of its other names."""
    return text_of(meeting(room(size), drawn(OTHERS)))
