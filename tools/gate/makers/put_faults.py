"""Puts faults into the lines of texts that have none: one at a time, each into one line, and of all
kinds.

`put(chance, lines)` gives the number of a line, from 0, what stands there then, and the name of
what was done; or None where it could not be done. `put_line(chance, words)` does the same to the
words of a line of a signal file, a table or a filter.
"""
from __future__ import annotations

import random
from typing import Callable, Optional, Sequence

from plextools.text.tokens import KEYWORDS

STRANGE_BYTES = ["#", ".", "%", '"A"', "\x00", "\xe9", "_", ":", "a", "[", "\x0c"]
INSERTED = [
    "END BLOCK ;",
    "FI ;",
    "ELSE",
    "ESAC ;",
    "NO ;",
    "WHEN 1 DO",
    "OTHERWISE DO",
    "THEN",
    "SURVEY ;",
    "PROGRAM ;",
    "DECLARE ;",
    ";",
    ")",
    "SIGNAL Z OUTSIDE DATA 0 ;",
]
SIGNALS = ["BU", "B0", "DI", "CO", "AN", "OU", "ZZ"]
OTHER_WORDS = ["0", "17", "4294967296", "QQ", "DI", "K9", "NEW", "NONE", "AS", "K1", "B0"]
OTHER_MARKS, OTHER_NAMES = ["+", ">", ":=", "=>"], ["V", "T", "X", "F", "G", "Y", "L", "K1"]
LARGE_NUMBERS = ["4294967296", "00000000001", "99999999999999999999"]


# What stands in the place of a word; and a change of the words of a line, None where it has none.
Change = Callable[[random.Random, str], "list[str]"]
Way = Callable[[random.Random, "list[str]"], "Optional[list[str]]"]


def is_keyword(word: str) -> bool:
    return word in KEYWORDS


def is_name(word: str) -> bool:
    return word[:1].isalpha() and word not in KEYWORDS


def is_number(word: str) -> bool:
    return word.isdigit()


def some(chance: random.Random, words: list[str], is_one: Callable[[str], bool]) -> Optional[int]:
    """The place of one of the words that are so, or None."""
    places = [place for place, word in enumerate(words) if is_one(word)]
    return chance.choice(places) if places else None


def behind(words: list[str], keyword: str) -> Optional[int]:
    """The place behind a keyword, or None."""
    return words.index(keyword) + 1 if keyword in words[:-1] else None


def change_one(is_one: Callable[[str], bool], change: Change) -> Way:
    """One of the words that are so is changed."""

    def done(chance: random.Random, words: list[str]) -> Optional[list[str]]:
        place = some(chance, words, is_one)
        if place is None:
            return None
        return words[:place] + change(chance, words[place]) + words[place + 1 :]

    return done


def change_behind(keyword: str, change: Change) -> Way:
    """The word behind a keyword is changed."""

    def done(chance: random.Random, words: list[str]) -> Optional[list[str]]:
        place = behind(words, keyword)
        if place is None:
            return None
        return words[:place] + change(chance, words[place]) + words[place + 1 :]

    return done


def misspelled(chance: random.Random, word: str) -> list[str]:
    place = chance.randrange(len(word))
    return [(word[:place] + word[place + 1 :]) or "X"]


def other_keyword(chance: random.Random, _: object) -> list[str]:
    return [chance.choice(KEYWORDS)]


def drop_semicolon(_: object, words: list[str]) -> Optional[list[str]]:
    return words[:-1] if words[-1:] == [";"] else None


def drop_line(_: object, words: list[str]) -> list[str]:
    return []


def twice(_: object, words: list[str]) -> list[str]:
    return words * 2


def drop_word(chance: random.Random, words: list[str]) -> list[str]:
    place = chance.randrange(len(words))
    return words[:place] + words[place + 1 :]


def double_word(chance: random.Random, words: list[str]) -> list[str]:
    place = chance.randrange(len(words))
    return words[:place] + [words[place]] + words[place:]


def insert_bytes(chance: random.Random, words: list[str]) -> list[str]:
    place = chance.randrange(len(words))
    return words[:place] + [chance.choice(STRANGE_BYTES)] + words[place:]


def insert_phrase(chance: random.Random, words: list[str]) -> list[str]:
    place = 0 if chance.random() < 0.6 else len(words)
    return words[:place] + [chance.choice(INSERTED)] + words[place:]


def bracket_condition(_: object, words: list[str]) -> Optional[list[str]]:
    end = words.index("THEN") if "THEN" in words else words.index("GOTO") if "GOTO" in words else 0
    start = behind(words, "IF")
    return (
        words[:start] + ["("] + words[start:end] + [")"] + words[end:]
        if start is not None and end > start
        else None
    )


def swap_files(chance: random.Random, words: list[str]) -> Optional[list[str]]:
    place = behind(words, "IN")
    if place is None or words[place] not in "FG":
        return None
    return words[:place] + ["F" if words[place] == "G" else "G"] + words[place + 1 :]


def other_signal(chance: random.Random, words: list[str]) -> Optional[list[str]]:
    for keyword in ("SEND", "TRANSFER", "RETURN", "RETRIEVE", "ENTER", "RECEIVE"):
        if keyword in words[:-1]:
            place = words.index(keyword) + 1
            others = [one for one in SIGNALS if one != words[place]]
            return words[:place] + [chance.choice(others)] + words[place + 1 :]
    return None


def other_values(chance: random.Random, words: list[str]) -> Optional[list[str]]:
    place = behind(words, "WITH")
    if place is None:
        return None
    return (
        words[:place] + ["1", ","] + words[place:]
        if chance.random() < 0.6
        else words[: place - 1] + words[-1:]
    )


def fresh_forlopp(_: object, words: list[str]) -> Optional[list[str]]:
    return words[:-1] + ["NEW", "FORLOPP", ";"] if "SEND" in words and words[-1] == ";" else None


def many_operands(_: object, words: list[str]) -> Optional[list[str]]:
    return (
        words[:-1] + ["+ 1"] * 64 + [";"]
        if len(words) > 2 and words[1:2] == ["="] and words[-1] == ";"
        else None
    )


def second_when(_: object, words: list[str]) -> Optional[list[str]]:
    place = behind(words, "WHEN")
    return (
        words[:place] + [words[place], "DO", "WHEN"] + words[place:] if place is not None else None
    )


def is_mark(word: str) -> bool:
    return word in ("=", ")", "(", ",", "<")


WAYS: dict[str, Way] = {
    "no semicolon": drop_semicolon,
    "no line": drop_line,
    "line twice": twice,
    "word left out": drop_word,
    "word twice": double_word,
    "strange bytes": insert_bytes,
    "phrase put in": insert_phrase,
    "condition in brackets": bracket_condition,
    "other file": swap_files,
    "other signal": other_signal,
    "other values": other_values,
    "NEW FORLOPP": fresh_forlopp,
    "many operands": many_operands,
    "WHEN twice": second_when,
    "small letters": change_one(str.isalpha, lambda _, word: [word.lower()]),
    "long name": change_one(is_name, lambda _, word: [word + "A" * 31]),
    "large number": change_one(is_number, lambda chance, _: [chance.choice(LARGE_NUMBERS)]),
    "keyword as name": change_one(is_name, other_keyword),
    "misspelled keyword": change_one(is_keyword, misspelled),
    "other keyword": change_one(is_keyword, other_keyword),
    "unknown name": change_one(is_name, lambda chance, _: ["QQ"]),
    "other name": change_one(is_name, lambda chance, _: [chance.choice(OTHER_NAMES)]),
    "minus sign": change_one(is_number, lambda _, word: ["-", word]),
    "deep brackets": change_one(is_number, lambda _, word: ["("] * 7 + [word] + [")"] * 7),
    "width": change_behind("WIDTH", lambda chance, _: [chance.choice(["0", "33"])]),
    "init": change_behind("INIT", lambda chance, _: ["4294967295"]),
    "size": change_behind("SIZE", lambda chance, _: ["0"]),
    "data": change_behind("DATA", lambda chance, _: ["9"]),
    "unknown block": change_behind("REFERENCE", lambda chance, _: ["QQ"]),
    "wrong mark": change_one(is_mark, lambda chance, _: [chance.choice(OTHER_MARKS)]),
}


def put(chance: random.Random, lines: Sequence[str]) -> Optional[tuple[int, str, str]]:
    """One fault in one of the lines: its number, what stands there then, and what was done; or
    None.
    """
    number = chance.randrange(len(lines))
    words = lines[number].split(" ")
    name = chance.choice(list(WAYS))
    changed = WAYS[name](chance, words) if words[0] else None
    if changed is None or changed == words:
        return None
    return number, " ".join(changed), name


def put_line(chance: random.Random, words: list[str]) -> list[str]:
    """One fault in the words of a line that is no line of an exchange text."""
    words, place = list(words), chance.randrange(len(words))
    way = chance.randrange(8)
    if way == 0:
        return words[:place] + words[place + 1 :]
    if way == 1:
        return words[:place] + [words[place].lower()] + words[place + 1 :]
    if way == 2:
        return words + ["!", "why"]
    if way == 3:
        return words[:place] + [words[place], words[place]] + words[place + 1 :]
    if way == 4:
        return words[:place] + ["-" + words[place]] + words[place + 1 :]
    if way == 5:
        return words[:place] + [chance.choice(OTHER_WORDS)] + words[place + 1 :]
    if way == 6:
        return [""] + ["!"] + words
    return words[:-1] + ["AS", chance.choice(["0", "1", "2", "99"])]
