"""Changes of an exchange to another one that are made by chance, and what must be told of them.

`made(chance)` gives a `Pair`: two exchange texts, the lines that `plex-check --change` must tell,
and the refusal of `plex change`, or none. The lines are found from what the texts were made of, by
docs/FORMATS.md, Change of blocks, and docs/GUIDE.md; no reader of texts has a part in it.
`differences(pair, ...)` compares both programs with them.
"""
import copy
import os
import pathlib
import random
from dataclasses import dataclass, field
from typing import Callable, Dict, Iterator, List, NamedTuple, Optional, Tuple, Union

from gate import harness
from plextools.commands import check
from plextools.text import warnings

REFUSED, ODD, FINE = 2, 1, 0
REFUSALS, ODDITIES = ("ENTRY", "FILE"), ("DROPPED", "NARROWED", "STAYS", "UNSENT", "MOVED")
BLOCKS, SIGNALS, NAMES = ("K1", "K2", "K3", "K4"), 5, ("A", "B2", "C", "D2")


@dataclass
class Value:
    """A variable, or a field of a file. It knows the line on which it stands."""

    name: str
    width: int
    start: Optional[int]
    line: int = 0

    def text(self, kind: str) -> str:
        begins = "" if self.start is None else f" INIT {self.start}"
        return f"{kind} {self.name} WIDTH {self.width}{begins};"


@dataclass
class File:
    name: str
    size: int
    forlopp: bool
    fields: List[Value]
    line: int = 0

    def text(self) -> str:
        return f"{'FORLOPP ' if self.forlopp else ''}FILE {self.name} SIZE {self.size};"


@dataclass
class Block:
    """A block; `enters` has the line of the ENTER of each of its signals, and `link` the block that
    a statement names.
    """

    name: str
    variables: List[Value]
    files: List[File]
    enters: Dict[str, int]
    link: Optional[str] = None
    line: int = 0

    def values(self) -> Iterator[Tuple[str, Optional[File], Value]]:
        """Each variable and field, with its kind and file, in the order of the text."""
        for one in self.variables:
            yield "variable", None, one
        for file in self.files:
            for one in file.fields:
                yield "field", file, one


@dataclass
class Signal:
    name: str
    level: str
    count: int


@dataclass
class Exchange:
    signals: List[Signal]
    blocks: List[Block] = field(default_factory=list)

    def signal(self, name: str) -> Signal:
        return next(one for one in self.signals if one.name == name)

    def block(self, name: str) -> Optional[Block]:
        return next((one for one in self.blocks if one.name == name), None)


class Pair(NamedTuple):
    """Two texts, what must be told of them, and what `plex change` must write where it refuses."""

    old: str
    new: str
    lines: List[str]
    refusal: Optional[str]

    @property
    def status(self) -> int:
        words = {line.split(": ")[1] for line in self.lines}
        return REFUSED if words & set(REFUSALS) else ODD if words & set(ODDITIES) else FINE


# texts


class Writer:
    """Writes a text, a thing on each line, and notes the lines."""

    def __init__(self) -> None:
        self.lines: List[str] = []

    def put(self, text: str) -> int:
        self.lines.append(text)
        return len(self.lines)

    def exchange(self, made: Exchange) -> str:
        for one in made.signals:
            self.put(f"SIGNAL {one.name} SINGLE BUFFERED {one.level} DATA {one.count};")
        for block in made.blocks:
            self.block(block, made)
        return "".join(f"{line}\n" for line in self.lines)

    def block(self, block: Block, made: Exchange) -> None:
        block.line = self.put(f"BLOCK {block.name};")
        self.put("DECLARE; TEMPORARY T; TEMPORARY U;")
        for one in block.variables:
            one.line = self.put(one.text("VARIABLE"))
        for file in block.files:
            file.line = self.put(file.text())
            for one in file.fields:
                one.line = self.put(one.text("FIELD"))
        self.put("SURVEY;")
        for name in block.enters:
            self.put(f"RECEIVE {name};")
        self.put("PROGRAM;")
        for name in block.enters:
            given = ", ".join("TU"[: made.signal(name).count])
            block.enters[name] = self.put(f"ENTER {name}{' WITH ' if given else ''}{given};")
            if block.link:
                self.put(f"T = REFERENCE {block.link};")
            self.put("EXIT;")
        self.put("END BLOCK;")


# makers


def made_value(name: str, chance: random.Random) -> Value:
    width = chance.choice([1, 4, 8, 8, 16, 32])
    return Value(name, width, chance.choice([None, None, 0, 1, 2**width - 1]))


def made_file(name: str, chance: random.Random) -> File:
    fields = [made_value(f"{name}F{number}", chance) for number in range(chance.choice([1, 1, 2]))]
    return File(name, chance.choice([1, 2, 2, 4]), chance.random() < 0.5, fields)


def made_block(name: str, signals: List[Signal], chance: random.Random) -> Block:
    variables = [made_value(name, chance) for name in NAMES if chance.random() < 0.5]
    files = [made_file(name, chance) for name in ("G", "H") if chance.random() < 0.5]
    return Block(name, variables, files, {one.name: 0 for one in signals if chance.random() < 0.5})


def made_exchange(chance: random.Random) -> Exchange:
    signals = [
        Signal(f"S{number}", chance.choice("ABCD"), chance.randrange(3))
        for number in range(SIGNALS)
    ]
    names = list(BLOCKS[: chance.choice([1, 2, 3])])
    blocks = [made_block(name, signals, chance) for name in names]
    for block in blocks:
        block.link = chance.choice([None, None, *names])
    return Exchange(signals, blocks)


# changes

Change = Callable[[Exchange, random.Random], None]


def any_block(made: Exchange, chance: random.Random) -> Block:
    return chance.choice(made.blocks)


def any_value(made: Exchange, chance: random.Random) -> Optional[Value]:
    found = [one for block in made.blocks for _, _, one in block.values()]
    return chance.choice(found) if found else None


def any_file(made: Exchange, chance: random.Random) -> Optional[File]:
    found = [one for block in made.blocks for one in block.files]
    return chance.choice(found) if found else None


def other_level(made: Exchange, chance: random.Random) -> None:
    chance.choice(made.signals).level = chance.choice("ABCD")


def other_count(made: Exchange, chance: random.Random) -> None:
    one = chance.choice(made.signals)
    one.count = min(2, abs(one.count + chance.choice([-1, 1])))


def other_width(made: Exchange, chance: random.Random) -> None:
    one = any_value(made, chance)
    if one:
        one.width = max(1, min(32, one.width + chance.choice([-4, -1, 1, 4])))
        if one.start is not None:
            one.start = min(one.start, 2**one.width - 1)


def other_start(made: Exchange, chance: random.Random) -> None:
    one = any_value(made, chance)
    if one:
        one.start = chance.choice([None, 0, 1, 2**one.width - 1])


def start_lost(made: Exchange, chance: random.Random) -> None:
    found = [one for block in made.blocks for _, _, one in block.values() if one.start]
    if found:
        chance.choice(found).start = chance.choice([None, 0])


def other_name(made: Exchange, chance: random.Random) -> None:
    one = any_value(made, chance)
    if one:
        one.name = f"{one.name}X"


def other_size(made: Exchange, chance: random.Random) -> None:
    file = any_file(made, chance)
    if file:
        file.size = max(1, file.size + chance.choice([-1, 1, 2]))


def other_kind(made: Exchange, chance: random.Random) -> None:
    file = any_file(made, chance)
    if file:
        file.forlopp = not file.forlopp


def file_lost(made: Exchange, chance: random.Random) -> None:
    block = any_block(made, chance)
    block.files = block.files[1:]


def file_renamed(made: Exchange, chance: random.Random) -> None:
    file = any_file(made, chance)
    if file:
        file.name = f"{file.name}X"


def value_lost(made: Exchange, chance: random.Random) -> None:
    block = any_block(made, chance)
    block.variables = block.variables[1:]


def value_added(made: Exchange, chance: random.Random) -> None:
    block = any_block(made, chance)
    if "FRESH" not in [one.name for _, _, one in block.values()]:
        block.variables.append(made_value("FRESH", chance))


def entry_lost(made: Exchange, chance: random.Random) -> None:
    block = any_block(made, chance)
    block.enters = dict(list(block.enters.items())[1:])


def entry_added(made: Exchange, chance: random.Random) -> None:
    any_block(made, chance).enters.setdefault(chance.choice(made.signals).name, 0)


def block_lost(made: Exchange, chance: random.Random) -> None:
    if len(made.blocks) > 1:
        lost = made.blocks.pop(chance.randrange(len(made.blocks)))
        for block in made.blocks:
            block.link = None if block.link == lost.name else block.link


def block_added(made: Exchange, chance: random.Random) -> None:
    if not made.block("K9"):
        place = chance.randrange(len(made.blocks) + 1)
        made.blocks.insert(place, made_block("K9", made.signals, chance))


def blocks_moved(made: Exchange, chance: random.Random) -> None:
    chance.shuffle(made.blocks)


CHANGES: Tuple[Change, ...] = (
    other_level,
    other_count,
    other_count,
    other_width,
    other_width,
    other_start,
    start_lost,
    other_name,
    other_size,
    other_size,
    other_kind,
    file_lost,
    file_renamed,
    value_lost,
    value_added,
    entry_lost,
    entry_added,
    entry_added,
    block_lost,
    block_added,
    blocks_moved,
    blocks_moved,
)


# what must be told


def counted(number: int, thing: str) -> str:
    return f"{number} {thing}" if number == 1 else f"{number} {thing}s"


def told(block: Block, file: Optional[File], one: Value) -> str:
    if file:
        return f"field {one.name} of {block.name}.{file.name}"
    return f"variable {one.name} of block {block.name}"


def of_entries(old: Exchange, new: Exchange) -> Iterator[str]:
    for block in old.blocks:
        other = new.block(block.name)
        for name, line in block.enters.items():
            was, now = old.signal(name), new.signal(name)
            if other is None or name not in other.enters:
                lacks = f"the new text has no entry of {name} at block {block.name}"
                yield f"OLD:{line}: ENTRY: {lacks}"
            elif (was.level, was.count) != (now.level, now.count):
                had, has = (
                    f"level {one.level} and {counted(one.count, 'value')}" for one in (was, now)
                )
                yield f"OLD:{line}: ENTRY: {name} has {had}, and {has} in the new text"


def of_files(old: Exchange, new: Exchange) -> Iterator[str]:
    for block in old.blocks:
        other = new.block(block.name)
        for file in block.files:
            if not file.forlopp:
                continue
            head = f"OLD:{file.line}: FILE: the FORLOPP FILE {file.name} of block {block.name}"
            there = [one for one in other.files if one.name == file.name] if other else []
            if not there:
                yield f"{head} is not in the new text"
            elif not there[0].forlopp:
                yield f"{head} is a FILE in the new text"
            elif there[0].size < file.size:
                yield f"{head} has SIZE {file.size}, and {there[0].size} in the new text"


Known = Tuple[str, Optional[str], str]  # a kind, a file and a name


def known(block: Block) -> Dict[Known, Tuple[Optional[File], Value]]:
    return {
        (kind, file.name if file else None, one.name): (file, one)
        for kind, file, one in block.values()
    }


def of_values(block: Block, other: Block) -> Iterator[str]:
    """What goes over of a block that both have, what does not, and what is new."""
    was, now = known(block), known(other)
    for key, (file, one) in was.items():
        words = told(block, file, one)
        if key not in now:
            yield f"OLD:{one.line}: DROPPED: {words} is not in the new text: its value is dropped"
            continue
        new = now[key][1]
        start, most = new.start or 0, 2**new.width - 1
        if new.width < one.width:
            becomes = f"WIDTH {one.width} becomes {new.width}, values over {most} become {start}"
            yield f"NEW:{new.line}: NARROWED: {words}: {becomes}"
        if (one.start or 0) != start and (one.start or 0) <= most:
            becomes = f"INIT {one.start or 0} becomes {start}, and values that go over stay"
            yield f"NEW:{new.line}: STAYS: {words}: {becomes}"
    for key, (file, one) in now.items():
        if key not in was:
            words = told(other, file, one)
            yield f"NEW:{one.line}: NEW: {words} is new, and begins with {one.start or 0}"
    over = [kind for kind, _, _ in was.keys() & now.keys()]
    if over:
        counts = [(over.count(kind), kind) for kind in ("variable", "field")]
        what = " and ".join(counted(number, kind) for number, kind in counts if number)
        goes = "goes" if len(over) == 1 else "go"
        yield f"NEW:{other.line}: KEPT: block {block.name}: {what} {goes} over"


def of_sizes(block: Block, other: Block) -> Iterator[str]:
    for file in block.files:
        for new in other.files:
            if new.name != file.name:
                continue
            words = f"file {file.name} of block {block.name}"
            if new.size < file.size and not file.forlopp:
                becomes = f"SIZE {file.size} becomes {new.size}, the last records are dropped"
                yield f"NEW:{new.line}: NARROWED: {words}: {becomes}"
            elif new.size > file.size:
                more = counted(new.size - file.size, "record")
                yield f"NEW:{new.line}: NEW: {words} has {more} more"


def of_blocks(old: Exchange, new: Exchange) -> Iterator[str]:
    for block in old.blocks:
        other = new.block(block.name)
        if other:
            yield from of_values(block, other)
            yield from of_sizes(block, other)
        elif list(block.values()):
            words = f"block {block.name} is not in the new text"
            dropped = "the values of its variables and fields are dropped"
            yield f"OLD:{block.line}: DROPPED: {words}: {dropped}"
    for block in new.blocks:
        if not old.block(block.name):
            yield f"NEW:{block.line}: NEW: block {block.name} is new"


def of_new_entries(old: Exchange, new: Exchange) -> Iterator[str]:
    for block in new.blocks:
        other = old.block(block.name)
        for name, line in block.enters.items():
            if other is None or name not in other.enters:
                words = f"entry {name} of block {block.name} is new"
                yield f"NEW:{line}: UNSENT: {words}: no line of a signal file can send to it"


def of_numbers(old: Exchange, new: Exchange) -> Iterator[str]:
    """Blocks that a reference may name, and that stand at another place."""
    places = [[block.name for block in one.blocks] for one in (old, new)]
    for name in {block.link for block in old.blocks if block.link and block.enters}:
        was, now = (one.index(name) + 1 if name in one else 0 for one in places)
        moved = new.block(name)
        if moved and was and was != now:
            words = f"block {name} is number {now} here and was number {was}"
            yield (f"NEW:{moved.line}: MOVED: {words}: references that are held change their block")


def refusal(old: Exchange, new: Exchange) -> Optional[str]:
    """The first thing that the new exchange lacks, as `plex change` tells it."""
    for line in of_entries(old, new):
        number = int(line.split(":")[1])
        for block in old.blocks:
            for name, there in block.enters.items():
                if there == number:
                    return f"CHANGE ENTRY {name} {block.name}\n"
    for line in of_files(old, new):
        words = line.split(": FILE: the FORLOPP FILE ")[1].split(" ")
        return f"CHANGE FILE {words[3]}.{words[0]}\n"
    return None


def made(chance: random.Random) -> Pair:
    old = made_exchange(chance)
    new = copy.deepcopy(old)
    for _ in range(chance.choice([0, 1, 1, 2, 3])):
        chance.choice(CHANGES)(new, chance)
    texts = Writer().exchange(old), Writer().exchange(new)
    parts = (of_entries, of_files, of_blocks, of_new_entries, of_numbers)
    lines = [line for part in parts for line in part(old, new)]
    return Pair(*texts, sorted(lines), refusal(old, new))


# comparing


Path = Union[str, pathlib.Path]


def without_column(line: str) -> str:
    name, number, _, rest = line.rstrip("\n").split(":", 3)
    return f"{name}:{number}:{rest}"


def differences(plex: Path, pair: Pair, folder: Path) -> Optional[str]:
    """What is wrong with what plex-check and plex tell of a pair, or None."""
    harness.write_files(folder, {"OLD": pair.old, "NEW": pair.new, "S": ""})
    here = os.getcwd()
    os.chdir(folder)
    try:
        words = ["--werror", "--no", ",".join(warnings.WARNINGS), "--change", "OLD", "NEW"]
        report = check.checked(words)
    finally:
        os.chdir(here)
    lines = sorted(map(without_column, report.lines))
    if lines != pair.lines or report.status != pair.status:
        beside = [line for line in lines if line not in pair.lines]
        lacking = [line for line in pair.lines if line not in lines]
        return f"status {report.status} and not {pair.status}, told {beside}, not told {lacking}"
    got = harness.answer(plex, ["change", "OLD", "S", "NEW", "1"], folder)
    status = 12 if pair.refusal else 0
    return harness.wrong(got, status, pair.refusal.encode() if pair.refusal else None)
