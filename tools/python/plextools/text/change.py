"""What a change of an exchange to another one keeps, drops, narrows and begins anew, and why it is
refused.

`Change` compares what two Checkers have found in two texts without faults. It gives lines: which
text (0 for the old one, 1 for the new one), the place in it, a word and a sentence.
"""
from typing import Iterator, List, NamedTuple, Optional

from plextools.text.faults import Block, Checker, Declared, Signal, counted

REFUSALS = {
    "ENTRY": "the new exchange lacks an entry",
    "FILE": "the new exchange lacks a FORLOPP FILE",
}
CHANGES = {
    "DROPPED": "values are dropped",
    "NARROWED": "values may not fit any more",
    "STAYS": "a value goes over, though its INIT has changed",
    "UNSENT": "lines of the signal file cannot send to an entry",
    "MOVED": "a block has another number, which references name",
}
NOTES = {"KEPT": "what goes over", "NEW": "what is new, and begins with its INIT value"}
OLD_TEXT, NEW_TEXT = 0, 1


class Told(NamedTuple):
    """A line about a change: which text, the place in it, a word and a sentence."""

    text: int
    place: int
    word: str
    sentence: str


class Entry(NamedTuple):
    """An entry: its block, its signal, and the place of its ENTER."""

    block: Block
    signal: Signal
    place: int


def known(number: Optional[int]) -> int:
    """A number of a declaration, which is there where a text has no faults."""
    assert number is not None
    return number


def by_name(checker: Checker, name: Optional[str]) -> Optional[Block]:
    """The block of this name, where there is one."""
    return checker.block_names.get(name) if name else None


class Change:
    """What a change of an exchange to another one does."""

    def __init__(self, old: Checker, new: Checker) -> None:
        self.old, self.new = old, new
        self.lines: List[Told] = []

    def tell(self, text: int, place: int, word: str, sentence: str) -> None:
        self.lines.append(Told(text, place, word, sentence))

    def compare(self) -> List[Told]:
        self.look_at_entries()
        for block in self.old.blocks:
            self.look_at_files(block)
        for block in self.old.blocks:
            self.look_at_block(block, by_name(self.new, block.name))
        for block in self.new.blocks:
            if block.name not in self.old.block_names:
                self.tell(NEW_TEXT, block.place, "NEW", f"block {block.name} is new")
        self.look_at_new_entries()
        self.look_at_numbers()
        return self.lines

    def entries(self, checker: Checker) -> Iterator[Entry]:
        """The entries in their order."""
        for block in checker.blocks:
            for name, places in block.enters.items():
                if checker.signals[name].kind == "BUFFERED":
                    yield Entry(block, checker.signals[name], places[0])

    def look_at_entries(self) -> None:
        there = {
            (entry.block.name, entry.signal.name): entry.signal for entry in self.entries(self.new)
        }
        for block, signal, place in self.entries(self.old):
            other = there.get((block.name, signal.name))
            if other is None:
                lacks = f"the new text has no entry of {signal.name} at block {block.name}"
                self.tell(OLD_TEXT, place, "ENTRY", lacks)
            elif (signal.level, signal.count) != (other.level, other.count):
                was, now = (
                    f"level {one.level} and {counted(one.count, 'value')}"
                    for one in (signal, other)
                )
                differs = f"{signal.name} has {was}, and {now} in the new text"
                self.tell(OLD_TEXT, place, "ENTRY", differs)

    def look_at_files(self, block: Block) -> None:
        other = by_name(self.new, block.name)
        for name, file in block.names.items():
            if file.kind != "file" or not file.forlopp:
                continue
            told = f"the FORLOPP FILE {name} of block {block.name}"
            new = other.names.get(name) if other else None
            if new is None or new.kind != "file" or not new.forlopp:
                stands = f"is {new.told()} in the new text" if new else "is not in the new text"
                self.tell(OLD_TEXT, file.place, "FILE", f"{told} {stands}")
            elif known(new.size) < known(file.size):
                sizes = f"SIZE {file.size}, and {new.size} in the new text"
                self.tell(OLD_TEXT, file.place, "FILE", f"{told} has {sizes}")

    def look_at_block(self, block: Block, other: Optional[Block]) -> None:
        if other is None:
            if any(one.kind in ("variable", "field") for one in block.names.values()):
                values = "the values of its variables and fields are dropped"
                what = f"block {block.name} is not in the new text: {values}"
                self.tell(OLD_TEXT, block.place, "DROPPED", what)
            return
        kept = {"variable": 0, "field": 0}
        for name, one in block.names.items():
            if one.kind not in kept:
                continue
            new = other.names.get(name)
            if new is None or new.kind != one.kind or self.file_of(one) != self.file_of(new):
                sentence = (
                    f"{self.told(block, name, one)} is not in the new text: its value is dropped"
                )
                self.tell(OLD_TEXT, one.place, "DROPPED", sentence)
                continue
            kept[one.kind] += 1
            self.look_at_width(block, name, one, new)
            self.look_at_init(block, name, one, new)
        for name, new in other.names.items():
            self.look_at_new(block, other, name, new)
        if any(kept.values()):
            what = " and ".join(counted(number, kind) for kind, number in kept.items() if number)
            verb = "goes" if sum(kept.values()) == 1 else "go"
            self.tell(NEW_TEXT, other.place, "KEPT", f"block {block.name}: {what} {verb} over")

    def look_at_width(self, block: Block, name: str, one: Declared, new: Declared) -> None:
        width = known(new.width)
        if width < known(one.width):
            widths = f"WIDTH {one.width} becomes {width}"
            becomes = f"values over {2**width - 1} become {new.init or 0}"
            sentence = f"{self.told(block, name, one)}: {widths}, {becomes}"
            self.tell(NEW_TEXT, new.place, "NARROWED", sentence)

    def look_at_init(self, block: Block, name: str, one: Declared, new: Declared) -> None:
        was, now = one.init or 0, new.init or 0
        if was != now and was < 2 ** known(new.width):
            becomes = f"INIT {was} becomes {now}, and values that go over stay"
            self.tell(NEW_TEXT, new.place, "STAYS", f"{self.told(block, name, one)}: {becomes}")

    def look_at_new(self, block: Block, other: Block, name: str, new: Declared) -> None:
        one = block.names.get(name)
        if new.kind == "file":
            if one and one.kind == "file":
                self.look_at_size(f"file {name} of block {block.name}", one, new)
        elif new.kind in ("variable", "field") and (
            one is None or one.kind != new.kind or self.file_of(one) != self.file_of(new)
        ):
            sentence = f"{self.told(other, name, new)} is new, and begins with {new.init or 0}"
            self.tell(NEW_TEXT, new.place, "NEW", sentence)

    def look_at_size(self, told: str, one: Declared, new: Declared) -> None:
        was, now = known(one.size), known(new.size)
        if now < was and not one.forlopp:
            sentence = f"{told}: SIZE {was} becomes {now}, the last records are dropped"
            self.tell(NEW_TEXT, new.place, "NARROWED", sentence)
        elif now > was:
            self.tell(NEW_TEXT, new.place, "NEW", f"{told} has {counted(now - was, 'record')} more")

    def told(self, block: Block, name: str, one: Declared) -> str:
        file = self.file_of(one)
        return (
            f"field {name} of {block.name}.{file}"
            if file
            else f"{one.kind} {name} of block {block.name}"
        )

    def file_of(self, one: Declared) -> Optional[str]:
        """The name of the file of a field; None of a variable."""
        return one.file.name if one.file else None

    def look_at_new_entries(self) -> None:
        there = {(entry.block.name, entry.signal.name) for entry in self.entries(self.old)}
        for block, signal, place in self.entries(self.new):
            if (block.name, signal.name) not in there:
                unsent = "no line of a signal file can send to it"
                sentence = f"entry {signal.name} of block {block.name} is new: {unsent}"
                self.tell(NEW_TEXT, place, "UNSENT", sentence)

    def look_at_numbers(self) -> None:
        """A held reference is a number, that of the block in the order of the text."""
        held = {name for block in self.old.blocks for name in block.links}
        for name in sorted(held):
            old, new = self.old.block_names.get(name), self.new.block_names.get(name)
            if old and new and old.number != new.number:
                numbers = f"is number {new.number + 1} here and was number {old.number + 1}"
                sentence = f"block {name} {numbers}: references that are held change their block"
                self.tell(NEW_TEXT, new.place, "MOVED", sentence)
