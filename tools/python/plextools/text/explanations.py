"""What each word means that plex and plex-check tell of a file, with a wrong and a right example.

They stand in `explanations.txt`, which is the one source for them. A line that begins with # is a
comment there, and blank lines part nothing. Behind `@ frame` stands the exchange text of the
examples that have none of their own. Behind `@ word N6` stand, line by line, the word in short, the
document that says exactly what it is with the heading there, and its meaning. Behind `@ wrong` and
`@ right` stands an example that gives the word, and one that does not; each is an exchange text, or
the file of the name that follows. An example of a single line `made` is a certificate that plex
certify writes.
"""
import pathlib
import textwrap
from functools import lru_cache
from typing import Dict, Iterator, List, Mapping, NamedTuple, Tuple

from plextools.text import change, warnings

PLACE = pathlib.Path(__file__).with_name("explanations.txt")
EXCHANGE, MADE = "exchange.plex", "made\n"
WIDTH, DEEP = 78, "    "
Files = Dict[str, str]


class Explanation(NamedTuple):
    """What a word means: in short, at length, where the documents say it, and two examples, each of
    files by their names; there are none of a file that would be too large.
    """

    word: str
    title: str
    section: str
    meaning: str
    wrong: Files
    right: Files

    @property
    def heads(self) -> Tuple[str, str]:
        """What is said above the two examples."""
        is_fault = self.word not in (*warnings.WARNINGS, *change.CHANGES, *change.NOTES)
        return ("Wrong:", "Right:") if is_fault else ("Told of:", "Not told of:")

    def lines(self) -> Iterator[str]:
        """The explanation as it is written for people."""
        yield from textwrap.wrap(f"{self.word}: {self.title}", WIDTH, subsequent_indent=DEEP)
        yield ""
        yield from textwrap.wrap(self.meaning, WIDTH)
        shared = self.shared()
        if shared:
            yield from example("For the exchange text:", {EXCHANGE: shared})
        for head, files in zip(self.heads, (self.wrong, self.right)):
            own = {name: text for name, text in files.items() if not shared or name != EXCHANGE}
            yield from example(head, own)
        yield ""
        yield f"See {self.section}."

    def shared(self) -> str:
        """The exchange text of both examples, where it is that of both."""
        texts = {files.get(EXCHANGE, "") for files in (self.wrong, self.right)}
        return texts.pop() if len(texts) == 1 else ""


def example(head: str, files: Mapping[str, str]) -> Iterator[str]:
    """The files of an example, each with its name where there are several."""
    if files:
        yield ""
        yield head
    for name, text in files.items():
        if len(files) > 1:
            yield f"  {name}:"
        lines = ["what plex certify writes"] if text == MADE else text.splitlines()
        yield from (f"{DEEP}{line}" for line in lines)


@lru_cache(maxsize=None)
def explanations() -> Mapping[str, Explanation]:
    """All of them by their words, in their order."""
    parts = [part for part in parted(PLACE.read_text())]
    frame = next(lines for head, lines in parts if head == "frame")
    found: Dict[str, Explanation] = {}
    word = ""
    for head, lines in parts:
        kind, _, name = head.partition(" ")
        if kind == "word":
            word = name
            title, section, *meaning = lines
            found[word] = Explanation(word, title, section, " ".join(meaning), {}, {})
        elif kind in ("wrong", "right"):
            files = found[word].wrong if kind == "wrong" else found[word].right
            files[name or EXCHANGE] = text_of(lines)
    for one in found.values():
        for files in (one.wrong, one.right):
            fill(files, text_of(frame))
    return found


def fill(files: Files, frame: str) -> None:
    """An example without an exchange text gets that of the frame, before its other files."""
    if files and EXCHANGE not in files:
        others = dict(files)
        files.clear()
        files.update({EXCHANGE: frame, **others})


def text_of(lines: List[str]) -> str:
    return "".join(f"{line}\n" for line in lines)


def parted(text: str) -> Iterator[Tuple[str, List[str]]]:
    """The parts of the file: the words of each line with @, and the lines behind it."""
    head = ""
    lines: List[str] = []
    for line in text.splitlines():
        if line.startswith("@ "):
            if head:
                yield head, lines
            head, lines = line[2:], []
        elif line and not line.startswith("#"):
            lines.append(line)
    yield head, lines


def titles() -> Mapping[str, str]:
    """Each word with what it says in short."""
    return {word: one.title for word, one in explanations().items()}
