"""The wrong bodies of a crate: what its files of edits say, and what the prover says of each.

A file of edits has for each wrong body a comment with its name, the function in which the prover
must find the fault, and what it does wrong, and then what it replaces:

    # seize_takes_a_65th_record: fn seizing::seize: appends a record to a chain of 64
    file: src/seizing.rt
    old:     if chain.as_slice().len() >= MOST_HELD {
    new:     if chain.as_slice().len() > MOST_HELD {

A comment that goes on in a second line begins there with `#` and three spaces.
"""
import collections
import pathlib
import re
from typing import Dict, List, NamedTuple, Optional

HEADING = re.compile(
    r"# (?P<name>\w+): (?P<kind>fn|const) (?P<path>(?:(?:\w+|<\w+ as \w+>)::)*\w+): (?P<says>\S.*)"
)
GOES_ON = "#   "
OF_TRAIT = re.compile(r"<(\w+) as (\w+)>")
OWN_GOAL = re.compile(r"no proof: expected .*\bdid not prove `")
PARTS = "src", "specs", "proofs"


class BadEdits(Exception):
    """A file of edits cannot be read or applied; the text tells why."""


class Replacement(NamedTuple):
    """A text that stands once in a file of the crate, and the one that takes its place."""

    file: str
    old: str
    new: str


class WrongBody(NamedTuple):
    """A wrong body: its name, whether a function or a constant is turned, and what it replaces."""

    name: str
    kind: str
    path: str
    says: str
    replacements: List[Replacement]

    def function(self) -> str:
        """The path of its function as the prover writes it: a method of a trait stands below one
        name of both.
        """
        return OF_TRAIT.sub(r"\1\2", self.path)


class EditFile(NamedTuple):
    """The wrong bodies of a file, which are tried in one check."""

    path: pathlib.Path
    bodies: List[WrongBody]


def read(path: pathlib.Path) -> EditFile:
    """The wrong bodies of a file of edits."""
    bodies: List[WrongBody] = []
    file: Optional[str] = None
    old: Optional[str] = None
    for number, line in enumerate(path.read_text(encoding="utf-8").split("\n"), 1):
        where = f"{path.parent.parent.name}/{path.name}:{number}"
        heading = HEADING.fullmatch(line)
        if heading:
            bodies.append(
                WrongBody(heading["name"], heading["kind"], heading["path"], heading["says"], [])
            )
            file = old = None
        elif not line or (line.startswith(GOES_ON) and bodies and not bodies[-1].replacements):
            continue
        elif not bodies:
            raise BadEdits(
                f"{where}: a wrong body has no comment with its name, its function and what it does"
                " wrong"
            )
        elif line.startswith("file: "):
            file = line[len("file: ") :]
        elif line.startswith("old: ") and file:
            old = line[len("old: ") :]
        elif line.startswith("new:") and file and old:
            bodies[-1].replacements.append(
                Replacement(file, old, line[len("new:") :].replace(" ", "", 1))
            )
            old = None
        else:
            raise BadEdits(f"{where}: this line is none of an edit: {line[:60]}")
    look_at(path, bodies)
    return EditFile(path, bodies)


def look_at(path: pathlib.Path, bodies: List[WrongBody]) -> None:
    """Refuses wrong bodies that one check of the prover would not tell apart, and those that
    replace nothing.
    """
    where = f"{path.parent.parent.name}/{path.name}"
    empty = [body.name for body in bodies if not body.replacements]
    if empty or not bodies:
        raise BadEdits(f"{where}: {', '.join(empty) or 'the file'} replaces nothing")
    if len(bodies) > 1:
        constants = [body.name for body in bodies if body.kind != "fn"]
        if constants:
            raise BadEdits(
                f"{where}: {constants[0]} turns no function, so it stands in a file of its own"
            )
        path_of, many = collections.Counter(body.path for body in bodies).most_common(1)[0]
        if many > 1:
            raise BadEdits(
                f"{where}: {many} wrong bodies are of fn {path_of}: one of them in another file"
            )


def edited(edits: EditFile, crate: pathlib.Path) -> Dict[str, str]:
    """The text of each file of the crate that the edits change."""
    texts: Dict[str, str] = {}
    for body in edits.bodies:
        for file, old, new in body.replacements:
            if file not in texts:
                try:
                    texts[file] = (crate / file).read_text(encoding="utf-8")
                except OSError as wrong:
                    raise BadEdits(
                        f"{crate.name}: {body.name}: {file}: {wrong.strerror}"
                    ) from wrong
            found = texts[file].count(old)
            if found != 1:
                raise BadEdits(
                    f"{crate.name}: {body.name}:"
                    f" {old.strip()[:60]!r} stands {found} times in {file}"
                )
            texts[file] = texts[file].replace(old, new)
    return texts


def of_crate(crate: pathlib.Path) -> List[EditFile]:
    """The files of edits of a crate, none where it has no wrong body."""
    files = [read(path) for path in sorted((crate / "must-fail").glob("*.edit"))]
    names = collections.Counter(body.name for file in files for body in file.bodies)
    twice = [name for name, many in names.items() if many > 1]
    if twice:
        raise BadEdits(f"{crate.name}: {twice[0]} is the name of several wrong bodies")
    return files


class Said:
    """What the prover said of a crate."""

    def __init__(self, crate: str, text: str) -> None:
        self.crate, self.text = crate, text
        self.statuses = dict(re.findall(rf"(?m)^fn {crate}::(\S+): (.*)$", text))

    def line(self, body: WrongBody) -> str:
        """Its line of the wrong body's function."""
        status = self.statuses.get(body.function())
        return f"fn {self.crate}::{body.function()}: {status}" if status else ""

    def refuses(self, body: WrongBody) -> bool:
        """Whether the wrong body's own function has a fault: a goal that was not proved, or an
        error in a proof of it. That it calls a function which is not proved is no fault of its
        own."""
        status = self.statuses.get(body.function(), "")
        if status == "not proved":
            return True
        if status.startswith("not proved"):
            folder = body.function().replace("::", "/")
            return bool(
                re.search(
                    rf"(?m)^(\./)?proofs/{re.escape(folder)}/\w+\.antt:\d+:\d+: error", self.text
                )
            )
        return bool(OWN_GOAL.match(status))

    def errors(self) -> str:
        """The first lines that tell of an error, else the last line."""
        lines = self.text.rstrip("\n").split("\n")
        return "\n".join(
            [line for line in lines if re.search(r"\berror\b", line)][:4] or lines[-1:]
        )
