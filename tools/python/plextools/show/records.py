"""Findings for programs that read them: a line of JSON for each, or one document of SARIF 2.1.0.

Lines and columns are counted from 1, columns in characters; an end is the column behind the last
character. See docs/plex-check.1, Records.
"""
import urllib.parse
from typing import Dict, Iterator, List, Mapping, Sequence

from plextools import VERSION
from plextools.show.snippets import Columns
from plextools.tables import as_json
from plextools.text.finding import Edit, Finding, Note, Severity, Source, Span

SCHEMA = "https://json.schemastore.org/sarif-2.1.0.json"
Record = Dict[str, object]


class Records:
    """Findings as data."""

    def __init__(self, sources: Sequence[Source], words: Mapping[str, str]) -> None:
        self.sources, self.words = sources, words
        self.columns = [Columns(source) for source in sources]

    def position(self, file: int, place: int) -> Record:
        line = self.sources[file].lines.line(place)
        return {"line": line, "column": self.columns[file].column(place)}

    # JSON

    def lines(self, findings: Sequence[Finding]) -> Iterator[str]:
        """A record for each finding, each on a line."""
        for finding in findings:
            yield as_json(self.record(finding), True)

    def record(self, finding: Finding) -> Record:
        file, advice = finding.file, finding.advice
        place: Record = {"line": 0, "column": 0, "end": {"line": 0, "column": 0}}
        if finding.place is not None:
            place = self.span(file, Span(finding.place, self.end(finding)))
        return {
            "file": self.name(file),
            **place,
            "word": finding.word,
            "severity": finding.severity.value,
            "message": finding.sentence,
            "also": [self.span(file, span) for span in finding.others],
            "notes": [self.note(note) for note in advice.notes],
            "fix": self.fix(finding),
        }

    def name(self, file: int) -> str:
        """The name of a file; a byte of it that is none of UTF-8 is shown by its number."""
        return (
            self.sources[file]
            .name.encode("utf-8", "surrogateescape")
            .decode("utf-8", "backslashreplace")
        )

    def end(self, finding: Finding) -> int:
        """Where the part ends that is marked, which does not begin behind the place."""
        place = finding.place or 0
        return max(finding.advice.span.end, place)

    def span(self, file: int, span: Span) -> Record:
        return {**self.position(file, span.start), "end": self.position(file, span.end)}

    def note(self, note: Note) -> Record:
        told: Record = {"message": note.sentence, "file": self.name(note.file)}
        return {**told, **self.span(note.file, note.span)}

    def fix(self, finding: Finding) -> object:
        if not finding.advice.cure:
            return None
        edits = [self.edit(finding.file, edit) for edit in finding.advice.edits]
        return {"message": finding.advice.cure, "edits": edits}

    def edit(self, file: int, edit: Edit) -> Record:
        place = self.span(file, Span(edit.start, edit.end))
        place["text"] = edit.text
        return place

    # SARIF

    def sarif(self, findings: Sequence[Finding], status: int) -> str:
        """All findings as one document."""
        used = sorted({finding.word for finding in findings})
        rules = [self.rule(word) for word in used]
        driver = {"name": "plex-check", "version": VERSION, "rules": rules}
        run = {
            "tool": {"driver": driver},
            "columnKind": "unicodeCodePoints",
            "invocations": [{"executionSuccessful": True, "exitCode": status}],
            "artifacts": [{"location": self.location(file)} for file in range(len(self.sources))],
            "results": [self.result(finding, used) for finding in findings],
        }
        return as_json({"$schema": SCHEMA, "version": "2.1.0", "runs": [run]})

    def rule(self, word: str) -> Record:
        told = self.words.get(word, word)
        text = f"plex-check --explain {word} tells more."
        return {"id": word, "shortDescription": {"text": told}, "help": {"text": text}}

    def location(self, file: int) -> Record:
        name = self.sources[file].name.encode("utf-8", "surrogateescape")
        path = urllib.parse.quote(name)
        return {"uri": f"file://{path}" if path.startswith("/") else path, "index": file}

    def result(self, finding: Finding, used: List[str]) -> Record:
        level = "note" if finding.severity is Severity.NOTE else finding.severity.value
        result: Record = {
            "ruleId": finding.word,
            "ruleIndex": used.index(finding.word),
            "level": level,
            "message": {"text": finding.sentence},
            "locations": [self.place(finding)],
        }
        related = [self.at(finding.file, span, "also here") for span in finding.others]
        related += [self.at(one.file, one.span, one.sentence) for one in finding.advice.notes]
        if related:
            result["relatedLocations"] = related
        if finding.advice.edits:
            result["fixes"] = [self.sarif_fix(finding)]
        return result

    def place(self, finding: Finding) -> Record:
        if finding.place is None:
            return {"physicalLocation": {"artifactLocation": self.location(finding.file)}}
        return self.at(finding.file, Span(finding.place, self.end(finding)), "")

    def at(self, file: int, span: Span, sentence: str) -> Record:
        there = {"artifactLocation": self.location(file), "region": self.region(file, span)}
        place: Record = {"physicalLocation": there}
        if sentence:
            place["message"] = {"text": sentence}
        return place

    def region(self, file: int, span: Span) -> Record:
        start, end = self.position(file, span.start), self.position(file, span.end)
        return {
            "startLine": start["line"],
            "startColumn": start["column"],
            "endLine": end["line"],
            "endColumn": end["column"],
        }

    def sarif_fix(self, finding: Finding) -> Record:
        changes = [self.replacement(finding.file, edit) for edit in finding.advice.edits]
        change = {"artifactLocation": self.location(finding.file), "replacements": changes}
        return {"description": {"text": finding.advice.cure}, "artifactChanges": [change]}

    def replacement(self, file: int, edit: Edit) -> Record:
        region = self.region(file, Span(edit.start, edit.end))
        return {"deletedRegion": region, "insertedContent": {"text": edit.text}}
