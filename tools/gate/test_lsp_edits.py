"""The language server plex-lsp behind edits, in long texts, and with what is no message or no text.

Edits are made by chance, and after each the answers are those of a server that is given the same
text afresh. What is no message, and any text, leaves the server running.
"""
from __future__ import annotations

import os
import random
import subprocess

import pytest

from gate import harness
from gate.checking import check
from gate.lsp_client import PYTHON, SERVER, Client, Failed, Json
from gate.lsp_example import (
    DESK,
    EXCHANGE,
    LINES,
    RATES,
    ROOM,
    TEXT,
    WHOLE,
    need_module,
    opened,
    place,
    start_of,
)
from gate.makers import put_faults
from plextools.text.tokens import KEYWORDS, Text
from plextools.text.ways import KnownWays, odd_ways

ASKED = (
    "documentSymbol foldingRange semanticTokens/full codeAction hover definition references "
    "documentHighlight completion prepareRename rename formatting"
).split()


# edits by chance


def an_edit(chance: random.Random, text: str) -> Json:
    """A change of a part of a text, or of the whole text."""
    lines = text.split("\n")
    if chance.random() < 0.2:
        put = put_faults.put(chance, [*lines])
        if put is not None:
            lines[put[0]] = put[1]
        return {"text": "\n".join(lines)}
    first = chance.randrange(len(lines))
    last = min(len(lines) - 1, first + chance.choice([0, 0, 0, 1, 3]))
    start = chance.randint(0, len(lines[first]))
    end = chance.randint(0 if last > first else start, len(lines[last]))
    if last == first and chance.random() < 0.5:
        end = min(end, start + 2)
    words = ["", ";", " ", "\n", "X", "FI;", "IF S = 1 THEN", "CALLS", "\u00e4", "\U0001f600", "!"]
    words += ["END BLOCK;\nBLOCK B;", chance.choice(KEYWORDS), chance.choice(LINES)]
    span = {
        "start": {"line": first, "character": units(lines[first][:start])},
        "end": {"line": last, "character": units(lines[last][:end])},
    }
    return {"range": span, "text": chance.choice(words)}


def units(text: str) -> int:
    """How many units of UTF-16 a text has."""
    return len(text.encode("utf-16-le")) // 2


def changed(text: str, change: Json) -> str:
    """The text behind a change, by UTF-16."""
    if "range" not in change:
        return str(change["text"])
    lines = [line.encode("utf-16-le") for line in text.split("\n")]
    start, end = change["range"]["start"], change["range"]["end"]
    before = [*lines[: start["line"]], lines[start["line"]][: 2 * start["character"]]]
    behind = [lines[end["line"]][2 * end["character"] :], *lines[end["line"] + 1 :]]
    line_end = "\n".encode("utf-16-le")
    data = line_end.join(before) + str(change["text"]).encode("utf-16-le") + line_end.join(behind)
    return data.decode("utf-16-le")


def answers(client: Client, uri: str, version: int, where: Json) -> Json:
    """What a server answers about a document, to each request."""
    found: Json = {"diagnostics": client.diagnostics(uri, version)}
    for name in ASKED:
        parameters = {
            "textDocument": {"uri": uri},
            "position": where,
            "range": WHOLE,
            "context": {"diagnostics": [], "includeDeclaration": True},
            "newName": "RENAMED",
        }
        try:
            found[name] = client.ask(f"textDocument/{name}", parameters)
        except Failed as failed:
            found[name] = failed.message
    return found


@pytest.mark.by_chance(12)
def test_edits(client: Client, other: Client, seed: str, number: int) -> None:
    """After each edit the answers are those of a server that opens the same text."""
    chance, text = random.Random(f"{seed} edits {number}"), EXCHANGE
    client.open(TEXT, text)
    for version in range(2, 10):
        changes = []
        for _ in range(chance.choice([1, 1, 2])):
            changes.append(an_edit(chance, text))
            text = changed(text, changes[-1])
        client.change(TEXT, version, changes)
        lines = text.split("\n")
        where = {"line": chance.randrange(len(lines)), "character": chance.randint(0, 30)}
        other.open(TEXT, text)
        found, wanted = answers(client, TEXT, version, where), answers(other, TEXT, 1, where)
        other.close_all()
        different = [name for name in wanted if found[name] != wanted[name]]
        check(*(f"{name} after {changes}: {found[name]}, {wanted[name]}" for name in different))


# what is odd in blocks that stay the same

DIRECT = ("GONE OUTSIDE", "GONE SINGLE DIRECT")
UNREACHED = "  EXIT;\n  S = 5;"
ODD = ("  S = 3;", "  IF S = S THEN\n    S = 4;\n  FI;", UNREACHED, "! a comment", "")
STATEMENTS = (18, 19, 20, 23, 25, 26, 36, 37, 38, 40)  # lines of the example, from 0


@pytest.mark.by_chance(40)
def test_known_ways(seed: str, number: int) -> None:
    """What is odd in blocks that did not change is told as in a text that is new."""
    chance, known = random.Random(f"{seed} ways {number}"), KnownWays()
    added, found = {}, []
    for odd in [*chance.choices(ODD, k=9), UNREACHED]:
        added[chance.choice(STATEMENTS)] = odd
        added[DESK] = chance.choice(ODD[3:]) + "\n" * chance.randrange(2)
        lines = [f"{added[at]}\n{line}" if at in added else line for at, line in enumerate(LINES)]
        text = "\n".join(lines)
        if chance.random() < 0.3:
            text = text.replace(*DIRECT)
        clean = Text(text.encode(), 1).clean
        found = odd_ways(clean, known=known)
        assert found == odd_ways(clean), text
    assert found


# long texts


def long_text(blocks: int, steps: int) -> str:
    """A text of some blocks, each of which has the statements of RATES many times."""
    parts = [*LINES[2:5], *LINES[DESK:RATES]]
    for block in range(blocks):
        body = LINES[RATES : len(LINES) - 3]
        parts += [line.replace("RATES", f"R{block}") for line in body if "ASK W" not in line]
        parts[-7:-7] = [] if block else ["  ENTER ASK WITH S;"]
        for step in range(steps):
            parts += [f"L{step})", f"  ASKED = S + {step};", f"  IF S = {step} GOTO L{step};"]
        parts += ["  RETURN TOLD WITH S;", "END BLOCK;"]
    text = "\n".join(parts)
    head, _, rest = text.partition("BLOCK R1;")
    return head + "BLOCK R1;" + rest.replace("  RECEIVE ASK;\n", "")


def test_long_text(client: Client) -> None:
    """In a long text the faults near an edit are told first, at their right places; then the whole
    text is looked at, and the same is told.
    """
    text = long_text(3, 500)
    assert len(text) > 2**16
    client.open(TEXT, text)
    before = client.diagnostics(TEXT, 1)
    lines = text.split("\n")
    line = next(at for at in range(len(lines) * 2 // 3, len(lines)) if "ASKED = S" in lines[at])
    at_end = {"line": line, "character": len(lines[line])}
    change = {"range": {"start": at_end, "end": at_end}, "text": "\n  ASKED = NONESUCH;"}
    client.change(TEXT, 2, [change])
    near, whole = client.diagnostics(TEXT, 2), client.diagnostics(TEXT, 2, 2)
    for told in (near, whole):
        found = [one for one in told if "NONESUCH" in one["message"]]
        assert [start_of(one) for one in found] == [(line + 1, 10)]
        assert len(told) == len(before) + 1
    assert client.published_of(TEXT, 2)[0]["diagnostics"] == near


# what is no message, and any text


BROKEN = {
    "no JSON": b'Content-Length: 5\r\n\r\n{"a":',
    "no UTF-8": b'Content-Length: 3\r\n\r\n"\xff"',
    "a number": b"Content-Length: 1\r\n\r\n7",
    "a list": b"Content-Length: 2\r\n\r\n[]",
    "no method": b'Content-Length: 18\r\n\r\n{"jsonrpc": "2.0"}',
    "another version": b'Content-Length: 27\r\n\r\n{"jsonrpc":"1.0","id":1234}',
    "no length": b"Content-Length: many\r\n\r\n",
    "a sign": b"Content-Length: -5\r\n\r\n",
    "a huge length": b"Content-Length: 99999999999999999999\r\n\r\n",
    "other lines first": b"Content-Type: text\r\nContent-Length: 2\r\n\r\n{}",
    "deep brackets": b"Content-Length: 100000\r\n\r\n" + b"[" * 100000,
}


@pytest.mark.parametrize("name", BROKEN)
def test_broken_message(client: Client, name: str) -> None:
    """What is no message is answered by an error, and the server goes on."""
    client.send_bytes(BROKEN[name])
    with pytest.raises(Failed) as failed:
        client.answer(None)
    assert failed.value.code in (-32700, -32600)
    assert opened(client).ask("textDocument/hover", client.at(TEXT, *place(18, "CALLS")))


ODD_REQUESTS: dict[str, tuple[str, object]] = {
    "an unknown method": ("textDocument/nonesuch", {}),
    "no parameters": ("textDocument/hover", None),
    "a list of them": ("textDocument/hover", [1]),
    "no position": ("textDocument/hover", {"textDocument": {"uri": TEXT}}),
    "a word for a line": (
        "textDocument/hover",
        {"textDocument": {"uri": TEXT}, "position": {"line": "x", "character": 0}},
    ),
    "no new name": (
        "textDocument/rename",
        {"textDocument": {"uri": TEXT}, "position": {"line": 18, "character": 3}},
    ),
}


@pytest.mark.parametrize("name", ODD_REQUESTS)
def test_odd_request(client: Client, name: str) -> None:
    """A request that cannot be answered has an error for its answer, and the server goes on."""
    method, parameters = ODD_REQUESTS[name]
    opened(client)
    with pytest.raises(Failed):
        client.ask(method, parameters)
    assert client.ask("textDocument/hover", client.at(TEXT, *place(18, "CALLS")))


ODD_PARAMETERS: tuple[object, ...] = (
    None,
    {},
    [1, 2],
    {"textDocument": 7},
    {"textDocument": {"uri": TEXT}},
)


def test_odd_notifications(client: Client) -> None:
    """Notifications that make no sense change nothing."""
    opened(client)
    for method in ("textDocument/didChange", "textDocument/didOpen", "$/nonesuch", "nonesuch"):
        for parameters in ODD_PARAMETERS:
            client.tell(method, parameters)
    client.tell("$/cancelRequest", {"id": {"a": 1}})
    client.send({"jsonrpc": "2.0", "id": 99, "result": None})
    assert client.ask("textDocument/hover", client.at(TEXT, *place(18, "CALLS")))


def test_cancelled_request(client: Client) -> None:
    """A request that is cancelled has an answer all the same."""
    number = opened(client).begin(
        "textDocument/semanticTokens/full", {"textDocument": {"uri": TEXT}}
    )
    client.tell("$/cancelRequest", {"id": number})
    try:
        assert client.answer(number)["data"]
    except Failed as failed:
        assert failed.code == -32800


@pytest.mark.by_chance(6)
def test_chance_bytes(client: Client, seed: str, number: int) -> None:
    """No text ends the server."""
    chance = random.Random(f"{seed} bytes {number}")
    for version in range(1, 6):
        size = chance.choice([0, 1, 10, 1000, 5000])
        letters = [chr(chance.choice([chance.randrange(128), chance.randrange(0xD7FF)]))]
        letters += [chr(chance.randrange(chance.choice([128, 256, 0xD7FF]))) for _ in range(size)]
        words = [
            chance.choice([*KEYWORDS, "A" * 4096, ";", "\ud800", "\n", "!"]) for _ in range(60)
        ]
        text = "".join(letters) if version % 2 else " ".join(words)
        language = chance.choice(["plex", "plex-signals", "plex-table", "plex-filter"])
        uri = f"{ROOM}chance{version}"
        client.open(uri, text, language)
        answers(client, uri, 1, {"line": chance.randrange(9), "character": chance.randrange(9)})


def test_long_names(client: Client) -> None:
    """Names of 4,096 letters, of a document too."""
    uri = ROOM + "d" * 4096
    client.open(uri, EXCHANGE.replace("CALLS", "C" * 4096))
    assert {one["code"] for one in client.diagnostics(uri, 1)} >= {"LONGNAME"}


# the program


def test_end() -> None:
    """The server ends when it is told, and when the client goes away."""
    need_module()
    assert Client().end() == 0
    client = Client()
    assert client.process.stdin
    client.process.stdin.close()
    assert client.process.wait(harness.WHILE) == 1


def test_module_is_missing() -> None:
    """One sentence tells where the module of the messages comes from."""
    words = [PYTHON, "-S", "-B", str(SERVER)]
    done = subprocess.run(
        words, capture_output=True, text=True, stdin=subprocess.DEVNULL, timeout=harness.WHILE
    )
    assert done.returncode == 2 and done.stdout == ""
    assert "apt-get install python3-pylsp-jsonrpc" in done.stderr
    assert done.stderr.count("\n") == 1


def test_wrong_words() -> None:
    words = [PYTHON, "-B", str(SERVER), "x"]
    done = subprocess.run(words, capture_output=True, text=True, timeout=harness.WHILE)
    assert done.returncode == 2 and done.stderr.startswith("plex-lsp: ")
    assert os.access(SERVER, os.X_OK)
