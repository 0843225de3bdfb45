"""The language server plex-lsp, over its standard input and output: each request of an example."""
from __future__ import annotations

import pathlib

import pytest

from gate import harness
from gate.checking import check
from gate.lsp_client import Client, Failed, Json
from gate.lsp_example import (
    CALLS,
    EXCHANGE,
    LINES,
    ROOM,
    SIGNALS,
    TEXT,
    WHOLE,
    applied,
    need_module,
    opened,
    place,
    start_of,
)

# each request


DEFINITIONS = {
    "variable": (place(18, "CALLS"), place(7, "CALLS")),
    "its second place": (place(18, "CALLS", 2), place(7, "CALLS")),
    "temporary": (place(20, "T;"), place(9, "T;")),
    "temporary of a block": (place(37, "S"), place(30, "S;")),
    "field": (place(22, "STATE"), place(11, "STATE")),
    "pointer": (place(22, "S)"), place(8, "S;")),
    "label": (place(19, "IDLE"), place(24, "IDLE")),
    "signal": (place(17, "CALL"), place(2, "CALL")),
    "answer": (place(40, "TOLD"), place(3, "TOLD")),
    "line of a survey": (place(33, "ASK"), place(3, "ASK")),
}


@pytest.mark.parametrize("name", DEFINITIONS)
def test_definition(client: Client, name: str) -> None:
    """A name leads to where it is declared."""
    asked, wanted = DEFINITIONS[name]
    found = opened(client).ask("textDocument/definition", client.at(TEXT, *asked))
    assert start_of(found) == wanted


USES = {
    "CALLS": [place(7, "CALLS"), place(18, "CALLS"), place(18, "CALLS", 2)],
    "TOLD": [place(3, "TOLD"), place(21, "TOLD"), place(40, "TOLD")],
    "IDLE": [place(19, "IDLE"), place(24, "IDLE")],
    "STATE": [place(11, "STATE"), place(19, "STATE"), place(22, "STATE")],
    "T": [place(9, "T;"), place(17, "T;"), place(20, "T;"), place(21, "T;"), place(22, "T;")],
}


@pytest.mark.parametrize("name", USES)
def test_references(client: Client, name: str) -> None:
    """All places of a name are found, with its declaration and without it, from each of them."""
    declared = start_of(
        opened(client).ask("textDocument/definition", client.at(TEXT, *USES[name][0]))
    )
    used = [one for one in USES[name] if one != declared]
    for asked in USES[name]:
        for with_it, wanted in ((True, USES[name]), (False, used)):
            context = {"includeDeclaration": with_it}
            parameters = client.at(TEXT, *asked, context=context)
            found = client.ask("textDocument/references", parameters)
            assert sorted(map(start_of, found)) == wanted


def test_local_names_are_of_their_block(client: Client) -> None:
    """A temporary of one block is not that of another one."""
    parameters = opened(client).at(TEXT, *place(35, "S;"), context={"includeDeclaration": True})
    found = client.ask("textDocument/references", parameters)
    assert {start_of(one)[0] for one in found} == {30, 35, 36, 37, 40}


RENAMED = {"CALLS": "COUNT", "TOLD": "SAID", "IDLE": "L1", "STATE": "A", "T": "TT"}


@pytest.mark.parametrize("name", RENAMED)
def test_rename(client: Client, name: str) -> None:
    """A name gets another one at all its places, and the text stays right."""
    new, asked = RENAMED[name], USES[name][-1]
    parameters = opened(client).at(TEXT, *asked)
    assert client.ask("textDocument/prepareRename", parameters)["placeholder"] == name
    edits = client.ask("textDocument/rename", {**parameters, "newName": new})["changes"][TEXT]
    assert len(edits) == len(USES[name])
    text = applied(EXCHANGE, edits)
    before = client.diagnostics(TEXT, 1)
    client.change(TEXT, 2, [{"text": text}])
    assert len(client.diagnostics(TEXT, 2)) == len(before)
    back = client.ask("textDocument/rename", {**parameters, "newName": name})["changes"][TEXT]
    assert applied(text, back) == EXCHANGE


def test_rename_in_line_files(client: Client) -> None:
    """A signal gets its new name in the open signal files too."""
    opened(client)
    client.open(CALLS, SIGNALS, "plex-signals")
    parameters = client.at(TEXT, *place(2, "CALL"), newName="RING")
    changes = client.ask("textDocument/rename", parameters)["changes"]
    assert applied(SIGNALS, changes[CALLS]) == SIGNALS.replace("CALL", "RING")
    assert len(changes[TEXT]) == 3


REFUSED = {
    "a keyword": (place(18, "CALLS"), "SIZE", "SIZE is a keyword"),
    "small letters": (place(18, "CALLS"), "count", "count is no name"),
    "a digit first": (place(18, "CALLS"), "1A", "1A is no name"),
    "nothing": (place(18, "CALLS"), "", " is no name"),
    "two lines": (place(18, "CALLS"), "A\nB", "is no name"),
    "a long one": (place(18, "CALLS"), "A" * 32, "has 32 letters and digits, and 31 are the most"),
    "a variable": (place(18, "CALLS"), "S", "there is a temporary S already, on line 9"),
    "a field": (place(18, "CALLS"), "STATE", "there is a field STATE already, on line 12"),
    "a label": (place(18, "CALLS"), "IDLE", "there is a label IDLE already, on line 25"),
    "a signal": (place(2, "CALL"), "TOLD", "there is a signal TOLD already, on line 4"),
    "a block": (place(5, "DESK"), "RATES", "there is a block RATES already, on line 29"),
    "no name here": (place(18, "1"), "A", "there is no name here"),
}


@pytest.mark.parametrize("name", REFUSED)
def test_rename_refused(client: Client, name: str) -> None:
    """A name that meets another one, or is none, is refused in words."""
    asked, new, told = REFUSED[name]
    opened(client)
    with pytest.raises(Failed) as failed:
        client.ask("textDocument/rename", client.at(TEXT, *asked, newName=new))
    assert told in failed.value.message


def test_rename_of_a_broken_text(client: Client) -> None:
    """No name gets another one where some of its places may be missed."""
    client.open(TEXT, EXCHANGE.replace("IDLE)\n", "IDLE)) X\n"))
    with pytest.raises(Failed) as failed:
        client.ask("textDocument/rename", client.at(TEXT, *place(18, "CALLS"), newName="A"))
    assert "fault of its spelling on line 25" in failed.value.message


HOVERS = {
    "variable": (place(18, "CALLS"), ["VARIABLE CALLS WIDTH 16 INIT 3;", "values 0 to 65535"]),
    "field": (
        place(22, "STATE"),
        ["FIELD STATE WIDTH 4;", "field of file LINES", "values 0 to 15"],
    ),
    "file": (place(10, "LINES"), ["FILE LINES SIZE 8;", "records 0 to 7"]),
    "label": (place(19, "IDLE"), ["1 GOTO to it"]),
    "signal": (place(20, "ASK"), ["ASK COMBINED DATA 1", "sent by DESK", "received by RATES"]),
    "answer": (place(40, "TOLD"), ["the answer of ASK", "returned by RATES"]),
    "block": (place(5, "DESK"), ["receives CALL", "sends ASK, GONE"]),
}


@pytest.mark.parametrize("name", HOVERS)
def test_hover(client: Client, name: str) -> None:
    """What is told of a name."""
    asked, wanted = HOVERS[name]
    found = opened(client).ask("textDocument/hover", client.at(TEXT, *asked))
    told = found["contents"]["value"]
    check(*(f"{one!r} is not in {told!r}" for one in wanted if one not in told))


def test_outline(client: Client) -> None:
    """The signals and the blocks, with what is in them."""
    document = {"textDocument": {"uri": TEXT}}
    found = opened(client).ask("textDocument/documentSymbol", document)
    assert [one["name"] for one in found] == "CALL ASK TOLD GONE DESK RATES".split()
    desk = found[4]["children"]
    assert [one["name"] for one in desk] == ["CALLS", "S", "T", "LINES", "IDLE", "ENTER CALL"]
    assert [one["name"] for one in desk[3]["children"]] == ["STATE"]
    assert (desk[3]["range"]["start"]["line"], desk[3]["range"]["end"]["line"]) == (10, 11)


def test_folding(client: Client) -> None:
    """Comments, blocks, programs, entries and statements that hold others."""
    document = {"textDocument": {"uri": TEXT}}
    found = opened(client).ask("textDocument/foldingRange", document)
    folds = {(one["startLine"], one["endLine"], one.get("kind")) for one in found}
    wanted = {(0, 1, "comment"), (5, 27, None), (16, 27, None), (17, 27, None), (36, 39, None)}
    assert wanted <= folds


def test_semantic_tokens(client: Client) -> None:
    """Each word has its type; a part of the text has the same tokens as the whole."""
    legend = client.capabilities["semanticTokensProvider"]["legend"]["tokenTypes"]
    document: Json = {"textDocument": {"uri": TEXT}}
    data = opened(client).ask("textDocument/semanticTokens/full", document)["data"]
    found = {}
    line = character = 0
    for at in range(0, len(data), 5):
        line, character = line + data[at], data[at + 1] + (0 if data[at] else character)
        word = LINES[line][character : character + data[at + 2]]
        found[line, word] = legend[data[at + 3]], data[at + 4]
    wanted = {
        (0, LINES[0]): ("comment", 0),
        (2, "SIGNAL"): ("keyword", 0),
        (2, "CALL"): ("event", 1),
        (5, "DESK"): ("namespace", 1),
        (7, "16"): ("number", 0),
        (17, "S"): ("parameter", 2),
        (19, "STATE"): ("property", 0),
        (19, "IDLE"): ("label", 0),
        (22, "="): ("operator", 0),
    }
    check(*(f"{key} is {found.get(key)}" for key in wanted if found.get(key) != wanted[key]))
    part = {"start": {"line": 5, "character": 0}, "end": {"line": 9, "character": 0}}
    some = client.ask("textDocument/semanticTokens/range", {**document, "range": part})["data"]
    assert some[0] == 5 and len(some) == 5 * sum(5 <= line < 9 for line, _ in found)


COMPLETIONS: dict[str, tuple[str, list[str], list[str]]] = {
    "statements": ("", ["SEND", "IF", "CALLS", "STATE", "S", "ENTER", "END BLOCK"], ["FI", "IDLE"]),
    "a list": ("IF S = 1 THEN ", ["FI", "ELSE", "EXIT", "CALLS"], ["ENTER", "END BLOCK"]),
    "signals": ("SEND ", ["ASK", "GONE", "CALL"], ["TOLD", "CALLS", "SEND"]),
    "answers": ("RETURN ", ["TOLD"], ["ASK"]),
    "labels": ("GOTO ", ["IDLE"], ["CALLS", "S"]),
    "operands": ("CALLS = ", ["CALLS", "S", "T", "STATE", "REFERENCE"], ["IDLE", "CALL"]),
    "relations": ("IF S ", ["<", "="], ["THEN"]),
    "behind a condition": ("IF S = 1 ", ["THEN", "GOTO", "AND"], ["CALLS"]),
    "pointers": ("STATE(", ["S", "T"], ["CALLS"]),
    "blocks": ("SEND ASK REFERENCE ", ["RATES"], ["DESK"]),
    "values": ("SEND GONE ", ["WITH", "REFERENCE"], ["CALLS"]),
    "files": ("FOR FIRST S IN ", ["LINES"], ["CALLS"]),
    "fields": ("FOR FIRST S IN LINES WHERE ", ["STATE"], ["CALLS"]),
    "within a word": ("CALLS = CA", ["CALLS"], []),
    "in a comment": ("! SEND ", [], ["ASK"]),
}


@pytest.mark.parametrize("name", COMPLETIONS)
def test_completion(client: Client, name: str) -> None:
    """What is offered behind a phrase that has begun, and what is not."""
    begun, there, missing = COMPLETIONS[name]
    client.open(TEXT, "\n".join([*LINES[:18], f"  {begun}", *LINES[18:]]))
    asked = client.at(TEXT, 18, 2 + len(begun))
    labels = {one["label"] for one in client.ask("textDocument/completion", asked)}
    told = [f"{one} is not offered" for one in there if one not in labels]
    check(*told, *(f"{one} is offered" for one in missing if one in labels))


def test_completion_of_declarations(client: Client) -> None:
    """Keywords of the parts of a block, and of a signal."""
    for begun, wanted in (("SIGNAL X ", "SINGLE"), ("SIGNAL X SINGLE BUFFERED ", "B")):
        client.open(TEXT, begun)
        found = client.ask("textDocument/completion", client.at(TEXT, 0, len(begun)))
        assert wanted in {one["label"] for one in found}
    for line, wanted in ((7, "FORLOPP FILE"), (13, "RECEIVE"), (13, "PROGRAM")):
        client.open(TEXT, "\n".join([*LINES[:line], "", *LINES[line:]]))
        found = client.ask("textDocument/completion", client.at(TEXT, line, 0))
        assert wanted in {one["label"] for one in found}


def test_values_of_signals(client: Client) -> None:
    """A signal is offered with as many values as it carries."""
    client.open(TEXT, "\n".join([*LINES[:18], "  SEND ", *LINES[18:]]))
    found = client.ask("textDocument/completion", client.at(TEXT, 18, 7))
    call = next(one for one in found if one["label"] == "CALL")
    assert call["insertText"] == "CALL WITH ${1:value1}, ${2:value2}"
    assert call["detail"] == "SIGNAL CALL SINGLE BUFFERED B DATA 2;"


def test_formatting(client: Client) -> None:
    """A text gets its layout, with its own ends of lines; a misspelled one stays as it is."""
    document: Json = {"textDocument": {"uri": TEXT}, "options": {"tabSize": 8}}
    wrong = EXCHANGE.replace("  CALLS = CALLS + 1;", "CALLS=CALLS\n+1;").replace("\n", "\r\n")
    client.open(TEXT, wrong)
    edits = client.ask("textDocument/formatting", document)
    text = applied(wrong, edits)
    assert "\r\n  CALLS = CALLS + 1;\r\n" in text and "\n" not in text.replace("\r\n", "")
    client.change(TEXT, 2, [{"text": text}])
    assert client.ask("textDocument/formatting", document) == []
    client.change(TEXT, 3, [{"text": wrong.replace("EXIT;", "EXIT")}])
    assert client.ask("textDocument/formatting", document) == []


def fixes(client: Client, uri: str) -> list[Json]:
    parameters = {"textDocument": {"uri": uri}, "range": WHOLE, "context": {"diagnostics": []}}
    found: list[Json] = client.ask("textDocument/codeAction", parameters)
    return found


CURED = {
    "a missing semicolon": ("CALLS = CALLS + 1;", "CALLS = CALLS + 1"),
    "small letters": ("CALLS = CALLS + 1;", "CALLS = calls + 1;"),
    "a misspelled name": ("CALLS = CALLS + 1;", "CALLS = CALLZ + 1;"),
    "a missing FI": ("    ASKED = 1;\n  FI;\n", "    ASKED = 1;\n"),
    "a missing line of the survey": ("  SEND GONE;\n", ""),
    "a missing end": ("  RETURN TOLD WITH S;\nEND BLOCK;", "  RETURN TOLD WITH S;"),
}


@pytest.mark.parametrize("name", CURED)
def test_quick_fix(client: Client, name: str) -> None:
    """The quick fixes of a wrong text make it right."""
    right, wrong = CURED[name]
    text, version = EXCHANGE.replace(right, wrong, 1), 1
    client.open(TEXT, text)
    assert any(one["severity"] == 1 for one in client.diagnostics(TEXT, 1))
    for _ in range(3):
        found = fixes(client, TEXT)
        if not found:
            break
        text, version = applied(text, found[0]["edit"]["changes"][TEXT]), version + 1
        client.change(TEXT, version, [{"text": text}])
    assert not [one for one in client.diagnostics(TEXT, version) if one["severity"] == 1]


# positions


POSITIONS = {
    "ASCII": ("  CALLS = CALLZ + 1;", 10),
    "a tab": ("\tCALLS =\tCALLZ + 1;", 9),
    "two bytes": ("  CALLS = '\u00e4\u00e4' + CALLZ;", 17),
    "two units": ("  CALLS = '\U0001f600' + CALLZ;", 17),
    "a comment before": ("! \U0001f600 \u20ac\n  CALLS = CALLZ + 1;", 10),
}


ENDS = {"LF": "\n", "CRLF": "\r\n", "CR": "\r"}
# CR alone ends no comment of the language
POSITIONS_AND_ENDS = [
    (name, ends) for name in POSITIONS for ends in ENDS if "comment" not in name or ends != "CR"
]


@pytest.mark.parametrize(("name", "lines_end"), POSITIONS_AND_ENDS)
def test_positions(client: Client, name: str, lines_end: str) -> None:
    """Positions are in units of UTF-16, whatever ends the lines."""
    ends = ENDS[lines_end]
    given, character = POSITIONS[name]
    line = 18 - 2 * (ends == "\r") + given.count("\n")
    body = LINES[2 * (ends == "\r") :]
    at = 18 - 2 * (ends == "\r")
    text = "\n".join([*body[:at], given, *body[at:]]).replace("\n", ends)
    client.open(TEXT, text)
    found = [one for one in client.diagnostics(TEXT, 1) if "CALLZ" in one["message"]]
    assert start_of(found[0]) == (line, character)
    assert found[0]["range"]["end"]["character"] == character + len("CALLZ")
    # an edit at such a position
    client.change(TEXT, 2, [{"range": found[0]["range"], "text": "CALLS"}])
    assert not [one for one in client.diagnostics(TEXT, 2) if "CALLZ" in one["message"]]


# files of lines


def test_signal_file(client: Client) -> None:
    """A signal file is looked at beside the exchange text that is open, and again when that is
    changed.
    """
    opened(client)
    client.open(CALLS, SIGNALS.replace("DESK 3 4", "DESQ 3"), "plex-signals")
    found = client.diagnostics(CALLS, 1)
    assert [(one["code"], start_of(one)) for one in found] == [
        ("UNKNOWNBLOCK", (2, 13)),
        ("WRONGDATA", (2, 8)),
    ]
    client.published.clear()
    client.change(TEXT, 2, [{"text": EXCHANGE.replace("DESK", "DESQ")}])
    found = client.diagnostics(CALLS, 1)
    assert [one["code"] for one in found] == ["UNKNOWNBLOCK", "WRONGDATA"]
    assert start_of(found[0])[0] == 1
    where = client.ask("textDocument/definition", client.at(CALLS, 1, 9))
    assert (where["uri"], start_of(where)) == (TEXT, place(2, "CALL"))


OF_LINES = {
    "table": ("plex-table", "EVERY 0 FROM 1 TIMES 2 CALL DESK 1 2 NONE\n", "BADRANGE"),
    "filter": ("plex-filter", "SHOW BLOCK NONESUCH\n", "UNKNOWNBLOCK"),
    "by its first word": (
        "plex",
        "! table\nEVERY 0 FROM 1 TIMES 2 CALL DESK 1 2 NONE\n",
        "BADRANGE",
    ),
    "a filter so": ("plex", "SHOW SIGNAL NONESUCH\n", "UNKNOWNSIGNAL"),
}


@pytest.mark.parametrize("name", OF_LINES)
def test_other_line_files(client: Client, name: str) -> None:
    """Tables and filters, by the language that the client tells, or by their first word."""
    language, text, word = OF_LINES[name]
    opened(client).open(f"{ROOM}other", text, language)
    assert [one["code"] for one in client.diagnostics(f"{ROOM}other", 1)] == [word]


def test_exchange_on_the_disk(client: Client, folder: pathlib.Path) -> None:
    """The exchange text is that of the folder; without one only the form is looked at."""
    uri = (folder / "calls.txt").as_uri()
    client.open(uri, "AFTER 0 RING DESK 1 2 NONE\nAFTER 0\n", "plex-signals")
    assert [one["code"] for one in client.diagnostics(uri, 1)] == ["BADLINE", "NOEXCHANGE"]
    (folder / "exchange.plex").write_text(EXCHANGE)
    client.published.clear()
    client.tell("textDocument/didSave", {"textDocument": {"uri": uri}})
    found = client.diagnostics(uri, 1)
    assert [one["code"] for one in found] == ["UNKNOWNSIGNAL", "BADLINE"]


# verdicts


@pytest.mark.usefixtures("conflicts")
def test_code_lens() -> None:
    """Over each entry stands with how many others its jobs never run together."""
    need_module()
    client = Client()
    text = (harness.ROOT / "examples" / "pairs" / "exchange.plex").read_text()
    client.open(TEXT, text)
    lenses = client.ask("textDocument/codeLens", {"textDocument": {"uri": TEXT}})
    titles = [(start_of(one)[0], one["command"]["title"]) for one in lenses]
    assert titles[2:] == [
        (28, "never together with 2, by tests with 4"),
        (31, "never together with 2, by tests with 2"),
        (41, "never together with 5"),
        (44, "never together with 1, by tests with 3"),
    ]
    told = client.ask("textDocument/hover", client.at(TEXT, 44, 7))["contents"]["value"]
    assert "never together with QUICK P: VARIABLE P.N" in told
    client.change(TEXT, 2, [{"text": text.replace("N = N + 1;", "N = N + ;")}])
    assert client.ask("textDocument/codeLens", {"textDocument": {"uri": TEXT}}) == []
    assert client.end() == 0
