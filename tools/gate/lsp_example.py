"""The example of the tests of plex-lsp: an exchange text and a signal file, and places in them."""
from __future__ import annotations

import subprocess

from gate import harness
from gate.checking import leave_out
from gate.lsp_client import PYTHON, Client, Json

EXCHANGE = """! Calls, and what they cost.
! The rates are a block of their own.
SIGNAL CALL SINGLE BUFFERED B DATA 2;
SIGNAL ASK COMBINED DATA 1 ANSWER TOLD DATA 1;
SIGNAL GONE OUTSIDE DATA 1;
BLOCK DESK;
DECLARE;
  VARIABLE CALLS WIDTH 16 INIT 3;
  TEMPORARY S;
  TEMPORARY T;
  FILE LINES SIZE 8;
    FIELD STATE WIDTH 4;
SURVEY;
  RECEIVE CALL;
  SEND ASK;
  SEND GONE;
PROGRAM;
  ENTER CALL WITH S, T;
  CALLS = CALLS + 1;
  IF STATE(S) = 0 GOTO IDLE;
  SEND ASK WITH T;
  RETRIEVE TOLD WITH T;
  STATE(S) = T;
  EXIT;
IDLE)
  SEND GONE WITH S;
  EXIT;
END BLOCK;
BLOCK RATES;
DECLARE;
  TEMPORARY S;
  VARIABLE ASKED WIDTH 8;
SURVEY;
  RECEIVE ASK;
PROGRAM;
  ENTER ASK WITH S;
  IF S > 10 THEN
    S = S * 2;
    ASKED = 1;
  FI;
  RETURN TOLD WITH S;
END BLOCK;
"""
SIGNALS = "! calls\nAFTER 0 CALL DESK 1 2 NONE\nAFTER 2 CALL DESK 3 4 NEW\n"
LINES = EXCHANGE.split("\n")
DESK, RATES = 5, 28  # the lines of the blocks, from 0
ROOM = "file:///nowhere/of/all/"
TEXT, CALLS = f"{ROOM}desk.plex", f"{ROOM}calls.txt"
WHOLE = {"start": {"line": 0, "character": 0}, "end": {"line": 10**6, "character": 0}}


def need_module() -> None:
    """The test is left out where the module of the server is missing."""
    done = subprocess.run(
        [PYTHON, "-c", "import pylsp_jsonrpc"], capture_output=True, timeout=harness.WHILE
    )
    if done.returncode:
        leave_out("there is no python3-pylsp-jsonrpc")


def place(line: int, word: str, number: int = 1) -> tuple[int, int]:
    """The position of a word in a line of the example; of the one of this number."""
    at = -1
    for _ in range(number):
        at = LINES[line].index(word, at + 1)
    return line, at


def start_of(location: Json) -> tuple[int, int]:
    start = location["range"]["start"]
    return start["line"], start["character"]


def opened(client: Client) -> Client:
    client.open(TEXT, EXCHANGE)
    return client


def applied(text: str, edits: list[Json]) -> str:
    """A text of ASCII with edits made, the last one first."""
    lines = text.split("\n")
    for edit in sorted(edits, key=start_of, reverse=True):
        start, end = edit["range"]["start"], edit["range"]["end"]
        first, last = lines[start["line"]], lines[end["line"]]
        made = first[: start["character"]] + edit["newText"] + last[end["character"] :]
        lines[start["line"] : end["line"] + 1] = made.split("\n")
    return "\n".join(lines)
