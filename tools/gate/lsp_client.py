"""A small client of plex-lsp: JSON-RPC by hand, beside the layer that the server has.

`Client()` starts a server. `ask` sends a request and waits for its answer, `tell` sends a
notification, and `diagnostics` waits for what is told of a version of a document.
"""
from __future__ import annotations

import json
import os
import queue
import subprocess
import threading
import time
from typing import Any, Mapping, Optional, Sequence

from gate import harness
from gate.checking import TOOLS

PYTHON = "/usr/bin/python3"  # Debian's, to which the module of the server belongs
SERVER = TOOLS / "bin" / "plex-lsp"
LONGEST = float(harness.WHILE)
Json = dict[str, Any]


class Failed(Exception):
    """The server answers a request by an error."""

    def __init__(self, given: Json) -> None:
        super().__init__(given["message"])
        self.code, self.message = given["code"], given["message"]


class Client:
    """A server, and the messages from it and to it."""

    def __init__(
        self, options: Json | None = None, environment: Mapping[str, str] | None = None
    ) -> None:
        self.process = subprocess.Popen(
            [PYTHON, "-B", str(SERVER)],
            stdin=subprocess.PIPE,
            stdout=subprocess.PIPE,
            stderr=subprocess.PIPE,
            env={**os.environ, **(environment or {})},
        )
        self.number = 0
        self.opened: set[str] = set()
        self.answers: dict[Any, Json] = {}
        self.published: list[Json] = []
        self.inbox: queue.Queue[Optional[Json]] = queue.Queue()
        threading.Thread(target=self.read_all, daemon=True).start()
        item = {"snippetSupport": True}
        capabilities = {"textDocument": {"completion": {"completionItem": item}}}
        self.capabilities = self.ask(
            "initialize", {"capabilities": capabilities, "initializationOptions": options}
        )["capabilities"]
        self.tell("initialized", {})

    # messages

    def read_all(self) -> None:
        """Reads all messages of the server, in a thread of its own."""
        assert self.process.stdout
        while True:
            length = 0
            while True:
                line = self.process.stdout.readline()
                if not line:
                    self.inbox.put(None)
                    return
                if line == b"\r\n":
                    break
                name, value = line.split(b": ")
                if name == b"Content-Length":
                    length = int(value)
            self.inbox.put(json.loads(self.process.stdout.read(length)))

    def send_bytes(self, data: bytes) -> None:
        assert self.process.stdin
        self.process.stdin.write(data)
        self.process.stdin.flush()

    def send(self, message: Any) -> None:
        body = json.dumps(message).encode()
        self.send_bytes(b"Content-Length: %d\r\n\r\n%s" % (len(body), body))

    def tell(self, method: str, parameters: Any) -> None:
        self.send({"jsonrpc": "2.0", "method": method, "params": parameters})

    def begin(self, method: str, parameters: Any) -> int:
        """Sends a request; gives its number."""
        self.number += 1
        message = {"jsonrpc": "2.0", "id": self.number, "method": method, "params": parameters}
        self.send(message)
        return self.number

    def ask(self, method: str, parameters: Any) -> Any:
        """The result of a request; an error is raised."""
        return self.answer(self.begin(method, parameters))

    def answer(self, number: Any) -> Any:
        end = time.monotonic() + LONGEST
        while number not in self.answers:
            self.take(end)
        message = self.answers.pop(number)
        if "error" in message:
            raise Failed(message["error"])
        return message["result"]

    def take(self, end: float) -> None:
        """Takes one message of the server, which must come before a time."""
        try:
            message = self.inbox.get(timeout=max(0.0, end - time.monotonic()))
        except queue.Empty:
            raise AssertionError("the server does not answer") from None
        if message is None:
            assert self.process.stderr
            raise AssertionError(f"the server has ended: {self.process.stderr.read()[-2000:]!r}")
        if message.get("method") == "textDocument/publishDiagnostics":
            self.published.append(message["params"])
        elif "id" in message and "method" not in message:
            self.answers[message["id"]] = message

    def published_of(self, uri: str, version: int) -> list[Json]:
        return [one for one in self.published if (one["uri"], one.get("version")) == (uri, version)]

    def diagnostics(self, uri: str, version: int, several: int = 1) -> list[Json]:
        """What is told of a version of a document; of a long one the second time."""
        end = time.monotonic() + LONGEST
        while len(self.published_of(uri, version)) < several:
            self.take(end)
        found: list[Json] = self.published_of(uri, version)[-1]["diagnostics"]
        return found

    # documents

    def open(self, uri: str, text: str, language: str = "plex") -> None:
        self.opened.add(uri)
        self.tell(
            "textDocument/didOpen",
            {"textDocument": {"uri": uri, "languageId": language, "version": 1, "text": text}},
        )

    def change(self, uri: str, version: int, changes: Sequence[Json]) -> None:
        self.tell(
            "textDocument/didChange",
            {"textDocument": {"uri": uri, "version": version}, "contentChanges": list(changes)},
        )

    def close_all(self) -> None:
        """Closes all documents; nothing more is told of them behind it."""
        for uri in self.opened:
            self.tell("textDocument/didClose", {"textDocument": {"uri": uri}})
        self.ask("textDocument/hover", self.at("", 0, 0))
        self.opened.clear()
        self.published.clear()

    def at(self, uri: str, line: int, character: int, **more: Any) -> Json:
        """Parameters that name a position, with lines and characters from 0."""
        position = {"line": line, "character": character}
        return {"textDocument": {"uri": uri}, "position": position, **more}

    def end(self) -> int:
        """Shuts the server down; gives its status."""
        if self.process.poll() is None:
            self.ask("shutdown", None)
            self.tell("exit", None)
        status = self.process.wait(LONGEST)
        for stream in (self.process.stdin, self.process.stdout, self.process.stderr):
            if stream:
                stream.close()
        return status

    def kill(self) -> None:
        self.process.kill()
        self.process.wait(LONGEST)
