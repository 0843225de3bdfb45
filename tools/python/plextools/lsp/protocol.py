"""JSON-RPC over the standard input and output, by the module pylsp_jsonrpc.

What is no message is answered by an error, and never ends the server; responses are left out, as
the server asks nothing. A request that is cancelled before its work begins is answered by an error.
Messages are read and cancelled here, since the module takes a wrong length for the end of the input
and answers no request that was cancelled.
"""
import json
import sys
from typing import Any, BinaryIO, Callable, Dict, Optional, Set

from pylsp_jsonrpc import exceptions  # type: ignore[import]
from pylsp_jsonrpc.endpoint import Endpoint  # type: ignore[import]
from pylsp_jsonrpc.streams import JsonRpcStreamWriter  # type: ignore[import]

MOST_LENGTH = 2**28
LONGEST_LINE, MOST_CANCELLED = 2**16, 1000
PARSE_ERROR, INVALID_REQUEST, INVALID_PARAMETERS = -32700, -32600, -32602
REQUEST_FAILED, CONTENT_MODIFIED, CANCELLED = -32803, -32801, -32800
Json = Dict[str, Any]
Method = Callable[[Any], Any]


def error(code: int, message: str) -> Exception:
    """An error as the answer of a request."""
    made: Exception = exceptions.JsonRpcException(message, code)
    return made


class BadMessage(Exception):
    """What stands on the input is no message; the input can be read on."""


def read_message(file: BinaryIO) -> Optional[bytes]:
    """The body of the next message, or None at the end of the input."""
    length: Optional[int] = None
    while True:
        line = file.readline(LONGEST_LINE)
        if not line:
            return None
        if not line.strip():
            if length is None:
                continue
            body = file.read(length)
            return body if len(body) == length else None
        name, _, value = line.partition(b":")
        if name.strip().lower() == b"content-length":
            digits = value.strip()
            if not digits.isdigit() or len(digits) > 9 or int(digits) > MOST_LENGTH:
                length = None
                raise BadMessage("the length of a message is no number, or too large")
            length = int(digits)


class Connection:
    """Messages from a client and to it."""

    def __init__(self, methods: Dict[str, Method], input_: BinaryIO, output: BinaryIO) -> None:
        self.input = input_
        self.writer = JsonRpcStreamWriter(output)
        self.methods = methods
        self.endpoint = Endpoint(methods, self.writer.write, max_workers=1)
        self.cancelled: Set[Any] = set()
        self.number: Any = None  # of the request that is taken
        self.is_over = False

    def notify(self, method: str, parameters: Json) -> None:
        self.endpoint.notify(method, parameters)

    def listen(self) -> None:
        """Takes messages up to the end of the input, or until `is_over`."""
        while not self.is_over:
            try:
                body = read_message(self.input)
                if body is None:
                    return
                self.take(self.parsed(body))
            except BadMessage as wrong:
                self.refuse(None, PARSE_ERROR, str(wrong))

    def parsed(self, body: bytes) -> Any:
        try:
            return json.loads(body.decode("utf-8"))
        except (ValueError, RecursionError) as wrong:
            raise BadMessage("the body of a message is no JSON") from wrong

    def refuse(self, number: Any, code: int, told: str) -> None:
        self.writer.write(
            {"jsonrpc": "2.0", "id": number, "error": {"code": code, "message": told}}
        )

    def take(self, message: Any) -> None:
        """Takes one message; what is none is answered by an error."""
        if not is_message(message):
            self.refuse(None, INVALID_REQUEST, "this is no message of JSON-RPC 2.0")
        elif message.get("method") == "$/cancelRequest":
            self.cancel(message.get("params"))
        elif "method" in message:
            self.number = message.get("id")
            self.endpoint.consume(message)

    def cancel(self, parameters: Any) -> None:
        number = parameters.get("id") if isinstance(parameters, dict) else None
        if isinstance(number, (int, str)):
            if len(self.cancelled) >= MOST_CANCELLED:
                self.cancelled.clear()
            self.cancelled.add(number)

    def later(self, work: Callable[[], Any]) -> Callable[[], Any]:
        """The work of the request that is taken, which is left out where it has been cancelled."""
        number = self.number

        def done() -> Any:
            if number in self.cancelled:
                self.cancelled.discard(number)
                raise error(CANCELLED, "the request was cancelled")
            return work()

        return done


def is_message(message: Any) -> bool:
    """Whether it has the form of a request, a notification or a response."""
    if not isinstance(message, dict) or message.get("jsonrpc") != "2.0":
        return False
    if "id" in message and not isinstance(message["id"], (int, str)):
        return False
    return isinstance(message["method"], str) if "method" in message else "id" in message


def standard_streams() -> "tuple[BinaryIO, BinaryIO]":
    """The streams of the protocol. What is printed by mistake goes to the standard error."""
    streams = sys.stdin.buffer, sys.stdout.buffer
    sys.stdout = sys.stderr
    return streams
