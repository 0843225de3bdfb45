"""plex-lsp

A language server of LSP 3.17 for exchange texts, signal files, tables of periodic signals and
filters. An editor starts it, and talks with it over its standard input and output. It needs the
Python module pylsp_jsonrpc, of Debian's package python3-pylsp-jsonrpc.

It tells faults and warnings as one types, as plex-check does, and has their cures as quick fixes.
It knows where a name is declared and used, gives it another one, completes what is begun, and tells
over each entry which others its jobs never run together with, where plex-conflicts is there.

The status is 0 where the client has shut it down, 1 where it went away, and 2 where the words are
wrong or the module is missing.
"""
import importlib.util
import logging
import os
import sys

from plextools import programs
from plextools.commands.command_words import described

MODULE = "pylsp_jsonrpc"
PACKAGE, PROJECT = "python3-pylsp-jsonrpc", "python-lsp-jsonrpc"


def main() -> int:
    """Runs the server."""
    words = programs.Words(__doc__)
    words.add_argument("--stdio", action="store_true")
    described(words).parse_args()
    if importlib.util.find_spec(MODULE) is None:
        how = f"apt-get install {PACKAGE} brings it for Debian's Python, pip install {PROJECT} else"
        raise programs.Wrong(f"{sys.executable} has no module {MODULE}: {how}")
    return serve()


def serve() -> int:
    """Answers the client up to its end."""
    from plextools.lsp.protocol import Connection, standard_streams
    from plextools.lsp.server import Server

    logging.disable(logging.CRITICAL)
    server = Server()
    connection = server.connection = Connection(server.methods(), *standard_streams())
    connection.listen()
    sys.stderr.flush()
    # threads may be in the midst of a check that nobody waits for
    os._exit(0 if server.has_ended else 1)
