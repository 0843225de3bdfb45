"""How the tools of users read exchange texts that plex accepts: the one place that says by which
parser.

`tree(reader, content)` gives the signals and the blocks of a text in bytes, read by a class over
`Tree`; the signals have their `level`. `words_from(token)` gives the words of the text from a token
on, up to the next semicolon, which is the last of them.
"""
from typing import List

from plextools.text.tokens import KEYWORDS, Token
from plextools.text.tree import Tree, tree

__all__ = ["KEYWORDS", "Tree", "tree", "words_from"]


def words_from(token: Token) -> List[str]:
    return token.piece.words[token.index :]
