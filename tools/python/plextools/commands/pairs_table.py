"""pairs_table [--html | --svg] [FILE]

Reads what `plex analyse` writes, from a file or from the standard input, and writes its pairs as a
table: a row for each entry as the first of two jobs, and a column for each entry as the later one,
with a heading for each block. A place tells what is known of the pair:

    V F S L   never together, for a VARIABLE, a FIELD, a SEIZE or a LEVEL
    ?         together where its tests hold
    .         always together

This goes for jobs of two forlopps; two jobs of one forlopp never run together.

Without a word it writes text. `--html` writes a page of its own, without scripts, and `--svg` a
picture; in both, a place tells its conflict or its tests when the pointer rests on it.
"""
from plextools import programs
from plextools.commands import pair_words
from plextools.show.pair_table import Table, page, picture, text


def main() -> int:
    """Runs the command."""
    words = programs.Words(__doc__)
    form = words.add_mutually_exclusive_group()
    form.add_argument("--html", dest="form", action="store_const", const=page, default=text)
    form.add_argument("--svg", dest="form", action="store_const", const=picture)
    words.add_argument("file", nargs="?")
    given = words.parse_args()
    return pair_words.write(given.form(Table(pair_words.analysis_in(given.file))))
