"""plex-page E [S] -o PAGE [--workers N] [--jobs N]

Writes a web page about the exchange text E: the text with the entries that reach each line, the
table of pairs, and the explanations of plex-why. With the signal file S it also has the figures of
plex-load, and a time line of the run with N workers, 4 by default; --jobs ends the run after N
jobs. The page loads nothing else, and can be read without scripts.
"""
import os

from plextools import limits, programs, tables
from plextools.commands import outputs
from plextools.commands.command_words import described
from plextools.runs import jobs
from plextools.runs import play
from plextools.runs import report
from plextools.show import page_data, page_html
from plextools.analysis import why

USUAL, CHOSEN = (1, 2, 4, 8, 16, 64), 4


def main() -> int:
    """Runs the command."""
    words = programs.Words(__doc__)
    most_jobs, most_workers = limits.MOST_JOBS, limits.MOST_WORKERS
    words.add_argument("exchange")
    words.add_argument("signals", nargs="?")
    words.add_argument("-o", dest="page", required=True)
    words.add_argument("--workers", type=programs.number_to(most_workers), default=CHOSEN)
    words.add_argument("--jobs", type=programs.number_to(most_jobs), default=limits.USUAL_JOBS)
    given = described(words).parse_args()
    inputs = [name for name in (given.exchange, given.signals) if name]
    outputs.refuse_inputs(given.page, inputs)
    exchange = why.Exchange(given.exchange)
    figures = made = flows = None
    if given.signals:
        load = jobs.jobs_of(exchange, given.signals, given.jobs, flows=page_data.MOST_BARS)
        flows = load.flows
        figures = report.figures(exchange, load, USUAL, given.workers)
        made = play.play(load, play.Rules(exchange.conflicts), given.workers, keep_bars=True)
    title = " with ".join(tables.quoted(os.path.basename(name)) for name in inputs)
    outputs.write(given.page, page_html.Page(exchange, title, figures, made, flows).parts())
    return 0
