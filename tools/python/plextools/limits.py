"""How large the parts of a text, of an exchange, of a job and of a run may be: the one place of the
tools for it.

The names of the first part are those of the crate plex_limits, and have its numbers. The gate
compares all of them with the sources of the program.
"""

# texts
MOST_BYTES = 16_777_216
MOST_TOKENS = 16_777_216
MOST_BRACKETS = 6
MOST_NESTED = 12

# exchanges
MOST_SIGNALS = 1_000
MOST_BLOCKS = 64
MOST_ENTRIES = 256
MOST_STATEMENTS = 20_000
MOST_TEMPORARIES = 24
MOST_VALUES = 8
MOST_OPERANDS = 64
MOST_RECORDS = 65_535
MOST_CELLS = 1_000_000
MOST_WHENS = 16_777_216

# jobs and runs
MOST_COUNTED = 1_000_000
MOST_SENT = 255
MOST_HELD = 64
MOST_CALLERS = 8
MOST_RESTARTS = 3
MOST_JOBS = 10_000_000
MOST_WORKERS = 64

# what the program says elsewhere: how long words are, how many numbers there are, and the bounds of
# commands
MOST_LETTERS = 31
MOST_DIGITS = 10
MOST_WIDTH = 32
NUMBERS = 2**32
LARGEST_NUMBER = NUMBERS - 1
MOST_PERIODIC_SIGNALS = 1_000_000
USUAL_JOBS = 1_000_000

# How many instructions a job makes in the mean at least where plex hands it to another worker: so
# many, and so many more by the number of workers. In the place of them documents and tools say how
# many statements that is, about, with USUAL_WORKERS.
LEAST_LENGTH = 10_000
LENGTH_ALONE = 32_000
USUAL_WORKERS = 4
INSTRUCTIONS_OF_STATEMENT = 6
LONG_JOB = (LEAST_LENGTH + LENGTH_ALONE // USUAL_WORKERS) // INSTRUCTIONS_OF_STATEMENT
