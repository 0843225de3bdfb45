"""Exchanges made by chance whose jobs are dear to look at before they run. For `paces --chance`.

`made(chance)` gives an exchange text, a signal file and a line that tells what they are. An
exchange has one to forty entries, and each of these reads and writes many fields of records that
its values name, so that summaries are large and a pair has many tests; records of a forlopp file
are held by other forlopps all the while; and jobs are short or long. How many there are of each is
far apart from case to case, and the whole stays a run of some seconds at most.
"""
import random

MOST_ACCESSES, MOST_TURNS = 4_000_000, 20_000_000  # of all jobs of a run
# Of the eight values that a signal may have, one is the length of a loop.
POINTERS, RECORDS, IN_SUM = 7, 256, 60
POINTER, FILES = "PQRTUWX", "FGHJKLM"


def spread(chance: random.Random, most: int, least: int = 1) -> int:
    """A number up to the most; small and large ones come equally often."""
    drawn: float = least * (most / least) ** chance.random()
    return min(most, int(drawn + 0.5))


def entry(chance: random.Random, number: int, files: int, fields: int) -> str:
    """An ENTER and what it does: a loop, reads and writes of fields, and sometimes a variable of
    all jobs.
    """
    given = ", ".join(POINTER[:files])
    read = [chance.choice(FILES[:files]) for _ in range(fields)]
    reads = [
        f"{name}{place % fields}({POINTER[FILES.index(name)]})" for place, name in enumerate(read)
    ]
    lines = [f"ENTER G{number} WITH {given}, N;", "ON I FROM 1 UPTO N DO S = S + 3 + I MOD 7; NO;"]
    lines += [
        f"S = {' + '.join(reads[first:first + IN_SUM])};" for first in range(0, fields, IN_SUM)
    ]
    writes = chance.sample(reads, min(len(reads), spread(chance, fields)))
    lines += [f"{name} = S;" for name in writes if chance.random() < 0.5]
    lines += ["V = V + 1;"] * (chance.random() < 0.2)
    return "\n".join([*lines, "EXIT;"])


def made(chance: random.Random) -> tuple[str, str, str]:
    """An exchange text, a signal file, and what they are."""
    entries, files, held = spread(chance, 40), spread(chance, POINTERS), spread(chance, 4000)
    fields = spread(chance, min(2000, 20_000 // entries))
    turns = chance.choice([0, 0, 20, 150, 500, 5000])
    jobs = spread(chance, min(20_000, MOST_ACCESSES // fields, MOST_TURNS // max(1, turns)), 20)
    signals = "".join(
        f"SIGNAL G{number} SINGLE BUFFERED C DATA {files + 1};\n" for number in range(entries)
    )
    stored = "".join(
        f"FILE A{name} SIZE {RECORDS}; "
        + " ".join(f"FIELD {name}{place} WIDTH 32;" for place in range(fields))
        + "\n"
        for name in FILES[:files]
    )
    survey = " ".join(f"RECEIVE G{number};" for number in range(entries))
    temporaries = " ".join(f"TEMPORARY {name};" for name in [*POINTER[:files], "N", "I", "S", "Z"])
    program = "\n".join(entry(chance, number, files, fields) for number in range(entries))
    exchange = f"""{signals}SIGNAL GRAB SINGLE BUFFERED B DATA 0;
BLOCK WORK;
DECLARE; VARIABLE V WIDTH 32; {temporaries}
{stored}FORLOPP FILE POOL SIZE 4096; FIELD OWNER WIDTH 32;
SURVEY; RECEIVE GRAB; {survey}
PROGRAM;
ENTER GRAB;
SEIZE Z IN POOL ELSE GOTO BUSY;
OWNER(Z) = 1;
BUSY) EXIT;
{program}
END BLOCK;
"""
    lines = ["AFTER 0 GRAB WORK NEW\n"] * held
    near = chance.random() < 0.3  # whether most jobs name the same few records
    for _ in range(jobs):
        values = " ".join(str(chance.randrange(4 if near else RECORDS)) for _ in range(files))
        lines.append(f"AFTER 0 G{chance.randrange(entries)} WORK {values} {turns} NEW\n")
    told = f"{entries} entries, {fields} fields, {files} values, {held} held"
    told += f", {jobs} jobs of {turns} turns"
    return exchange, "".join(lines), told
