"""An exchange text near the limits, with a signal file, made by chance from a seed: 64 blocks of
four entries each.

`made(seed, statements)` gives the two texts in bytes. The jobs of a block use its variables, a
plain file and a FORLOPP FILE, ask the next block and send to others; so there are pairs of each
kind.
"""
import random

BLOCKS, ENTRIES = 64, 4
RECORDS, LINES = 16, 2000
KINDS = (
    "T = T + {n};",
    "U = P;",
    "V{v} = V{v} + 1;",
    "V{v} = {n};",
    "X(P) = X(P) + {n};",
    "X(Q) = {n};",
    "Y(P) = T;",
    "IF T > {n} THEN T = {n}; ELSE Y(P) = {n}; FI;",
    "CASE U IS WHEN 1 DO T = 1; WHEN 2 DO T = 2; OTHERWISE DO T = 3; ESAC;",
    "ON I FROM 1 UPTO 3 DO T = T + I; NO;",
    "SEND OUT WITH T;",
    "IF T = {n} THEN SEND S{s} WITH P, T; FI;",
    "T = X(P) MOD 7;",
)


class Maker:
    def __init__(self, seed: int, statements: int) -> None:
        self.chance = random.Random(seed)
        self.each = statements // (BLOCKS * ENTRIES)

    def level(self, number: int) -> str:
        return "BBCD"[number % 4]

    def statement(self, entry: int) -> str:
        """One statement of an entry; what it sends goes to a later entry, so that a load comes to
        its end.
        """
        kind = self.chance.choice(KINDS)
        later = min(entry + self.chance.randint(1, 60), BLOCKS * ENTRIES - 1)
        return kind.format(n=self.chance.randint(1, 9), v=self.chance.randint(0, 5), s=later)

    def body(self, block: int, number: int) -> list[str]:
        entry = block * ENTRIES + number
        lines, made = [f"ENTER S{entry} WITH P, T;"], 4
        if number == 0:
            lines.append(
                f"SEND ASK{(block + 1) % BLOCKS} WITH T; RETRIEVE TOLD{(block + 1) % BLOCKS} WITH "
                f"U;"
            )
        if number == 1:
            lines.append("SEIZE Q IN G ELSE GOTO FULL; Z(Q) = T; FREE Q IN G;")
        if number == 2:
            lines.append("FOR FIRST Q IN F WHERE X = 3 GOTO FULL;")
        while made < self.each and entry < BLOCKS * ENTRIES - 1:
            lines.append(self.statement(entry))
            made += (
                lines[-1].count(";")
                - lines[-1].count("FI;")
                - lines[-1].count("NO;")
                - lines[-1].count("ESAC;")
                + lines[-1].count("THEN")
                + lines[-1].count("IS")
                + lines[-1].count("ON ")
            )
        return lines + ["EXIT;"]

    def block(self, number: int) -> list[str]:
        sends = "".join(f" SEND S{entry};" for entry in range(BLOCKS * ENTRIES))
        receives = "".join(f" RECEIVE S{number * ENTRIES + place};" for place in range(ENTRIES))
        lines = [f"BLOCK B{number};", "DECLARE;"]
        lines += [f"  VARIABLE V{place} WIDTH 32;" for place in range(6)]
        lines.append("  TEMPORARY P; TEMPORARY T; TEMPORARY U; TEMPORARY I; TEMPORARY Q;")
        lines.append(f"  FILE F SIZE {RECORDS}; FIELD X WIDTH 32; FIELD Y WIDTH 32;")
        lines.append("  FORLOPP FILE G SIZE 8; FIELD Z WIDTH 32;")
        lines.append(
            f"SURVEY;{receives} RECEIVE ASK{number}; SEND ASK{(number + 1) % BLOCKS}; SEND "
            f"OUT;{sends}"
        )
        lines.append("PROGRAM;")
        for place in range(ENTRIES):
            lines += ["  " + line for line in self.body(number, place)]
        lines += [
            f"  ENTER ASK{number} WITH T;",
            f"  RETURN TOLD{number} WITH T + 1;",
            "  FULL)",
            "  EXIT;",
            "END BLOCK;",
        ]
        return lines

    def exchange(self) -> str:
        lines = [
            f"SIGNAL S{entry} SINGLE BUFFERED {self.level(entry)} DATA 2;"
            for entry in range(BLOCKS * ENTRIES)
        ]
        lines += [
            f"SIGNAL ASK{block} COMBINED DATA 1 ANSWER TOLD{block} DATA 1;"
            for block in range(BLOCKS)
        ]
        lines.append("SIGNAL OUT OUTSIDE DATA 1;")
        for block in range(BLOCKS):
            lines += self.block(block)
        return "\n".join(lines) + "\n"

    def signals(self) -> str:
        lines = []
        for _ in range(LINES):
            entry, record = self.chance.randrange(BLOCKS * ENTRIES), self.chance.randrange(RECORDS)
            lines.append(
                f"AFTER 0 S{entry} B{entry // ENTRIES} {record} {self.chance.randrange(20)} NEW"
            )
        return "\n".join(lines) + "\n"


def made(seed: int = 1, statements: int = 19200) -> tuple[bytes, bytes]:
    maker = Maker(seed, statements)
    return maker.exchange().encode(), maker.signals().encode()
