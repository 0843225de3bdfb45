"""The statements behind one ENTER, made by chance. For made_exchange."""
from __future__ import annotations

from typing import TYPE_CHECKING, Optional, Sequence

from gate.makers import made_forms
from gate.makers.exchange_parts import (
    CALM_ROLES,
    DEEPEST,
    GIVEN,
    LAST,
    NESTING,
    RELATIONS,
    STATEMENTS,
    TEMPORARIES,
    Block,
    File,
    Signal,
    weighed,
)

if TYPE_CHECKING:
    from gate.makers.made_exchange import Maker


class Body:
    """The statements behind one ENTER."""

    def __init__(self, maker: Maker, block: Block, signal: Signal) -> None:
        self.maker, self.chance, self.block, self.signal = maker, maker.chance, block, signal
        self.role = signal.role or "wild"
        self.calm = self.role in CALM_ROLES
        self.named = GIVEN[: signal.count]
        if self.named and self.chance.random() < 0.04:
            self.named[-1] = self.named[0]
        self.known = self.named or ["T"]
        self.owned: dict[str, File] = {}
        self.pending: list[str] = []
        self.lines: list[str] = []
        self.loops = 0

    def maybe(self, share: float) -> bool:
        return self.chance.random() < share

    def count(self, kind: str) -> None:
        self.maker.counts[kind] = self.maker.counts.get(kind, 0) + 1

    # expressions

    def number(self) -> str:
        return str(self.chance.choice([0, 1, 1, 2, 3, 4, 5, 7, 9, 60, 255, 256, 70000, 4294967295]))

    def temporary(self) -> str:
        return self.chance.choice(self.known if self.maybe(0.7) else TEMPORARIES[:-1])

    def pointer(self) -> str:
        """Most jobs keep their pointer in P."""
        return "P" if self.maybe(0.75) else self.temporary()

    def operand(self, depth: int) -> str:
        choice = self.chance.randrange(12)
        if choice == 0 and depth < 3:
            return f"({self.expr(depth + 1)})"
        if choice < 4 or self.calm and choice > 6:
            return self.number()
        if choice < 7:
            return self.temporary()
        if choice < 10:
            return self.chance.choice(self.block.variables).name
        if choice == 10:
            return f"REFERENCE {self.chance.choice(self.maker.blocks).name}"
        return self.read_field()

    def read_field(self) -> str:
        if self.owned and self.maybe(0.5):
            name, file = self.chance.choice(list(self.owned.items()))
            return f"{self.chance.choice(file.fields).name}({name})"
        field = self.chance.choice(self.chance.choice(self.block.plain).fields)
        return f"{field.name}({self.pointer()})"

    def expr(self, depth: int = 0) -> str:
        text = self.operand(depth)
        for _ in range(self.chance.choice([0, 0, 0, 1, 1, 2])):
            operator = self.chance.choice(["+", "+", "-", "*", "/", "MOD"])
            text += f" {operator} {self.right_operand(operator, depth)}"
        return text

    def right_operand(self, operator: str, depth: int) -> str:
        """What stands behind an operator; most divisors are numbers above 0."""
        if operator in ("/", "MOD") and self.maybe(0.97 if self.calm else 0.75):
            return str(self.chance.choice([1, 2, 3, 7, 16]))
        return self.operand(depth)

    def fitting(self, width: int) -> str:
        """An expression of which most values fit the width."""
        if width == 32 or self.maybe(0.08 if self.calm else 0.4):
            return self.expr()
        if self.maybe(0.6):
            return f"({self.expr()}) MOD {2 ** min(width, 31)}"
        return str(self.chance.randrange(min(2**width, 300)))

    def relation(self) -> str:
        return f"{self.expr()} {self.chance.choice(RELATIONS)} {self.expr()}"

    def cond(self) -> str:
        relations = [self.relation() for _ in range(self.chance.choice([1, 1, 1, 2, 3]))]
        return relations[0] + "".join(
            f" {self.chance.choice(['AND', 'OR'])} {relation}" for relation in relations[1:]
        )

    def values(self, signal: Signal, first: Optional[str] = None) -> str:
        given = [self.expr() if self.maybe(0.5) else self.temporary() for _ in range(signal.count)]
        if given and first is None and self.maybe(0.7):
            first = self.chance.choice(
                ["P", f"{self.temporary()} MOD 3", str(self.chance.randrange(4))]
            )
        if given and first is not None:
            given[0] = first
        return f" WITH {', '.join(given)}" if given else ""

    # labels

    def label(self) -> str:
        """A label that will stand further down."""
        if not self.pending or self.maybe(0.5):
            self.pending.append(self.new_label())
        return self.chance.choice(self.pending)

    def new_label(self) -> str:
        self.block.labels += 1
        return f"L{self.block.labels}"

    def put_labels(self) -> None:
        self.lines += [f"{name})" for name in self.pending]
        self.pending = []

    # where signals go

    def sends(self, signal: Signal) -> None:
        self.block.sends[signal.name] = True

    def reference(self, signal: Signal) -> tuple[str, str]:
        """Statements that come first, and the words behind the signal's name."""
        self.sends(signal)
        share = 0.0 if self.calm else 0.15
        if len(signal.receivers) == 1 and not self.maybe(share):
            return "", f" REFERENCE {signal.receivers[0].name}" if self.maybe(0.3) else ""
        if not self.maybe(0.4):
            return "", f" REFERENCE {self.chance.choice(signal.receivers).name}"
        holder = "H" if not self.calm and self.maybe(0.4) else "R"
        block = self.chance.choice(self.maker.blocks if self.maybe(0.08) else signal.receivers)
        if holder == "H" and self.maybe(0.3):
            return "", " REFERENCE (H)"
        self.count("held reference")
        return f"{holder} = REFERENCE {block.name}; ", f" REFERENCE ({holder})"

    def later(self, signals: Sequence[Signal]) -> list[Signal]:
        """Signals that lead nowhere back, but for a few."""
        return [signal for signal in signals if signal.rank > self.signal.rank or self.maybe(0.03)]

    # statements

    def block_of(self, depth: int, most: int = 2) -> str:
        return " ".join(self.statement(depth + 1) for _ in range(self.chance.randint(0, most)))

    def statement(self, depth: int = 0) -> str:
        kind = weighed(self.chance, STATEMENTS)
        if depth >= DEEPEST and kind in NESTING or depth and kind == "loop by GOTO":
            kind = "temporary"
        if kind in LAST and not depth:
            return f"IF {self.cond()} THEN {self.of_kind(kind, 1)} FI;"
        return self.of_kind(kind, depth)

    def of_kind(self, kind: str, depth: int) -> str:
        name = "write_" + kind.replace(" ", "_").lower()
        text: Optional[str] = getattr(self, name)(depth)
        if text is None:
            return self.of_kind("temporary", depth)
        self.count(kind)
        return text

    def write_temporary(self, depth: int) -> str:
        return (
            f"{self.chance.choice(GIVEN if self.maybe(0.3) else ['T', 'U', 'W'])} = {self.expr()};"
        )

    def write_variable(self, depth: int) -> str:
        variable = self.chance.choice(self.block.variables)
        return f"{variable.name} = {self.fitting(variable.width)};"

    def write_field(self, depth: int) -> str:
        field = self.chance.choice(self.chance.choice(self.block.plain).fields)
        before = f"P = {self.chance.randrange(4)}; " if self.maybe(0.3) else ""
        return f"{before}{field.name}({self.pointer()}) = {self.fitting(field.width)};"

    def write_own_field(self, depth: int) -> Optional[str]:
        if self.owned:
            name, file = self.chance.choice(list(self.owned.items()))
        elif self.maybe(0.7):
            return None
        else:
            name, file = "P", self.chance.choice(self.block.own)
        field = self.chance.choice(file.fields)
        return f"{field.name}({name}) = {self.fitting(field.width)};"

    def write_goto(self, depth: int) -> str:
        if depth:
            return f"GOTO {self.label()};"
        return f"IF {self.cond()} THEN GOTO {self.label()}; ELSE {self.block_of(1, 1)} FI;"

    def write_if_goto(self, depth: int) -> str:
        return f"IF {self.cond()} GOTO {self.label()};"

    def write_if(self, depth: int) -> str:
        other = f" ELSE {self.block_of(depth)}" if self.maybe(0.5) else ""
        return f"IF {self.cond()} THEN {self.block_of(depth)}{other} FI;"

    def write_case(self, depth: int) -> str:
        numbers = self.chance.sample(range(6), self.chance.randint(0, 3))
        whens = "".join(f"WHEN {number} DO {self.block_of(depth, 1)} " for number in numbers)
        return f"CASE {self.expr()} IS {whens}OTHERWISE DO {self.block_of(depth, 1)} ESAC;"

    def write_on(self, depth: int) -> str:
        first, last = self.chance.randint(0, 3), self.chance.randint(0, 6)
        upto = f"({self.expr()}) MOD 5" if self.maybe(0.3) else str(last)
        return (
            f"ON {self.chance.choice('IJT')} FROM {first} UPTO {upto} DO {self.block_of(depth)} NO;"
        )

    def write_for_first(self, depth: int) -> str:
        file = self.chance.choice(self.block.plain)
        field = self.chance.choice(file.fields)
        where = f"{field.name} {self.chance.choice(RELATIONS)} {self.expr()}"
        pointer = self.chance.choice("PQ")
        return f"FOR FIRST {pointer} IN {file.name} WHERE {where} GOTO {self.label()};"

    def write_loop_by_goto(self, depth: int) -> Optional[str]:
        """Nothing else assigns N."""
        self.loops += 1
        if self.loops > 1:
            return None
        name = self.new_label()
        turns = self.maker.turns() if self.calm else self.chance.randint(1, 5)
        inside = " ".join(self.statement(1) for _ in range(self.chance.randint(0, 2)))
        self.count("GOTO")
        end = f"IF N > 0 GOTO {name};" if self.maybe(0.5) else f"IF N > 0 THEN GOTO {name}; FI;"
        return f"N = {turns}; {name}) {inside} N = N - 1; {end}"

    def write_send_buffered(self, depth: int) -> Optional[str]:
        signals = [
            signal
            for signal in self.later(self.maker.buffered)
            if signal.role not in ("own", "free")
        ]
        if self.calm:
            signals = [
                signal for signal in signals if signal.level >= self.maker.least_level(self.signal)
            ]
        if not signals:
            return None
        signal = self.chance.choice(signals)
        before, words = self.reference(signal)
        return f"{before}SEND {signal.name}{words}{self.values(signal)}{self.fresh()};"

    def fresh(self) -> str:
        if self.maybe(0.75):
            return ""
        self.count("NEW FORLOPP")
        return " NEW FORLOPP"

    def write_send_outside(self, depth: int) -> str:
        signal = self.chance.choice(self.maker.outside)
        self.sends(signal)
        return f"SEND {signal.name}{self.values(signal)};"

    def write_send_combined(self, depth: int) -> Optional[str]:
        signals = self.later(self.maker.combined)
        if not signals:
            return None
        signal = self.chance.choice(signals)
        before, words = self.reference(signal)
        answer = signal.answered()
        names = self.chance.sample(GIVEN[1:], answer.count)
        taken = f" WITH {', '.join(names)}" if names else ""
        sent = f"{before}SEND {signal.name}{words}{self.values(signal)};"
        return f"{sent} RETRIEVE {answer.name}{taken};"

    def write_seize(self, depth: int) -> str:
        file, name = self.chance.choice(self.block.own), self.chance.choice("PQ")
        if not depth:
            self.owned[name] = file
        return f"SEIZE {name} IN {file.name} ELSE GOTO {self.label()};"

    def write_free(self, depth: int) -> Optional[str]:
        if self.owned and self.maybe(0.8):
            name, file = self.chance.choice(list(self.owned.items()))
            return f"FREE {name} IN {file.name};"
        if self.maybe(0.6):
            return None
        return f"FREE {self.pointer()} IN {self.chance.choice(self.block.own).name};"

    def write_exit(self, depth: int) -> str:
        return "EXIT;"

    def carrying_on(self) -> list[Signal]:
        """Direct signals that mostly carry on for the same caller."""
        answer = self.signal.answer
        return [
            signal
            for signal in self.later(self.maker.direct)
            if signal.answer is answer or self.maybe(0.1)
        ]

    def write_send_direct(self, depth: int) -> Optional[str]:
        signals = self.carrying_on()
        if not signals:
            return None
        signal = self.chance.choice(signals)
        before, words = self.reference(signal)
        return f"{before}SEND {signal.name}{words}{self.values(signal)};"

    def write_transfer(self, depth: int) -> Optional[str]:
        signals = self.carrying_on()
        if not signals:
            return None
        signal = self.chance.choice(signals)
        before, words = self.reference(signal)
        return f"{before}TRANSFER {signal.name}{words};"

    def write_return(self, depth: int) -> Optional[str]:
        answer = self.signal.answer
        if not self.maker.combined or not answer and not self.maybe(0.4):
            return None
        if not answer or self.maybe(0.05):
            answer = self.chance.choice(self.maker.combined).answered()
        return f"RETURN {answer.name}{self.values(answer)};"

    # the end

    def put_end(self) -> None:
        self.put_labels()
        if self.signal.answer:
            kinds = {"RETURN": 12, "SEND direct": 2, "TRANSFER": 1, "EXIT": 0.4}
        else:
            kinds = {"EXIT": 9, "SEND direct": 2, "TRANSFER": 1.5, "nothing": 0.7}
        kind = weighed(self.chance, kinds)
        if kind == "nothing":
            return
        text = self.of_kind(kind, 1)
        self.lines.append(text)
        if not text.startswith(("EXIT", "RETURN")) and self.maybe(0.5):
            self.lines.append("EXIT;")

    def written(self) -> list[str]:
        """The lines of the body, with its ENTER."""
        getattr(self, "make_" + self.role)()
        self.put_end()
        names = f" WITH {', '.join(self.named)}" if self.named else ""
        return [f"ENTER {self.signal.name}{names};"] + self.lines

    def put(self, text: str) -> None:
        self.lines.append(text)
        if self.pending and self.maybe(0.3):
            self.put_labels()

    # the roles

    def make_wild(self) -> None:
        for _ in range(self.chance.randint(1, 6)):
            self.put(self.statement())

    def make_pure(self) -> None:
        kinds = [
            "temporary",
            "SEND outside",
            "IF GOTO",
            "CASE",
            "SEND combined",
            "SEND buffered",
            "ON",
        ]
        for _ in range(self.chance.randint(1, 4)):
            self.put_calm(kinds)
        if self.maybe(0.5):
            self.put_loop("T = T + I;")

    def put_calm(self, kinds: Sequence[str]) -> None:
        """A statement of these kinds, in which are no others."""
        self.put(self.of_kind(self.chance.choice(kinds), DEEPEST - 1))

    def put_loop(self, inside: str) -> None:
        self.count("ON")
        self.put(f"ON I FROM 1 UPTO {self.maker.turns()} DO {inside} NO;")

    def make_row(self) -> None:
        fields = self.chance.sample(
            self.block.plain[0].fields, self.chance.randint(1, len(self.block.plain[0].fields))
        )
        for field in fields:
            self.count("field")
            value = (
                f"{field.name}(P) + {self.temporary()}"
                if self.maybe(0.7)
                else self.fitting(field.width)
            )
            self.put(
                f"{field.name}(P) = "
                f"{value if field.width == 32 else f'({value}) MOD {2 ** field.width}'};"
            )
        if self.maybe(0.6):
            self.put_loop(
                f"{fields[0].name}(P) = {fields[0].name}(P) * 5 MOD "
                f"{2 ** min(fields[0].width, 31)};"
            )
        self.put_calm(["SEND outside", "SEND buffered", "temporary", "SEND combined"])

    def make_cell(self) -> None:
        file = self.block.plain[-1]
        field = self.chance.choice(file.fields)
        name = self.chance.choice("QR")
        self.put(f"{name} = {self.maker.next_cell(self.block) % file.size};")
        self.count("field")
        self.put(
            f"{field.name}({name}) = ({field.name}({name}) + {self.temporary()}) MOD "
            f"{2 ** min(field.width, 31)};"
        )
        if self.maybe(0.5):
            self.put_loop(
                f"{field.name}({name}) = ({field.name}({name}) + I) MOD "
                f"{2 ** min(field.width, 31)};"
            )
        self.put_calm(["SEND outside", "temporary", "SEND buffered"])

    def role_signals(self, *roles: str) -> list[Signal]:
        return [
            signal
            for signal in self.maker.buffered
            if signal.role in roles and signal.receivers[0] is self.block
        ]

    def put_with_record(self, *roles: str) -> None:
        """Sends the record on, to the same block."""
        signals = self.role_signals(*roles)
        signal = self.chance.choice(signals)
        before, words = self.reference(signal)
        self.count("SEND buffered")
        new = " NEW FORLOPP" if self.maybe(0.03) else ""
        self.put(f"{before}SEND {signal.name}{words}{self.values(signal, 'P')}{new};")

    def make_seize(self) -> None:
        file = self.block.own[0]
        self.count("SEIZE")
        self.owned["P"] = file
        self.lines += [
            f"SEIZE P IN {file.name} ELSE GOTO {self.label()};",
            self.of_kind("own field", 0),
        ]
        for _ in range(self.chance.choice([0, 1, 1, 2])):
            self.put_with_record("own", "free")

    def make_own(self) -> None:
        file = self.block.own[0]
        self.owned["P"] = file
        for _ in range(self.chance.randint(1, 3)):
            self.put(self.of_kind("own field", 0))
        field = file.fields[0]
        if self.maybe(0.5):
            self.put_loop(
                f"{field.name}(P) = ({field.name}(P) + I) MOD {2 ** min(field.width, 31)};"
            )
        if self.maybe(0.5):
            self.put(self.of_kind("SEND outside", 0))
        if self.maybe(0.5):
            self.put_with_record("free")

    def make_free(self) -> None:
        self.owned["P"] = self.block.own[0]
        if self.maybe(0.5):
            self.put(self.of_kind("SEND outside", 0))
        self.count("FREE")
        self.put(f"FREE P IN {self.block.own[0].name};")
        if self.maybe(0.15):
            self.put(self.of_kind("own field", 0))

    def make_grab(self) -> None:
        file = self.block.own[0]
        self.count("SEIZE")
        self.count("ON")
        count = self.chance.choice([20, 64, 65, 65, 65])
        self.put(
            f"ON I FROM 1 UPTO {count} DO SEIZE P IN {file.name} ELSE GOTO {self.label()}; NO;"
        )

    def make_shout(self) -> None:
        signal = self.chance.choice(self.maker.outside)
        self.sends(signal)
        self.count("ON")
        self.count("SEND outside")
        count = self.chance.choice([255, 256, 256])
        self.put(f"ON I FROM 1 UPTO {count} DO SEND {signal.name}{self.values(signal)}; NO;")

    def make_spin(self) -> None:
        name = self.new_label()
        self.put(f"IF {self.cond()} GOTO {self.label()};")
        self.count("GOTO")
        loops = [
            f"{name}) GOTO {name};",
            f"{name}) T = T + 1; GOTO {name};",
            "ON I FROM 0 UPTO 4294967295 DO NO;",
        ]
        self.put(self.chance.choice(loops))

    def make_form(self) -> None:
        for line in made_forms.lines_of(self):
            self.put(line)

    def make_deep(self) -> None:
        """A call that calls itself as often as its first value says."""
        for signal in self.maker.combined:
            if signal.role == "dive" and signal.receivers[0] is self.block:
                self.sends(signal)
                self.count("SEND combined")
                names = (
                    f" WITH {', '.join(GIVEN[:signal.answered().count])}"
                    if signal.answered().count
                    else ""
                )
                self.put(
                    f"SEND {signal.name}{self.values(signal, 'P')}; RETRIEVE "
                    f"{signal.answered().name}{names};"
                )
        self.put_calm(["variable", "SEND outside"])

    def make_dive(self) -> None:
        answer, name = self.signal.answered(), self.new_label()
        self.sends(self.signal)
        self.count("SEND combined")
        names = f" WITH {', '.join(GIVEN[:answer.count])}" if answer.count else ""
        self.put(f"IF P = 0 GOTO {name};")
        self.put(
            f"SEND {self.signal.name}{self.values(self.signal, 'P - 1')}; RETRIEVE "
            f"{answer.name}{names};"
        )
        self.put(f"{name}) {self.of_kind('temporary', 0)}")
