"""Stands for a program whose answers are altered: `wrapper.py NAME PROGRAM WORD ...`

NAME is a row of `answers.ALTERED`, or NOTHING, by which each answer stays as it is.
"""
import pathlib
import sys

sys.path.insert(0, str(pathlib.Path(__file__).resolve().parents[2]))
sys.dont_write_bytecode = True
from gate.planted import answers  # noqa: E402
from gate.planted.calls import Answer, Call, give  # noqa: E402

NOTHING = "nothing"


def main() -> None:
    name, program, *words = sys.argv[1:]
    call = Call(program, words)
    row = answers.BY_NAME.get(name)
    alter = row.alter if row else unaltered
    give(alter(call.answer(), call), call, alter)


def unaltered(answer: Answer, _: Call) -> Answer:
    return answer


if __name__ == "__main__":
    main()
