"""Statements that add to a variable or a field.

`V = V + ..` and `F(P) = F(P) - ..` add, where V, or F, stands nowhere else in the statement. Where
values are taken modulo 2^32 and no width is passed, statements that add to one thing come to the
same in whatever order they are done.
"""
from typing import List

from plextools.text.grammar import Expression, Factor, Node, Part
from plextools.text.statements import factors_of


def terms_of(expr: Expression) -> List[List[Part]]:
    """The terms of an expression, between + and -; a bracket around all of it is none."""
    while len(expr) == 1 and expr[0].factor.kind == "bracket":
        expr = expr[0].factor.inside
    terms: List[List[Part]] = []
    for part in expr:
        if part.operator in ("", "+", "-"):
            terms.append([])
        terms[-1].append(part)
    return terms


def names(factor: Factor, node: Node) -> bool:
    """Whether a factor names the variable or the field into which a statement stores."""
    name: str = node.first.text
    return (factor.kind == "name" or factor.kind == "field") and factor.name == name


def is_own(term: List[Part], node: Node) -> bool:
    """Whether a term is what the statement stores into, and is not taken away."""
    operator, factor = term[0]
    if len(term) > 1 or operator == "-" or not names(factor, node):
        return False
    if factor.kind == "field":
        return node.kind == "set_field" and factor.pointer == node.pointer.text
    return node.kind == "set"


def is_addition(node: Node) -> bool:
    """Whether an assignment adds to a variable or a field of its block, whatever its width."""
    terms = terms_of(node.exprs[0])
    others = [term for term in terms if not is_own(term, node)]
    return len(others) == len(terms) - 1 and not any(
        names(part.factor, node) for term in others for part in factors_of(term)
    )
