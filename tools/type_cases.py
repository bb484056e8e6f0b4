#!/usr/bin/env python3
"""Writes crates/weslc_cases/data/pairs.txt: what conversions and operators give at all pairs of scalar and vector types.

This is the plain slow program of the definitions, by search alone. A conversion is a path of single steps, and its rank the
least sum of the weights along one. An operator gives what its one candidate of the least sum of ranks gives, and refuses
where there is none, or where two have the least sum. Vectors convert as their components do, and operators take them
component by component.

A case is a row: a call, the left type, and one sign for each right type, in the order of TYPES: the letter of the type that
comes out, a digit for a rank, or a dot for nothing or a refusal.
"""

import pathlib

SCALARS = ["bool", "AbstractInt", "AbstractFloat", "i32", "u32", "f32", "f16"]

# How many components a type has, and of which scalar: scalars first, then vectors of two, three and four.
TYPES = [(n, scalar) for n in (1, 2, 3, 4) for scalar in SCALARS]
LETTERS = "ABCDEFGHIJKLMNOPQRSTUVWXYZab"

# The single steps of conversion, with their weights.
STEPS = [
    ("AbstractFloat", "f32", 1),
    ("AbstractFloat", "f16", 2),
    ("AbstractInt", "i32", 3),
    ("AbstractInt", "u32", 4),
    ("AbstractInt", "AbstractFloat", 5),
]

INTEGERS = ["AbstractInt", "i32", "u32"]
LOGICAL = ["||", "&&"]
ARITHMETIC = ["+", "-", "*", "/", "%"]
COMPARISONS = ["==", "!=", "<", "<=", ">", ">="]
OPERATORS = LOGICAL + ARITHMETIC + COMPARISONS + ["|", "&", "^", "<<", ">>"]


def least_sum(start, end):
    """The least sum of weights along a path of steps, or None where there is no path."""
    if start == end:
        return 0
    sums = []
    for step_from, step_to, weight in STEPS:
        if step_from == start:
            rest = least_sum(step_to, end)
            if rest is not None:
                sums.append(weight + rest)
    return min(sums) if sums else None


def rank(left, right):
    return least_sum(left[1], right[1]) if left[0] == right[0] else None


def common(left, right):
    """The one of two types to which the other converts."""
    if rank(left, right) is not None:
        return right
    if rank(right, left) is not None:
        return left
    return None


def takes(operator, left, right):
    """Whether an operator has a signature at two scalars."""
    if operator in ("<<", ">>"):
        return left in INTEGERS and right == "u32"
    if left != right:
        return False
    if operator in LOGICAL:
        return left == "bool"
    if operator in ("|", "&"):
        return left in INTEGERS or left == "bool"
    if operator == "^":
        return left in INTEGERS
    if operator in ("==", "!="):
        return True
    return left != "bool"


def least_candidate(operator, left, right):
    """The scalar that the one candidate of the least sum gives at two scalars."""
    candidates = []
    for a in SCALARS:
        for b in SCALARS:
            first, second = least_sum(left, a), least_sum(right, b)
            if takes(operator, a, b) and first is not None and second is not None:
                candidates.append((first + second, "bool" if operator in COMPARISONS else a))
    if not candidates:
        return None
    least = min(candidates)[0]
    best = [given for total, given in candidates if total == least]
    return best[0] if len(best) == 1 else None


def components(operator, n, m):
    """How many components the result has: vectors meet equal vectors or, in arithmetic, a scalar."""
    if n == m:
        return None if n > 1 and operator in LOGICAL else n
    if operator in ARITHMETIC and 1 in (n, m):
        return max(n, m)
    return None


def result(operator, left, right):
    n = components(operator, left[0], right[0])
    scalar = least_candidate(operator, left[1], right[1])
    return None if n is None or scalar is None else (n, scalar)


def name(ty):
    n, scalar = ty
    return scalar if n == 1 else f"vec{n}<{scalar}>"


def sign(found):
    if found is None:
        return "."
    return str(found) if isinstance(found, int) else LETTERS[TYPES.index(found)]


def main():
    calls = {"conversion_rank": rank, "convert_ty": common}
    for operator in OPERATORS:
        calls[operator] = lambda left, right, operator=operator: result(operator, left, right)
    cases = []
    for call, function in calls.items():
        for left in TYPES:
            gives = "".join(sign(function(left, right)) for right in TYPES)
            cases.append(f"row\t{call}\t{name(left)}\t{gives}\n")
    data = pathlib.Path(__file__).resolve().parent.parent / "crates" / "weslc_cases" / "data"
    (data / "pairs.txt").write_text("# Written by tools/type_cases.py.\n" + "".join(cases))


if __name__ == "__main__":
    main()
