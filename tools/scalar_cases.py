#!/usr/bin/env python3
"""Writes cases of the operators on scalars for the program `weslc_cases`: each operator at each stage, on all pairs of
values at the edges of their types.

usage: tools/scalar_cases.py         It writes crates/weslc_cases/data/scalars.txt, and says how many results it has.

The results are computed with Python's unbounded integers and its own bit operators, and then brought to the type: no code of
`wgsl_scalar` is used, and none of its ways (it computes in 128 bits and tests ranges by conversions).
"""
import collections
import os

FILE = os.path.join(os.path.dirname(os.path.abspath(__file__)), "..", "crates", "weslc_cases", "data", "scalars.txt")

STAGES = ["const", "override", "exec"]
BINARY = ["||", "&&", "+", "-", "*", "/", "%", "==", "!=", "<", "<=", ">", ">=", "|", "&", "^", "<<", ">>"]
UNARY = ["-", "!", "~"]
BITS = {"abstract": 64, "i32": 32, "u32": 32}
LEAST = {"abstract": -(2**63), "i32": -(2**31), "u32": 0}
GREATEST = {"abstract": 2**63 - 1, "i32": 2**31 - 1, "u32": 2**32 - 1}
SUFFIX = {"abstract": "", "i32": "i", "u32": "u"}
NUMBERS = [0, 1, -1, 2, -2, 31, 32, 33, 63, 64, 2**16, -(2**16) - 1, 2**30, 2**31, 2**32, 2**62]


class Refused(Exception):
    """No value: the letter says which error."""


def values(ty):
    numbers = [n for n in NUMBERS if LEAST[ty] <= n <= GREATEST[ty]]
    return [(ty, n) for n in dict.fromkeys(numbers + [LEAST[ty], LEAST[ty] + 1, GREATEST[ty]])]


VALUES = [("bool", True), ("bool", False)] + values("abstract") + values("i32") + values("u32")


def text(value):
    ty, number = value
    return str(number).lower() if ty == "bool" else f"{number}{SUFFIX[ty]}"


def is_lenient(stage, ty):
    return stage == "exec" and ty in ("i32", "u32")


def signed(number):
    """The I32 with the lowest 32 bits of a number."""
    number &= 0xFFFF_FFFF
    return number - 2**32 if number >= 2**31 else number


def fits(ty, number):
    return LEAST[ty] <= number <= GREATEST[ty]


def brought(stage, ty, number, error):
    """An exact result at its type."""
    if fits(ty, number):
        return (ty, number)
    if not is_lenient(stage, ty):
        raise Refused(error)
    return (ty, signed(number) if ty == "i32" else number & 0xFFFF_FFFF)


def converted(ty, value):
    """An operand at the type that the operator takes it at."""
    if value[0] == ty:
        return value
    assert value[0] == "abstract" and ty in ("i32", "u32")
    if not fits(ty, value[1]):
        raise Refused("C")
    return (ty, value[1])


def common(left, right):
    """The type to which both convert."""
    if left == right:
        return left
    if left == "abstract" and right != "bool":
        return right
    if right == "abstract" and left != "bool":
        return left
    raise Refused("B")


def divided(stage, ty, a, b, operator):
    """Division rounds toward zero; the remainder has the dividend's sign."""
    error = "D" if operator == "/" else "R"
    quotient = abs(a) // abs(b) if b else 0
    if b and (a < 0) != (b < 0):
        quotient = -quotient
    if b == 0 or not fits(ty, quotient):
        if not is_lenient(stage, ty):
            raise Refused(error)
        return (ty, a if operator == "/" else 0)
    return (ty, quotient if operator == "/" else a - b * quotient)


def of_truths(operator, a, b):
    table = {"||": a or b, "&&": a and b, "|": a or b, "&": a and b, "==": a == b, "!=": a != b}
    if operator not in table:
        raise Refused("B")
    return ("bool", table[operator])


COMPARISONS = {"==": int.__eq__, "!=": int.__ne__, "<": int.__lt__, "<=": int.__le__, ">": int.__gt__, ">=": int.__ge__}
BITWISE = {"|": int.__or__, "&": int.__and__, "^": int.__xor__}


def shifted(stage, operator, left, right):
    if left[0] == "bool" or right[0] not in ("abstract", "u32"):
        raise Refused("B")
    amount, (ty, number) = converted("u32", right)[1], left
    error = "L" if operator == "<<" else "H"
    if amount >= BITS[ty]:
        if not is_lenient(stage, ty):
            raise Refused(error)
        amount %= BITS[ty]
    if operator == "<<":
        return brought(stage, ty, number * 2**amount, error)
    return (ty, number // 2**amount)


def binary(stage, operator, left, right):
    if operator in ("<<", ">>"):
        return shifted(stage, operator, left, right)
    ty = common(left[0], right[0])
    if ty == "bool":
        return of_truths(operator, left[1], right[1])
    if operator in ("||", "&&"):
        raise Refused("B")
    a, b = converted(ty, left)[1], converted(ty, right)[1]
    if operator in COMPARISONS:
        return ("bool", COMPARISONS[operator](a, b))
    if operator in BITWISE:
        return (ty, BITWISE[operator](a, b))
    if operator in ("/", "%"):
        return divided(stage, ty, a, b, operator)
    exact, error = {"+": (a + b, "A"), "-": (a - b, "S"), "*": (a * b, "M")}[operator]
    return brought(stage, ty, exact, error)


def unary(stage, operator, value):
    ty, number = value
    if operator == "!" and ty == "bool":
        return ("bool", not number)
    if operator == "~" and ty != "bool":
        return (ty, GREATEST[ty] - number if ty == "u32" else -number - 1)
    if operator == "-" and ty == "i32":
        return brought("exec", ty, -number, "S")
    if operator == "-" and ty == "abstract":
        return brought(stage, ty, -number, "S")
    raise Refused("U")


def constructed(ty, value):
    """`bool(..)`, `i32(..)`, `u32(..)` of one scalar."""
    source, number = value
    if ty == "bool":
        return ("bool", bool(number))
    if source == "abstract":
        return converted(ty, value)
    return (ty, signed(int(number)) if ty == "i32" else int(number) & 0xFFFF_FFFF)


def implicit(ty, value):
    if value[0] == ty:
        return value
    if value[0] == "abstract" and ty in ("i32", "u32"):
        return converted(ty, value)
    raise Refused("V")


def answer(call, *arguments):
    try:
        return text(call(*arguments))
    except Refused as refused:
        return str(refused)


def main():
    counts, lines = collections.Counter(), [" ".join(map(text, VALUES)), "# Written by tools/scalar_cases.py."]

    def row(name, *results):
        lines.append(name + "\t" + " ".join(results))
        counts.update(it if it.isupper() else "value" for it in results)

    for stage in STAGES:
        for operator in UNARY:
            row(f"unary\t{stage}\t{operator}", *[answer(unary, stage, operator, it) for it in VALUES])
        for operator in BINARY:
            for left in VALUES:
                row(f"binary\t{stage}\t{operator}\t{text(left)}", *[answer(binary, stage, operator, left, it) for it in VALUES])
    for ty in ("bool", "i32", "u32"):
        row(f"construct\t{ty}", *[answer(constructed, ty, it) for it in VALUES])
        row(f"convert\t{ty}", *[answer(implicit, ty, it) for it in VALUES])
    with open(FILE, "w", encoding="utf-8") as file:
        file.write("\n".join(lines) + "\n")
    print(f"{sum(counts.values())} results: {dict(counts)}")


main()
