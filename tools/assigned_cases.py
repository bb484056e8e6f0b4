#!/usr/bin/env python3
"""Writes crates/weslc_cases/data/assigned.json: compound assignments, which read their place before the right side is evaluated.

usage: tools/assigned_cases.py [--check]

`n += setn(10u)` is `n = n + setn(10u)`, whose left operand comes first (WGSL, "Compound Assignment"). So what each case wants follows from
what stood at the place before the call. `setn(x)` and its like write `x` where the place is, and answer `x`."""
import json
import os
import sys

from cases import write_or_check

PATH = os.path.join(os.path.dirname(os.path.dirname(os.path.realpath(__file__))), "crates/weslc_cases/data/assigned.json")

SETN = "var<private> n: u32 = 13u; fn setn(x: u32) -> u32 { n = x; return x; } "
TABLE = "var<private> i: u32; var<private> a = array(1u, 2u, 3u); fn next() -> u32 { i++; return i; } fn seta(x: u32) -> u32 { a[1] = x; return x; } "
PAIR = "struct Pair { low: u32, high: u32 } var<private> s = Pair(3u, 4u); fn sets(x: u32) -> u32 { s = Pair(x, x); return x; } "
VECTOR = "var<private> v = vec3u(1, 2, 3); fn setv(x: u32) -> u32 { v = vec3u(x); return x; } "
SIGNED = "var<private> z: i32 = -7; fn setz(x: i32) -> i32 { z = x; return x; } "
FAULTY = "fn faulty() -> u32 { return array(1u, 2u)[n]; } "

# the sign, and what it makes of 13 and 5
SIGNS = (("+=", 18), ("-=", 8), ("*=", 65), ("/=", 2), ("%=", 3), ("&=", 5), ("|=", 13), ("^=", 8), ("<<=", 416), (">>=", 0))

# what is declared, the statements, what is returned, its type, and what it is
VALUES = (
    ("an index with an effect", TABLE, "a[next()] += seta(10u);", "a[1]", "u32", "12u"),
    ("an index with an effect, once", TABLE, "a[next()] += seta(10u);", "i", "u32", "1u"),
    ("an index behind the call", TABLE, "a[1] -= seta(1u) + next();", "a[1]", "u32", "0u"),
    ("an index that the call changes", TABLE + "fn seti(x: u32) -> u32 { i = x; return x; } ", "a[i] *= 7u * seti(2u);", "a[0] * 100u + a[2]", "u32", "1403u"),
    ("a pointer", SETN, "let p = &n; *p += setn(10u);", "n", "u32", "23u"),
    ("a pointer to an element", TABLE, "let p = &a[1]; *p |= seta(8u);", "a[1]", "u32", "10u"),
    ("a pointer that is handed in", SETN + "fn add(p: ptr<private, u32>) { *p <<= setn(1u); } ", "add(&n);", "n", "u32", "26u"),
    ("a local, by a pointer", "fn put(p: ptr<function, u32>, x: u32) -> u32 { *p = x; return x; } ", "var m = 1u; m += put(&m, 10u);", "m", "u32", "11u"),
    ("a member", PAIR, "s.low += sets(10u);", "s.low * 100u + s.high", "u32", "1310u"),
    ("a member, by a pointer", PAIR, "let p = &s; p.high *= sets(5u);", "s.low * 100u + s.high", "u32", "520u"),
    ("a component", VECTOR, "v.y += setv(10u);", "v", "vec3u", "vec3(10u, 12u, 10u)"),
    ("a component by its number", VECTOR, "v[2] ^= setv(1u);", "v", "vec3u", "vec3(1u, 1u, 2u)"),
    ("a vector", VECTOR, "v += vec3u(setv(10u), 0u, setv(20u));", "v", "vec3u", "vec3(11u, 2u, 23u)"),
    ("a vector and a scalar", VECTOR, "v *= setv(10u);", "v", "vec3u", "vec3(10u, 20u, 30u)"),
    ("a signed number", SIGNED, "z /= setz(2);", "z", "i32", "(-3i)"),
    ("a remainder of a signed number", SIGNED, "z %= setz(4);", "z", "i32", "(-3i)"),
    ("a shift to the right of a signed number", SIGNED, "z >>= u32(setz(1));", "z", "i32", "(-4i)"),
    ("two calls", SETN, "n += setn(10u) * setn(2u);", "n", "u32", "33u"),
    ("the place on the right side, before the call", SETN, "n += n + setn(10u);", "n", "u32", "36u"),
    ("the place on the right side, behind the call", SETN, "n += setn(10u) + n;", "n", "u32", "33u"),
    ("one in another, by a call", SETN + "fn inner() -> u32 { n += setn(1u); return n; } ", "n += inner();", "n", "u32", "27u"),
    ("in the head of a loop", SETN, "var k = 0u; for (n = 1u; k < 3u; n += setn(10u)) { k++; }", "n", "u32", "31u"),
    ("no call", SETN, "n += 1u; n *= 2u; n -= n / 4u;", "n", "u32", "21u"),
    ("a plain assignment reads nothing before", SETN, "n = setn(10u) + n;", "n", "u32", "20u"),
)

# what is declared, the statement, and what is told
FAULTS = (
    ("what is no place, before the right side", SETN + FAULTY, "let k = 1u; k += faulty();", "NotRef"),
    ("what is not read, before the right side", SETN + FAULTY + "@group(0) @binding(0) var<storage, write> w: u32; ", "w += faulty();", "NotRead"),
    ("a right side, before what is not written", SETN + FAULTY + "@group(0) @binding(0) var<storage, read> w: u32; ", "w += faulty();", "OutOfBounds"),
    ("what is not written", "@group(0) @binding(0) var<storage, read> w: u32; ", "w += 1u;", "NotWrite"),
    ("an operator, before what is not written", "@group(0) @binding(0) var<storage, read> w: u32; ", "w += true;", "Binary"),
    ("another type, before what is not written", "@group(0) @binding(0) var<storage, read> w: u32; ", "w += vec2u();", "WriteRefType"),
    ("an array without a length, behind the right side", SETN + FAULTY + "@group(0) @binding(0) var<storage, read_write> w: array<u32>; ", "w += faulty();", "OutOfBounds"),
    ("an array without a length, before the operator", "@group(0) @binding(0) var<storage, read_write> w: array<u32>; ", "w += true;", "NotConstructible"),
)

# how many calls and loop bodies there are, where it is not one
STEPS = {
    "an index with an effect": 2,
    "an index with an effect, once": 2,
    "an index behind the call": 2,
    "a pointer that is handed in": 2,
    "a vector": 2,
    "two calls": 2,
    "one in another, by a call": 2,
    "in the head of a loop": 6,
    "no call": 0,
}

BINDINGS = {"read": "5u", "write": "5u", "read_write": ["5u", "6u"]}


def entry(declared, statements, returned, ty):
    return f"{declared}@fragment fn main() -> @location(0) {ty} {{ {statements} return {returned}; }}"


def case(name, source, **wanted):
    bundle = {"command": "run", "root": "package", "modules": [{"path": "package", "text": source}], "entry": "main"}
    for access, value in BINDINGS.items():
        if f"storage, {access}>" in source:
            bundle["bindings"] = [{"group": 0, "binding": 0, "space": "storage", "access": access, "value": value}]
    return {"name": f"compound assignment: {name}", "bundle": bundle, **wanted}


def answered(name, text, value, steps):
    return case(name, text, text=f"answer: {value}\nsteps: {steps}\n")


def cases():
    for sign, value in SIGNS:
        yield answered(sign, entry(SETN, f"n {sign} setn(5u);", "n", "u32"), f"{value}u", 1)
        const = f"fn f() -> u32 {{ var m = 13u; m {sign} 5u; return m; }}"
        yield {"name": f"compound assignment: {sign} in a const function",
               "bundle": {"command": "eval", "root": "package", "modules": [{"path": "package", "text": const}], "expression": "f()"},
               "text": f"{value}u\n"}
    for name, declared, statements, returned, ty, value in VALUES:
        yield answered(name, entry(declared, statements, returned, ty), value, STEPS.get(name, 1))
    for name, declared, statements, kind in FAULTS:
        yield case(f"{name} is told", entry(declared, statements, "0u", "u32"), line=f"error: Eval.{kind} package main - -\n", status=1)


def main(arguments):
    text = "[\n" + ",\n".join("  " + json.dumps(it) for it in cases()) + "\n]\n"
    write_or_check(PATH, text, arguments, __doc__, f"{PATH} is not what tools/assigned_cases.py writes")


if __name__ == "__main__":
    main(sys.argv[1:])
