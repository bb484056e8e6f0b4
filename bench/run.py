#!/usr/bin/env python3
"""Times `run` of kernels, and shows how its time and memory grow with the turns of their loops.

usage: bench/run.py [WESLC]      the built program; crates/weslc/out/weslc

Five kernels, each of 100,000 turns and of 1,000,000: a sum, products of a list, numbers looked up in a table, a call in each turn, and a
bubble sort. A time is the least of three runs. Beside it stands the same loop in the Python that runs this, another interpreter."""
import json
import os
import sys
import time

from modules import linked

HERE = os.path.dirname(os.path.abspath(__file__))
RUNS = 3
MASK = 0xFFFFFFFF


def a_sum(turns, src, dst):
    total = 0
    for i in range(turns):
        total = (total + i) & MASK
    dst[0] = total


def products(turns, src, dst):
    for i in range(turns):
        dst[i % 1000] = (src[i % 1000] * 3) & MASK


def a_table(turns, src, dst):
    table = (3, 1, 4, 1, 5, 9, 2, 6)
    for i in range(turns):
        dst[i % 1000] = (dst[i % 1000] + table[i & 7]) & MASK


def twice(x):
    return (x + x) & MASK


def calls(turns, src, dst):
    for i in range(turns):
        dst[i % 1000] = twice(i)


def bubble_sort(size, src, dst):
    dst[:size] = src[:size]
    for _ in range(size):
        for k in range(size - 1):
            if dst[k] > dst[k + 1]:
                dst[k], dst[k + 1] = dst[k + 1], dst[k]


KERNELS = [
    ("a sum", "var<private> unused: u32;", "var sum = 0u; for (var i = 0u; i < turns; i++) { sum += i; } dst[0] = sum;", None, a_sum),
    ("products of a list", "", "for (var i = 0u; i < turns; i++) { dst[i % 1000u] = src[i % 1000u] * 3u; }", None, products),
    ("a table", "const table = array(3u, 1u, 4u, 1u, 5u, 9u, 2u, 6u);", "for (var i = 0u; i < turns; i++) { dst[i % 1000u] += table[i & 7u]; }", None, a_table),
    ("a call in each turn", "fn twice(x: u32) -> u32 { return x + x; }", "for (var i = 0u; i < turns; i++) { dst[i % 1000u] = twice(i); }", None, calls),
    (
        "bubble sort",
        "",
        "for (var i = 0u; i < size; i++) { dst[i] = src[i]; } "
        "for (var i = 0u; i < size; i++) { for (var k = 0u; k + 1u < size; k++) { "
        "if dst[k] > dst[k + 1u] { let held = dst[k]; dst[k] = dst[k + 1u]; dst[k + 1u] = held; } } }",
        {100_000: 316, 1_000_000: 1_000},
        bubble_sort,
    ),
]


def values():
    """The numbers that a kernel reads."""
    return [(n * 7919 + 13) % 1009 for n in range(1_000)]


def in_python(kernel, turns):
    """The least seconds of the same loop in Python."""
    taken = []
    for _ in range(RUNS):
        src, dst = values(), [0] * 1_000
        begin = time.perf_counter()
        kernel(turns, src, dst)
        taken.append(time.perf_counter() - begin)
    return min(taken)


def bundle(head, body, turns, sizes):
    """A kernel over two lists of a thousand numbers; each statement and each turn takes some of its steps."""
    size = sizes[turns] if sizes else 1_000
    text = f"""@group(0) @binding(0) var<storage> src: array<u32, 1000>;
@group(0) @binding(1) var<storage, read_write> dst: array<u32, 1000>;
const turns = {turns}u;
const size = {size}u;
{head}
@compute @workgroup_size(1)
fn main() {{ {body} }}
"""
    lists = [[f"{it}u" for it in values()], ["0u"] * 1_000]
    bindings = [
        {"group": 0, "binding": n, "space": "storage", "access": access, "value": values}
        for n, (access, values) in enumerate(zip(["read", "read_write"], lists))
    ]
    made = {"command": "run", "root": "package", "modules": [{"path": "package", "text": text}], "entry": "main", "bindings": bindings, "max_steps": 1_000_000_000}
    return json.dumps(made).encode()


def main(arguments):
    program = os.path.abspath(arguments[0] if arguments else os.path.join(HERE, "..", "crates/weslc/out/weslc"))
    print("| kernel | turns | time, s | growth | times Python | peak, MB |")
    print("|---|---|---|---|---|---|")
    for kernel, head, body, sizes, beside in KERNELS:
        before = None
        for turns in (100_000, 1_000_000):
            data = bundle(head, body, turns, sizes)
            took, peak = min(linked(program, data) for _ in range(RUNS))
            growth = f"{took / before:.1f}" if before else ""
            ratio = took / in_python(beside, sizes[turns] if sizes else turns)
            print(f"| {kernel} | {turns:,} | {took:.2f} | {growth} | {ratio:.1f} | {peak / 1e6:.0f} |", flush=True)
            before = took


if __name__ == "__main__":
    main(sys.argv[1:])
