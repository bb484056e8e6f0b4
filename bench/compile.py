#!/usr/bin/env python3
"""Times `weslc compile` on generated bundles: compile.py [PROGRAM]   (default: ../crates/weslc/out/weslc)

Each bundle is one module of so many declarations, statements or levels. Beside the time of compiling stands the time that the same program needs to
link the same bundle, that of a lexer by hand (beside.py), and the peak of memory. Each figure is the least of a few runs; a run of more than a minute is given up."""
import json
import os
import sys
import time
import subprocess

from beside import times
from link import peak_of

HERE = os.path.dirname(os.path.abspath(__file__))
RUNS = 3
LONGEST = 60


def before(n):
    """Each const uses the one before; the last is kept."""
    return "const c0 = 1;\n" + "".join(f"const c{i} = c{i - 1} - 0;\n" for i in range(1, n)), [f"c{n - 1}"]


def after(n):
    """Each const uses the next; the first is kept."""
    return "".join(f"const c{i} = c{i + 1} - 0;\n" for i in range(n - 1)) + f"const c{n - 1} = 1;\n", ["c0"]


def fan(n):
    """All consts use one; all are kept."""
    return "const c0 = 1;\n" + "".join(f"const c{i} = c0 + 1;\n" for i in range(1, n)), [f"c{i}" for i in range(n)]


def functions(n, uses=10):
    """Functions that each add so many consts to a parameter; all functions are kept."""
    half = n // 2
    consts = "".join(f"const c{i} = {i};\n" for i in range(half))
    sums = ["".join(f" + c{(i * 10 + k) % half}" for k in range(uses)) for i in range(half)]
    return consts + "".join(f"fn use_{i}(x: u32) -> u32 {{ return x{it}; }}\n" for i, it in enumerate(sums)), [f"use_{i}" for i in range(half)]


def long_sums(n):
    return functions(n, 200)


def entry(body):
    """An entry point over one buffer, that is beyond the part."""
    return "@group(0) @binding(0) var<storage, read_write> b: array<u32>;\n@compute @workgroup_size(1) fn main() {\n" + body + "}\n"


def whole_before(n):
    """As `before`, with an entry point that uses the last."""
    return before(n)[0] + entry(f"    b[0] = u32(c{n - 1});\n"), ["main"]


def kernels(n):
    """Functions with a loop, each calls the one before."""
    body = "var s = x; for (var i = 0u; i < 4u; i++) { if i % 2u == 0u { s += b[i]; } else { s ^= K; } } "
    rest = "".join(f"fn step{i}(x: u32) -> u32 {{ {body}return step{i - 1}(s); }}\n" for i in range(1, n))
    return "const K = 3u * 5u;\nfn step0(x: u32) -> u32 { return x; }\n" + rest + entry(f"    b[0] = step{n - 1}(b[1]);\n"), ["main"]


def statements(n):
    """One function of so many statements."""
    return entry("    var s = b[0];\n" + "    s = (s + 3u * 5u) % 65521u;\n" * n + "    b[1] = s;\n"), ["main"]


SHAPES = {"each const uses the one before": before, "each const uses the next": after, "all use one": fan, "functions use ten each": functions, "functions use two hundred each": long_sums}
WHOLE = {"consts, with an entry point": whole_before, "functions with loops": kernels, "statements in one function": statements}


def deep_sum(n):
    return entry(f"    let x = b[0];\n    b[1] = x{' + 1u' * n};\n"), ["main"]


def deep_value(n):
    return entry(f"    let x = b[0];\n    b[1] = 1u{' + x' * n};\n"), ["main"]


def deep_parentheses(n):
    return entry(f"    let x = b[0];\n    b[1] = {'(' * n}x{')' * n};\n"), ["main"]


def deep_calls(n):
    return "fn f(x: u32) -> u32 { return x + b[0]; }\n" + entry(f"    b[1] = {'f(' * n}b[0]{')' * n};\n"), ["main"]


def deep_blocks(n):
    return entry("    var s = b[0];\n" + "    if s > 1u { s += 1u; " * n + "}" * n + "\n    b[1] = s;\n"), ["main"]


LEVELS = {"a sum of a variable": deep_sum, "a sum that begins with a value": deep_value, "parentheses": deep_parentheses, "calls of a function": deep_calls, "blocks": deep_blocks}


def bundle(command, text, keep):
    return json.dumps({"command": command, "root": "package", "modules": [{"path": "package", "text": text}], "keep": keep}).encode()


def timed(program, data):
    best = None
    for _ in range(RUNS):
        start = time.perf_counter()
        try:
            done = subprocess.run(program, input=data, capture_output=True, timeout=LONGEST)
        except subprocess.TimeoutExpired:
            return None
        took = time.perf_counter() - start
        if done.returncode != 0:
            return done.stderr.decode(errors="replace").strip()[:60] or f"status {done.returncode}"
        best = took if best is None else min(best, took)
    return best


def shown(time):
    return f"{time:.4f}" if isinstance(time, float) else f"more than {LONGEST}" if time is None else time


def main(argv):
    program = [os.path.abspath(argv[0] if argv else os.path.join(HERE, "../crates/weslc/out/weslc"))]
    print("| shape | declarations | bundle, bytes | linked, s | compiled, s | ratio | times the C lexer | peak, times the bundle |")
    print("|---|---|---|---|---|---|---|---|")
    rows = [(name, shape, n) for name, shape in [*SHAPES.items(), *WHOLE.items()] for n in (10, 100, 1000, 10000)]
    rows += [(f"{name}, levels", shape, n) for name, shape in LEVELS.items() for n in (20, 200, 600)]
    for name, shape, n in rows:
        text, keep = shape(n)
        data = bundle("compile", text, keep)
        linked, compiled = timed(program, bundle("link", text, keep)), timed(program, data)
        both = isinstance(linked, float) and isinstance(compiled, float)
        ratio = f"{compiled / linked:.1f} | {times(compiled, text)}" if both else "- | -"
        peak = f"{peak_of(program, data) / len(data):.1f}" if both else "-"
        print(f"| {name} | {n} | {len(data)} | {shown(linked)} | {shown(compiled)} | {ratio} | {peak} |", flush=True)


if __name__ == "__main__":
    main(sys.argv[1:])
