#!/usr/bin/env python3
"""Times `weslc` on generated bundles: link.py [PROGRAM]   (default: ../crates/weslc/out/weslc)

Each bundle has so many declarations over so many modules; module k imports from the next ones, in a chain or a fan, and
the root keeps one function that reaches all. Beside the time of linking stands the time that the same program needs to
refuse the same bundle for an unknown key, that is, to read its JSON; and
a lexer by hand over the modules' texts (beside.py). Each figure is the least of a few runs. Last, how
time grows from 1,000 to 10,000 declarations: by runs of both in turn, of which the medians are compared."""
import json
import os
import resource
import statistics
import subprocess
import sys
import time

from beside import times

HERE = os.path.dirname(os.path.abspath(__file__))
RUNS = 3
TURNS = 25


def chain(declarations, modules, body):
    """Module k's functions call those of module k + 1."""
    per = max(1, declarations // modules)
    texts = []
    for m in range(modules):
        lines = []
        if m + 1 < modules:
            lines += [f"import package::m{m + 1}::f{m + 1}_{d};" for d in range(per)]
        for d in range(per):
            inner = f"f{m + 1}_{d}(x)" if m + 1 < modules else "x"
            lines.append(f"fn f{m}_{d}(x: u32) -> u32 {{ return {inner}{body}; }}")
        texts.append("\n".join(lines) + "\n")
    return texts, [f"f0_{d}" for d in range(per)]


def fan(declarations, modules, body):
    """The root's functions call those of every other module."""
    per = max(1, declarations // modules)
    texts = [""]
    imports, calls = [], []
    for m in range(1, max(2, modules)):
        lines = [f"const c{m}_{d} = {d + 1};" if d % 2 else f"fn g{m}_{d}(x: u32) -> u32 {{ return x{body}; }}" for d in range(per)]
        names = [f"c{m}_{d}" if d % 2 else f"g{m}_{d}" for d in range(per)]
        imports += [f"import package::m{m}::{n};" for n in names]
        calls += [f"fn r{m}_{d}(x: u32) -> u32 {{ return {n if d % 2 else n + '(x)'}; }}" for d, n in enumerate(names)]
        texts.append("\n".join(lines) + "\n")
    texts[0] = "\n".join(imports + calls) + "\n"
    return texts, [c.split("(")[0][3:] for c in calls]


def bundle(texts, keep):
    modules = [{"path": "package" if m == 0 else f"package::m{m}", "text": t} for m, t in enumerate(texts)]
    return {"command": "link", "root": "package", "modules": modules, "keep": keep, "max_modules": 100000}


def timed(program, data, status):
    best, peak = None, 0
    for _ in range(RUNS):
        start = time.perf_counter()
        p = subprocess.Popen(program, stdin=subprocess.PIPE,
                             stdout=subprocess.PIPE, stderr=subprocess.PIPE)
        out, err = p.communicate(data)
        took = time.perf_counter() - start
        if p.returncode != status:
            sys.exit(f"status {p.returncode}, not {status}: {err[-300:]!r}")
        best = took if best is None else min(best, took)
    return best, len(out)


def growth(program, small, large):
    """The medians of runs of two bundles in turn, in seconds."""
    taken = [], []
    for _ in range(TURNS):
        for times, data in zip(taken, (small, large)):
            start = time.perf_counter()
            subprocess.run(program, input=data, stdout=subprocess.DEVNULL, check=True)
            times.append(time.perf_counter() - start)
    return [statistics.median(it) for it in taken]


def peak_of(program, data):
    """The peak memory of one run in its own child, in bytes."""
    pid = os.fork()
    if pid == 0:
        subprocess.run(program, input=data, stdout=subprocess.DEVNULL, stderr=subprocess.DEVNULL)
        kilobytes = resource.getrusage(resource.RUSAGE_CHILDREN).ru_maxrss
        with open(f"/tmp/bench_peak_{os.getpid()}", "w") as f:
            f.write(str(kilobytes))
        os._exit(0)
    os.waitpid(pid, 0)
    name = f"/tmp/bench_peak_{pid}"
    with open(name) as f:
        kilobytes = int(f.read())
    os.remove(name)
    return kilobytes * 1024


def main(argv):
    program = [os.path.abspath(argv[0] if argv else os.path.join(HERE, "../crates/weslc/out/weslc"))]
    print("| shape | declarations | modules | bundle, bytes | read and refused, s | linked, s | ratio | times the C lexer | peak, times the bundle |")
    print("|---|---|---|---|---|---|---|---|---|")
    long = " + x * 2u - (x % 7u)" * 38
    for shape, make in (("chain", chain), ("fan", fan)):
        for declarations, modules, body in ((10, 1, ""), (100, 10, ""), (1000, 10, ""), (1000, 100, ""), (10000, 10, ""),
                                            (10000, 200, ""), (10000, 200, long)):
            texts, keep = make(declarations, modules, body)
            whole = bundle(texts, keep)
            data = json.dumps(whole).encode()
            whole["zzz"] = 1
            refused = json.dumps(whole).encode()
            base, _ = timed(program, refused, 2)
            took, _ = timed(program, data, 0)
            peak = peak_of(program, data)
            rest = f"{took / base:.1f} | {times(took, ''.join(texts))} | {peak / len(data):.1f}"
            print(f"| {shape} | {declarations} | {modules} | {len(data)} | {base:.4f} | {took:.4f} | {rest} |", flush=True)
    print("\n| shape | modules | 1,000 declarations, s | 10,000 declarations, s | growth |")
    print("|---|---|---|---|---|")
    for shape, make in (("chain", chain), ("fan", fan)):
        for few, many in ((10, 10), (100, 200)):
            texts = make(1000, few, ""), make(10000, many, "")
            small, large = growth(program, *(json.dumps(bundle(*it)).encode() for it in texts))
            print(f"| {shape} | {few}, {many} | {small:.4f} | {large:.4f} | {large / small:.1f} |", flush=True)


if __name__ == "__main__":
    main(sys.argv[1:])
