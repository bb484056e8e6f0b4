#!/usr/bin/env python3
"""Times `precompile` on text that looks like shaders with conditions, beside parsing the same text alone.

usage: bench/precompile.py WESLC PARSE         the built programs crates/weslc/out/weslc and crates/weslc_cases/out/weslc_cases

The first reads a bundle with one module of so many declarations: it parses the module, fixes its flags, prints what is left, and parses that.
The second reads one case alone, and tells whether the same text has a fault. Beside both stands a lexer by hand (beside.py)."""
import json
import os
import resource
import subprocess
import sys
import tempfile
import time

from beside import times
from one_case import fill

FOUR = """@if(fast && !debug) @compute @workgroup_size(8, 8, 1) fn main_%d(@builtin(global_invocation_id) id: vec3<u32>, @if(debug) @location(0) w: f32) {
 var sum = vec4<f32>(0.0, 0.0, 0.0, 1.0); let width = params.size.x * 2u + 1u;
 for (var i = 0u; i < width; i++) { @if(fast) if (i & 3u) == 0u { continue; } @elif(slow) { work(i); } @else while i > 100u { break; } sum = sum * scale; }
 @if(kept || debug) switch mode { case 0u, 1u: { sum.x *= 2.0; } default: { @if(kept) loop { sum.w -= 0.125; } @else { discard; } } }
 return; }
@else fn main_%d() {}
struct Params_%d { @size(16) size: vec2<u32>, @if(debug) extra: u32, @elif(kept) inner: array<mat4x4<f32>, 16>, @else @align(4) more: f32 }
@group(0) @binding(%d) @if(kept) var<storage, read_write> values_%d: array<u32>;
"""


def module(declarations):
    parts = []
    for n in range((declarations + 3) // 4):
        parts.append((FOUR % ((n,) * 5)).replace("\n", " "))
    return "".join(parts)


def bundle(text):
    asked = {"command": "precompile", "root": "package", "modules": [{"path": "package", "text": text}]}
    return json.dumps({**asked, "features": {"fast": "enable", "kept": "keep"}})


def timed(program, given="", case=""):
    """The least time of three runs, the peak of memory in bytes, and what is written."""
    with tempfile.TemporaryDirectory() as folder:
        fill(folder, case)
        best, peak = None, 0
        for _ in range(3):
            started = time.perf_counter()
            done = subprocess.run([program], input=given.encode(), cwd=folder, stdout=subprocess.PIPE, check=False)
            took = time.perf_counter() - started
            best = took if best is None else min(best, took)
            peak = resource.getrusage(resource.RUSAGE_CHILDREN).ru_maxrss * 1024
        return best, peak, done.stdout


def main():
    weslc, parse = map(os.path.abspath, sys.argv[1:])
    print("| declarations | bytes | precompiled, s | parsed, s | ratio | times the C lexer | peak, times the text |")
    print("|---|---|---|---|---|---|---|")
    for declarations in (10, 100, 1000, 10000):
        text = module(declarations)
        took, peak, out = timed(weslc, given=bundle(text))
        alone, _, _ = timed(parse, case=f"fault\tmodule\t{text}\tnone")
        if b"fn main_0" not in out:
            print(out[:300], file=sys.stderr)
        print(f"| {declarations} | {len(text)} | {took:.4f} | {alone:.4f} | {took / alone:.1f} | {times(took, text)} | {peak / len(text):.1f} |", flush=True)


if __name__ == "__main__":
    main()
