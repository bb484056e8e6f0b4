#!/usr/bin/env python3
"""Times the parser of all of WGSL on text that looks like shaders, and shows how its time and memory grow.

usage: bench/parse.py PROGRAM      PROGRAM is a built crates/weslc_cases/out/weslc_cases

The program of cases reads one case: a module of the wanted size on one line, of which it tells whether it has a fault. So a time holds
reading the file, and lexing, parsing and dropping the module. Beside it stand a lexer by hand over the same text, and other compilers that the
machine has (beside.py)."""
import os
import resource
import subprocess
import sys
import tempfile
import time

from beside import peers, times
from one_case import fill

FUNCTION = """@compute @workgroup_size(8, 8, 1) fn main_%d(@builtin(global_invocation_id) id: vec3<u32>, @location(0) weight: f32) -> @location(1) vec4<f32> {
 var sum = vec4<f32>(0.0, 0.0, 0.0, 1.0); let width = params.size.x * 2u + 1u; const scale: f32 = 0.25;
 for (var i = 0u; i < width; i++) { if (i & 3u) == 0u && weight >= 0.5 { continue; } else if i > 100u || values[i] != 0 { break; }
  sum = sum + textureLoad(source, vec2<i32>(i32(id.x) - i32(i), -i32(id.y)), 0) * scale; }
 switch mode { case 0u, 1u: { sum.x *= 2.0; } default: { sum[1] = f32(id.z << 2u) / 3.5; } }
 loop { if sum.w < 0.001 { discard; } continuing { sum.w -= 0.125; break if sum.w <= 0.0; } }
 { let p = &values[id.x]; *p = (*p ^ 0xFFu) %% 7u; _ = helper_%d<f32, 4>(sum.xyz, !(weight < 1.0)); }
 return select(sum, -sum, any(sum > vec4f())); }
struct Params_%d { @size(16) size: vec2<u32>, @align(16) inner: array<mat4x4<f32>, 16>, }
@group(0) @binding(%d) var<storage, read_write> values_%d: array<u32>; override level_%d: f32 = 1.5; const_assert 3 * 4 > 11; alias Rows_%d = array<vec4<f32>, 8>;
"""


def module(size):
    parts, total, n = ["import package::util::{a as b, c::d}; import super::more::e; enable f16; "], 0, 0
    while total < size:
        text = (FUNCTION % ((n,) * 7)).replace("\n", " ")
        parts.append(text)
        total += len(text)
        n += 1
    return "".join(parts)


def timed(program, text):
    with tempfile.TemporaryDirectory() as folder:
        fill(folder, f"fault\tmodule\t{text}\tnone")
        begin = time.monotonic()
        child = subprocess.Popen([program], cwd=folder, stdout=subprocess.PIPE, text=True)
        out, _ = child.communicate()
        seconds = time.monotonic() - begin
    assert "parser.txt: 1 cases\n" in out and "answers" not in out, out[-300:]
    return seconds


def main():
    program = os.path.abspath(sys.argv[1])
    for size in (10_000, 100_000, 1_000_000, 4_000_000, 8_000_000):
        text = module(size)
        seconds = min(timed(program, text) for _ in range(3))
        peak = resource.getrusage(resource.RUSAGE_CHILDREN).ru_maxrss * 1024
        others = "".join(f"  {name} {took:.3f} s" for name, took in peers(text).items())
        speed, room = f"{len(text) / seconds / 1e6:6.2f} MB/s", f"peak {peak / len(text):6.1f} times the text"
        print(f"{len(text):>9} bytes  {seconds:7.3f} s  {speed}  {times(seconds, text):>4} times the C lexer  {room}{others}")


if __name__ == "__main__":
    main()
