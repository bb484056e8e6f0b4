#!/usr/bin/env python3
"""Times `link` of whole modules, and shows how its time and memory grow.

usage: bench/modules.py [WESLC [CASES]]      the built programs; crates/weslc/out/weslc, and crates/weslc_cases/out/weslc_cases

Four shapes, each from a tenth to the whole: one module of 3 MB, 1,000 modules of 3 kB, a chain of 2,000 published imports of one name, and
a module of 10,000 declarations that use their neighbours. Beside the time of linking stands that of parsing the same texts alone, by the
program of cases, which reads them as one module, and that of a lexer by hand (beside.py). A time is the least of three runs."""
import json
import os
import resource
import subprocess
import sys
import time

from beside import times
from parse import timed as parsed

HERE = os.path.dirname(os.path.abspath(__file__))
RUNS = 3

FUNCTION = """struct Light_%d { @size(16) position: vec3f, color: vec4<f32>, }
fn shade_%d(light: Light_%d, normal: vec3f, roughness: f32) -> vec4f {
    var sum = vec4f(0.0, 0.0, 0.0, 1.0);
    for (var i = 0u; i < 4u; i++) { if dot(normal, light.position) < 0.25 { continue; } sum += light.color * f32(i) * %s; }
    switch u32(roughness) { case 0u, 1u: { sum.x *= 2.0; } default: { sum[1] = clamp(sum.w, 0.0, 1.0) / 3.5; } }
    return select(sum, -sum, any(sum.xyz > normal)) + vec4f(roughness);
}
"""


def shader(size, first, scale):
    """Text of about so many bytes, its declarations numbered from one on, and the number behind the last."""
    parts, total, n = [], 0, first
    while total < size:
        parts.append(FUNCTION % (n, n, n, scale))
        total += len(parts[-1])
        n += 1
    return "".join(parts), n


def one_module(part):
    text, count = shader(300_000 * part, 0, "0.5")
    return [text], "whole", []


def many_modules(part):
    """Each module uses a function of the next one."""
    texts, n = [], 0
    for m in range(100 * part):
        text, behind = shader(2_800, n, f"scale_{m + 1}()" if m + 1 < 100 * part else "1.5")
        head = f"import package::m{m + 1}::scale_{m + 1};\n" if m + 1 < 100 * part else ""
        texts.append(f"{head}fn scale_{m}() -> f32 {{ return shade_{n}(Light_{n}(), vec3f(), 0.5).x; }}\n{text}")
        n = behind
    return texts, "lazy", ["scale_0"]


def chain(part):
    """Each module publishes a name of the next one."""
    count = 200 * part
    texts = ["import package::m1::base; fn g() -> f32 { return base * 2.0; }\n"]
    texts += [f"@publish import package::m{m + 1}::base;\n" for m in range(1, count)]
    texts.append("const base = 1.5;\n")
    return texts, "lazy", ["g"]


def neighbours(part):
    """Each function calls those beside it, none in a ring."""
    count = 1_000 * part
    lines = [f"fn f{n}(x: f32) -> f32 {{ return {' + '.join(f'f{k}(x)' for k in range(n + 1, min(n + 4, count))) or 'x'}; }}" for n in range(count)]
    return ["\n".join(lines) + "\n"], "lazy", ["f0"]


SHAPES = [("one module", one_module), ("many modules", many_modules), ("published imports", chain), ("neighbours", neighbours)]


def bundle(texts, mode, keep):
    modules = [{"path": "package" if m == 0 else f"package::m{m}", "text": t} for m, t in enumerate(texts)]
    return json.dumps({"command": "link", "root": "package", "modules": modules, "keep": keep, "mode": mode, "max_modules": 100_000}).encode()


def linked(program, data):
    """Seconds, and the peak of memory in bytes."""
    read, write = os.pipe()
    if (pid := os.fork()) == 0:
        begin = time.monotonic()
        ran = subprocess.run([program], input=data, stdout=subprocess.DEVNULL, stderr=subprocess.PIPE)
        took = time.monotonic() - begin
        peak = resource.getrusage(resource.RUSAGE_CHILDREN).ru_maxrss * 1024
        os.write(write, json.dumps([took, peak, ran.returncode, ran.stderr.decode("utf-8", "replace")[-200:]]).encode())
        os._exit(0)
    os.waitpid(pid, 0)
    took, peak, status, line = json.loads(os.read(read, 4096))
    os.close(read), os.close(write)
    if status != 0:
        sys.exit(f"status {status}: {line}")
    return took, peak


def main(arguments):
    names = arguments + ["crates/weslc/out/weslc", "crates/weslc_cases/out/weslc_cases"][len(arguments):]
    program, cases = (os.path.abspath(it if arguments else os.path.join(HERE, "..", it)) for it in names)
    print("| shape | bytes | linked, s | parsed alone, s | ratio | times the C lexer | growth | peak, times the texts |")
    print("|---|---|---|---|---|---|---|---|")
    for shape, make in SHAPES:
        before = None
        for part in (1, 10):
            texts, mode, keep = make(part)
            size, data = sum(map(len, texts)), bundle(texts, mode, keep)
            took, peak = min(linked(program, data) for _ in range(RUNS))
            alone = parsed_alone(cases, texts)
            growth, lexed = f"{took / before:.1f}" if before else "", times(took, "\n".join(texts))
            print(f"| {shape} | {size:,} | {took:.3f} | {alone:.3f} | {took / alone:.1f} | {lexed} | {growth} | {peak / size:.0f} |", flush=True)
            before = took


def parsed_alone(cases, texts):
    """Seconds of parsing the texts behind one another, imports left out, since a module has them at its head."""
    lines = [line for text in texts for line in text.split("\n") if "import " not in line]
    return min(parsed(cases, " ".join(lines)) for _ in range(RUNS))


if __name__ == "__main__":
    main(sys.argv[1:])
