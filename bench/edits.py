#!/usr/bin/env python3
"""Times edits in a session: edits.py [SESSION [MODULES]]   (default: ../crates/weslc_session/out/weslc_session, 1,000 modules)

Modules of 3 kB, each of which calls a function of the next one; all that they declare is reached. One module is edited and all is compiled
again: the root, the one in the middle, or the last, which imports nothing. A comment is added, a body changed, or a declaration renamed that
its module alone uses. Beside the time stands its part of that of the first compilation, which parses all. Each figure is the least of three.
Beside the first compilation stands a lexer by hand over all texts (beside.py)."""
import json
import os
import subprocess
import sys
import time

from beside import times

HERE = os.path.dirname(os.path.abspath(__file__))
RUNS = 3
SIZE = 3_000

FUNCTION = """struct Item_%d { weight: u32, place: vec3u, }
fn sum_%d(item: Item_%d, turns: u32) -> u32 {
    var sum = item.weight;
    for (var i = 0u; i < turns; i++) { if item.place[i %% 3u] < 25u { continue; } sum += item.place.x * i * FACTOR; }
    switch turns { case 0u, 1u: { sum *= 2u; } default: { sum = (sum ^ 255u) / 3u; } }
    return sum + 7u * 3u;
}
"""


def module(m, count):
    """The text of a module of about 3 kB."""
    parts, n = [], 0
    while sum(map(len, parts)) < SIZE - 500:
        parts.append(FUNCTION % (n, n, n))
        n += 1
    calls = " + ".join(f"sum_{k}(Item_{k}(), x)" for k in range(n))
    head, tail = (f"import package::m{m + 1}::total_{m + 1};\n", f" + total_{m + 1}(x)") if m + 1 < count else ("", "")
    return f"{head}const FACTOR = 5u;\nfn total_{m}(x: u32) -> u32 {{ return {calls}{tail}; }}\n{''.join(parts)}"


EDITS = {"a comment": lambda text: text + "// more\n", "a body": lambda text: text.replace("7u * 3u", "7u * 4u", 1), "a name": lambda text: text.replace("sum_1(", "total(")}


class Session:
    """The program, with a line for each line."""

    def __init__(self, program):
        self.process = subprocess.Popen([program], stdin=subprocess.PIPE, stdout=subprocess.PIPE)

    def ask(self, **command):
        """The answer, and the seconds in which it came."""
        line = json.dumps(command).encode() + b"\n"
        start = time.perf_counter()
        self.process.stdin.write(line)
        self.process.stdin.flush()
        answer = self.process.stdout.readline()
        took = time.perf_counter() - start
        if not answer or answer.startswith(b'{"error"'):
            sys.exit(f"{line[:80]!r}: {answer[:200]!r}")
        return answer, took

    def set(self, m, text):
        return self.ask(set_module={"path": path_of(m), "text": text})[1]

    def end(self):
        self.process.stdin.close()
        self.process.wait()


def path_of(m):
    return "package" if m == 0 else f"package::m{m}"


def fresh(program, texts):
    """A session in which all was compiled once, and the seconds that took."""
    session = Session(program)
    session.ask(set_options={"keep": ["total_0"], "max_modules": 1_000_000})
    for m, text in enumerate(texts):
        session.set(m, text)
    return session, session.ask(compile={})[1]


def main(arguments):
    program = os.path.abspath(arguments[0] if arguments else os.path.join(HERE, "../crates/weslc_session/out/weslc_session"))
    count = int(arguments[1]) if len(arguments) > 1 else 1_000
    texts = [module(m, count) for m in range(count)]
    opened = [fresh(program, texts) for _ in range(RUNS)]
    session, first = opened[0][0], min(took for _, took in opened)
    for other, _ in opened[1:]:
        other.end()
    print("| module | edit | compiled, s | part of the first |")
    print("|---|---|---|---|")
    print(f"| {count:,} modules, {sum(map(len, texts)):,} bytes | none before | {first:.3f} | 100 %, {times(first, ''.join(texts))} times the C lexer |", flush=True)
    for name, m in [("the last", count - 1), ("in the middle", count // 2), ("the root", 0)]:
        for edit, change in EDITS.items():
            best = None
            for _ in range(RUNS):
                took = session.set(m, change(texts[m])) + session.ask(compile={})[1]
                best = took if best is None else min(best, took)
                session.set(m, texts[m])
                session.ask(compile={})
            print(f"| {name} | {edit} | {best:.3f} | {100 * best / first:.1f} % |", flush=True)
    session.end()


if __name__ == "__main__":
    main(sys.argv[1:])
