#!/usr/bin/env python3
"""How the time of each command grows with the text, shape by shape.

usage: bench/growth.py [--only WORD] [--command COMMAND] [--all] [--counted] [--sizes BYTES,BYTES,..] [PROGRAM]
                                          the built program; crates/weslc/out/weslc

Each shape is a bundle of so many declarations, modules, levels or whatever grows in it, in three sizes of about 3, 30 and 300 kB; smaller
where the language bounds what grows (levels of nesting). Each command that takes it is run on the three. Bytes are those read and written,
since some texts are printed far longer than they are (blocks in one another are indented). A time is the processor time of the whole process,
the least of a few runs, less that of a bundle of one constant. The growth is that per tenfold bytes, between the two largest sizes and between
the two smallest; it is marked where it is above 12 and the larger run takes more than 20 ms. A row is printed for each command of a shape with
--all, else for the command of the largest growth alone. A run is given up after 6 s, and not tried where the one before took a tenth of that.
With --counted instructions are counted by valgrind instead, which no other process disturbs and which takes fifty times as long. A status
that is not 0 stands behind the command.

The shapes are in growth_shapes.py."""
import json
import math
import os
import resource
import signal
import subprocess
import sys
import tempfile

from growth_shapes import SHAPES

HERE = os.path.dirname(os.path.abspath(__file__))
SIZES = (3_000, 30_000, 300_000)
LIMIT = 12
COUNTS_FROM = 0.02  # seconds
LONGEST = 6  # seconds of processor time
SHORT = 0.5  # what takes longer is run once
RUNS = 2
COMMANDS = {
    "link": {"command": "link", "mode": "lazy"},
    "link eager": {"command": "link", "mode": "eager"},
    "link whole": {"command": "link", "mode": "whole"},
    "compile": {"command": "compile"},
    "precompile": {"command": "precompile"},
    "run": {"command": "run", "entry": "main"},
    "eval": {"command": "eval"},
}
MAIN = "@compute @workgroup_size(1) fn main() { }\n"
TINY = {"root": "package", "modules": [{"path": "package", "text": "const a = 1;\n" + MAIN}], "keep": ["a"]}


def bundle_of(shape, command, count):
    """The bundle of a shape for a command, where so many of what grows stand in it."""
    made = {"root": "package", "max_modules": 1_000_000, **shape.make(count), **COMMANDS[command]}
    root = next(it for it in made["modules"] if it["path"] == made["root"])
    if command == "run" and "fn main" not in root["text"]:
        root["text"] += MAIN
    if command == "eval":
        made.setdefault("expression", "1u")
    else:
        made.pop("expression", None)
    if command != "run":
        for key in ("inputs", "bindings"):
            made.pop(key, None)
    return json.dumps(made).encode()


def count_of(shape, command, size):
    """How many of what grows make a bundle of about so many bytes."""
    low, high = 1, 2
    while len(bundle_of(shape, command, high)) < size and high < shape.most:
        low, high = high, high * 2
    while high - low > max(1, low // 50):
        middle = (low + high) // 2
        if len(bundle_of(shape, command, middle)) < size:
            low = middle
        else:
            high = middle
    return min(high, shape.most)


def counts_of(shape, command, sizes):
    """The three counts; where the language bounds what grows, the largest is that bound, and each other a third of the next."""
    largest = count_of(shape, command, sizes[-1])
    if largest < shape.most:
        return [count_of(shape, command, it) for it in sizes]
    return [max(1, largest // 3 ** (len(sizes) - 1 - it)) for it in range(len(sizes))]


def limited():
    """In the process that is started."""
    resource.setrlimit(resource.RLIMIT_CPU, (LONGEST, LONGEST + 1))


def run_once(program, data):
    """The processor time of one run, the bytes that it wrote, and its status; no time where it was given up."""
    with tempfile.TemporaryFile() as given, tempfile.TemporaryFile() as written:
        given.write(data)
        given.seek(0)
        process = subprocess.Popen(program, stdin=given, stdout=written, stderr=subprocess.DEVNULL, preexec_fn=limited)
        _, status, used = os.wait4(process.pid, 0)
        process.returncode = os.waitstatus_to_exitcode(status)
        if process.returncode in (-signal.SIGXCPU, -signal.SIGKILL):
            return None, 0, process.returncode
        return used.ru_utime + used.ru_stime, os.fstat(written.fileno()).st_size, process.returncode


def timed(program, data):
    best, written, status = run_once(program, data)
    for _ in range(RUNS - 1):
        if best is None or best > SHORT:
            break
        best = min(best, run_once(program, data)[0] or best)
    return best, written, status


def counted(program, data):
    """Instructions, in thousand millions: about the seconds that they take."""
    words = ["valgrind", "--tool=cachegrind", "--cache-sim=no", "--cachegrind-out-file=/dev/null", "--main-stacksize=8388608", *program]
    done = subprocess.run(words, input=data, capture_output=True)
    said = done.stderr.decode(errors="replace").split("refs:")
    count = int(said[1].split()[0].replace(",", "")) / 1e9 if len(said) > 1 else None
    return count, len(done.stdout), done.returncode


def growth(less, more):
    """The growth per tenfold bytes between two runs, each its bytes and its time."""
    if None in (less[1], more[1]) or less[0] >= more[0]:
        return None
    floor = 0.0002
    return (max(more[1], floor) / max(less[1], floor)) ** (1 / math.log10(more[0] / less[0]))


class Row:
    """A shape and a command, with bytes and time of each size."""

    def __init__(self, shape, command, taken, statuses):
        self.shape, self.command, self.taken = shape, command, taken
        self.status, self.tried = statuses[-1], len(statuses)
        self.growths = [growth(*it) for it in zip(taken, taken[1:])]

    def is_above(self, at):
        last = self.taken[at + 1][1]
        return last is None or (last > COUNTS_FROM and self.growths[at] is not None and self.growths[at] > LIMIT)

    def worst(self):
        """The growth that counts most; what was given up comes first."""
        if self.taken[-1][1] is None:
            return 1e9
        return max([it for at, it in enumerate(self.growths) if it is not None and self.taken[at + 1][1] > COUNTS_FROM], default=0)

    def __str__(self):
        without = ["given up" if at < self.tried else "not tried" for at in range(len(self.taken))]
        times = [f"{bytes_:,}: " + (word if time is None else f"{time:.4f}") for (bytes_, time), word in zip(self.taken, without)]
        shown = ["-" if it is None else f"{it:.1f}" for it in self.growths]
        marked = ["**" + it + "**" if self.is_above(at) else it for at, it in enumerate(shown)]
        status = "" if self.status == 0 else f" ({self.status})"
        return f"| {self.shape.name} | {self.command}{status} | {' | '.join(times)} | {' | '.join(reversed(marked))} |"


def row_of(program, shape, command, sizes, measure, start):
    """The row of a shape and a command. What is sure to take too long is not tried."""
    taken, statuses = [], []
    for count in counts_of(shape, command, sizes):
        data = bundle_of(shape, command, count)
        if taken and (taken[-1][1] is None or taken[-1][1] * 10 > LONGEST):
            taken.append((len(data), None))
            continue
        time, written, status = measure(program, data)
        taken.append((len(data) + written, None if time is None else max(0.0, time - start)))
        statuses.append(status)
    return Row(shape, command, taken, statuses)


def start_of(program, measure):
    data = json.dumps({**TINY, **COMMANDS["link"]}).encode()
    return min(measure(program, data)[0] for _ in range(1 if measure is counted else 10))


def value_of(words, name, otherwise):
    if name not in words:
        return otherwise
    at = words.index(name)
    value = words[at + 1]
    del words[at : at + 2]
    return value


def flag_of(words, name):
    if name not in words:
        return False
    words.remove(name)
    return True


def main(words):
    only, command = value_of(words, "--only", ""), value_of(words, "--command", None)
    sizes = [int(it) for it in value_of(words, "--sizes", ",".join(map(str, SIZES))).split(",")]
    are_all, measure = flag_of(words, "--all"), counted if flag_of(words, "--counted") else timed
    program = [os.path.abspath(words[0] if words else os.path.join(HERE, "../crates/weslc/out/weslc"))]
    start = start_of(program, measure)
    print(f"| shape | command | {' | '.join(f'about {it:,} bytes' for it in sizes)} | growth | before |")
    print("|" + "---|" * (4 + len(sizes)))
    above = 0
    for shape in SHAPES:
        if only not in shape.name:
            continue
        commands = [it for it in shape.commands if command in (None, it)]
        rows = [row_of(program, shape, it, sizes, measure, start) for it in commands]
        above += sum(any(row.is_above(at) for at in range(len(row.growths))) for row in rows)
        rows.sort(key=lambda row: -row.worst())
        for row in rows if are_all else rows[:1]:
            print(row, flush=True)
    print(f"\n{above} above {LIMIT}")


if __name__ == "__main__":
    main(sys.argv[1:])
