"""What stands beside each figure: a lexer of WGSL by hand in C, and the machine's other compilers, over the same text.

A machine's clock says little alone. `floor` is the time in which `lexer.c` lexes a text, built by the machine's C compiler with -O2: the least
that reading it takes. `peers` has the programs of others that are on the path (`naga FILE`, `tint FILE`), with the time of one run of each."""
import os
import shutil
import subprocess
import tempfile
import time

HERE = os.path.dirname(os.path.abspath(__file__))
RUNS = 5
PEERS = ("naga", "tint")
built = {}


def lexer():
    """The built lexer; none where there is no C compiler."""
    if "lexer" not in built:
        compiler = shutil.which("cc") or shutil.which("gcc")
        folder = built["folder"] = tempfile.TemporaryDirectory()
        program = os.path.join(folder.name, "lexer")
        done = compiler and subprocess.run([compiler, "-O2", "-o", program, os.path.join(HERE, "lexer.c")], check=False).returncode == 0
        built["lexer"] = program if done else None
    return built["lexer"]


def floor(text):
    """The least seconds of a few runs of the C lexer over a text; none where it can't be built."""
    program = lexer()
    if not program:
        return None
    done = subprocess.run([program, str(RUNS)], input=text.encode(), stdout=subprocess.PIPE, check=True)
    return int(done.stdout.split()[2]) / 1e9


def times(seconds, text):
    """How many times the C lexer's time so many seconds are, as it is printed."""
    least = floor(text)
    return f"{seconds / least:.0f}" if least else "-"


def peers(text):
    """The names and the least seconds of other compilers on this machine, each of which checks the text as a file."""
    found = {}
    with tempfile.TemporaryDirectory() as folder:
        path = os.path.join(folder, "text.wgsl")
        with open(path, "w", encoding="utf-8") as file:
            file.write(text)
        for name in filter(shutil.which, PEERS):
            taken = []
            for _ in range(3):
                begin = time.perf_counter()
                done = subprocess.run([name, path], stdout=subprocess.DEVNULL, stderr=subprocess.DEVNULL, check=False)
                taken.append(time.perf_counter() - begin)
            if done.returncode == 0:
                found[name] = min(taken)
    return found
