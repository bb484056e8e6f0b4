"""What the program of the cases answers to bundles: 1,000 in a second and more, in one process."""
import json
import os
import re
import resource
import subprocess

ROOT = os.path.dirname(os.path.dirname(os.path.realpath(__file__)))
DATA = f"{ROOT}/crates/weslc_cases/data"
SECONDS, MEMORY = 120, 4 << 30
ANSWER = re.compile(r'(\d+): wanted "" "" 99, given ("(?:[^"\\]|\\.)*") ("(?:[^"\\]|\\.)*") (\d+)')


def emptied(room):
    """Puts into a folder the data of the program, without any case."""
    for name in os.listdir(DATA):
        with open(f"{room}/{name}", "w", encoding="utf-8") as empty:
            empty.write("[]" if name.endswith(".json") else "")


def case(number, data):
    """A case that differs whatever is answered, so that the answer is printed."""
    try:
        return {"name": str(number), "input": data.decode(), "status": 99}
    except UnicodeDecodeError:
        return {"name": str(number), "bytes": list(data), "status": 99}


def unquoted(text):
    """What a quoted text says."""
    short = {"n": "\n", "t": "\t", "r": "\r", "0": "\0"}
    return re.sub(r"\\(?:u\{([0-9a-f]+)\}|(.))", lambda it: chr(int(it[1], 16)) if it[1] else short.get(it[2], it[2]), text[1:-1], flags=re.S)


def answers(program, room, bundles):
    """What the program answers to each bundle, and how it ended: text, line and status, or nothing where it did not answer."""
    with open(f"{room}/texts.json", "w", encoding="utf-8") as file:
        json.dump([case(number, data) for number, data in enumerate(bundles)], file)
    try:
        run = subprocess.run([program], cwd=room, capture_output=True, timeout=SECONDS,
                             preexec_fn=lambda: resource.setrlimit(resource.RLIMIT_DATA, (MEMORY, MEMORY)))
        printed, end = run.stdout.decode("utf-8", "replace"), run.returncode
    except subprocess.TimeoutExpired as slow:
        printed, end = (slow.stdout or b"").decode("utf-8", "replace"), "too slow"
    found = [None] * len(bundles)
    for it in ANSWER.finditer(printed):
        found[int(it[1])] = (unquoted(it[2]), unquoted(it[3]), int(it[4]))
    return found, end


def batch(program, room, bundles):
    """The answers to bundles; after a process that ended otherwise than by itself, those behind the bundle that did it are given anew."""
    found, end = answers(program, room, bundles)
    while end != 0 or None in found:
        at = found.index(None) if None in found else len(found) - 1
        found[at] = ("", f"ended by {end}", -1)
        if at + 1 == len(bundles):
            break
        found[at + 1:], end = answers(program, room, bundles[at + 1:])
    return found
