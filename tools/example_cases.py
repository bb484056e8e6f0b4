#!/usr/bin/env python3
"""Writes the cases of the program `weslc_cases` that hold examples/ to what it says: each bundle examples/NAME.json, and what
it prints, which stands beside it as examples/NAME.txt: a text, or the line of an error.

usage: tools/example_cases.py [--check]      --check writes nothing, and fails where the cases are not those of examples/
"""

import json
import os
import sys

from cases import read, write_or_check

TOP = os.path.join(os.path.dirname(os.path.abspath(__file__)), "..")
EXAMPLES = os.path.join(TOP, "examples")
FILE = os.path.join(TOP, "crates", "weslc_cases", "data", "examples.json")


def case(name):
    made = {"name": f"examples/{name}.json", "input": read(f"{EXAMPLES}/{name}.json")}
    printed = read(f"{EXAMPLES}/{name}.txt")
    if not printed.startswith("error: "):
        return {**made, "text": printed}
    return {**made, "line": printed, "status": 1}


def main(arguments):
    names = sorted(name[: -len(".json")] for name in os.listdir(EXAMPLES) if name.endswith(".json"))
    cases = json.dumps([case(name) for name in names], indent=1, ensure_ascii=False) + "\n"
    write_or_check(FILE, cases, arguments, __doc__, "the cases are not those of examples/: run tools/example_cases.py")


main(sys.argv[1:])
