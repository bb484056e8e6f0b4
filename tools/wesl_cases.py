#!/usr/bin/env python3
"""Writes what of crates/wesl_cases/data is made: the modules of data/shaders as a bundle has them, so that the program `wesl_cases` can
compare what `wesl` makes of the folder with what `weslc` makes of the bundle; and the modules of bundles in examples/ as files, with
what is handed to their runs.

usage: tools/wesl_cases.py [--check]      --check writes nothing, and fails where a file is another
"""

import json
import os
import sys

from cases import read, write_or_check

TOP = os.path.join(os.path.dirname(os.path.abspath(__file__)), "..")
DATA = os.path.join(TOP, "crates", "wesl_cases", "data")
FOLDER = os.path.join(DATA, "shaders")

# The bundles whose modules are written as files, and of which bundles what is handed to a run.
EXAMPLES = ["histogram", "evaluated"]
HANDED = [
    ("histogram/bindings.json", "histogram", "bindings"),
    ("histogram/short.json", "histogram_short", "bindings"),
    ("histogram/overrides.json", "histogram_wider", "overrides"),
]


def as_json(value):
    return json.dumps(value, indent=1, ensure_ascii=False) + "\n"


def modules():
    files = [os.path.join(folder, name) for folder, _, names in os.walk(FOLDER) for name in names]
    for file in sorted(files):
        stem = os.path.splitext(os.path.relpath(file, FOLDER))[0]
        yield {"path": "::".join(["package", *stem.split("/")]), "text": read(file)}


def example(name):
    return json.loads(read(os.path.join(TOP, "examples", f"{name}.json")))


def files():
    """The name of each file that is made, and its text."""
    yield "shaders.json", as_json(list(modules()))
    for name in EXAMPLES:
        for module in example(name)["modules"]:
            parts = module["path"].split("::")
            yield "/".join([name, *(parts[1:] or parts)]) + ".wesl", module["text"]
    for file, name, key in HANDED:
        yield file, as_json(example(name)[key])


def main(arguments):
    for name, text in files():
        file = os.path.join(DATA, name)
        if not arguments:
            os.makedirs(os.path.dirname(file), exist_ok=True)
        write_or_check(file, text, arguments, __doc__, f"{name} is another: run tools/wesl_cases.py")


main(sys.argv[1:])
