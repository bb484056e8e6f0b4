#!/usr/bin/env python3
"""Writes cases of the parser for the program `weslc_cases`: places in texts and faults of modules, with what a plain slow program tells of them.

usage: tools/error_cases.py        It writes crates/weslc_cases/data/places.txt, and the count of cases into the crate's stdout.

The plain program shares nothing with the crates: it finds line breaks by a regular expression and cuts a place by the bits of its byte.
Of a module's fault the message and the place stand below, worked out by hand."""
import re

from cases import escaped, write

BREAK = re.compile("\r\n|[\n\v\f\r\x85\u2028\u2029]")

# ---- What is told of a part of a text.


def cut(data, at):
    """How many characters stand before a byte, which is moved back to where a character begins."""
    at = min(at, len(data))
    while at < len(data) and data[at] & 0xC0 == 0x80:
        at -= 1
    return len(data[:at].decode())


def snippet(text, start, end):
    data = text.encode()
    place, behind = cut(data, start), cut(data, end)
    begins, ends = [0], []
    for found in BREAK.finditer(text):
        ends.append(found.start())
        begins.append(found.end())
    ends.append(len(text))
    line = max(number for number, begin in enumerate(begins) if begin <= place)
    first, last = begins[line], ends[line]
    below = "".join("\t" if character == "\t" else " " for character in text[first:place])
    marks = "^" * max(1, min(behind, last) - place)
    return f"line {line + 1}, column {place - first + 1}\n{text[first:last]}\n{below}{marks}"


def told(message, text, start, end):
    return f"{message} at {start}..{end}\n{snippet(text, start, end)}"


# ---- The cases: texts with places in bytes.

BREAKS = "a\vb\fc\x85d\u2028e\u2029f"
FUNCTION = "fn f() {\n    let a = 1\n}\n"
PLACES = {
    "": [(0, 0), (0, 5), (7, 9), (9, 2)],
    "const a = ;": [(10, 11), (0, 5), (11, 11), (11, 40), (400, 401), (3, 3), (8, 2), (0, 99)],
    "const é = ;": [(6, 8), (7, 8), (6, 7), (7, 7), (8, 9)],
    "é": [(1, 1), (1, 2), (0, 1), (2, 2)],
    "a 😀 b": [(3, 4), (2, 6), (5, 7), (7, 8), (0, 3), (0, 6)],
    "→→": [(3, 6), (4, 6), (2, 5)],
    "a\nb\nc": [(0, 1), (1, 2), (2, 3), (4, 5), (0, 5), (1, 4), (5, 5)],
    "a\nb\n": [(4, 4), (3, 4), (9, 9)],
    "\n\n": [(1, 1), (2, 2)],
    "\n": [(0, 0), (1, 1)],
    "a\r\nb": [(0, 1), (1, 2), (1, 3), (2, 3), (2, 2), (3, 4), (0, 4), (4, 4)],
    "a\rb": [(1, 2), (2, 3)],
    "a\r\r\nb\n\rc": [(1, 2), (2, 3), (3, 3), (4, 5), (6, 6), (7, 8)],
    "a\r": [(2, 2)],
    "a\r\n": [(2, 2), (3, 3)],
    "\r\n\r\n": [(1, 1), (2, 2), (3, 3), (4, 4)],
    BREAKS: [(2, 3), (4, 5), (7, 8), (11, 12), (15, 16), (6, 6), (10, 10)],
    "a\x85b": [(2, 3), (3, 4)],
    "a\u2028b": [(3, 3), (1, 2), (4, 5)],
    "\tlet a;": [(1, 4)],
    "a\tb\tc": [(4, 5), (1, 4)],
    "\t\t": [(2, 2)],
    "\\n": [(1, 2)],
    FUNCTION: [(23, 24), (13, 24), (25, 25), (0, 25)],
    "fn f() {\r\n    let a = 1\r\n}\r\n": [(25, 26)],
}
MODULES = [
    ("const a = ;", "unexpected token", 10, 11),
    (FUNCTION, "unexpected token", 23, 24),
    ("fn f() {\r\n\tlet a = 1;\r\n", "unexpected end of the text", 23, 23),
    ("// é\nconst é = 1;\nfn self() {}", "reserved word", 23, 27),
    ("/*\n*/ const __a = 1;", "invalid token", 12, 15),
    ("@align\nfn f() {}", "invalid arguments of an attribute", 1, 6),
    ("\n\nvar<privat> x: u32;", "invalid template of `var`", 12, 13),
    ("diagnostic(loud, a.b);\n", "invalid severity of a diagnostic", 20, 21),
]
FAULTLESS = ["", "fn f() {}\n"]

# ---- Writing.


def lines():
    yield "# Places in texts, and what is told of an unexpected token there"
    for text, places in PLACES.items():
        for start, end in places:
            yield f"told\t{start}\t{end}\t{escaped(text)}\t{escaped(told('unexpected token', text, start, end))}"
    yield "# Faults of modules"
    for text, message, start, end in MODULES:
        yield f"source\t{escaped(text)}\t{escaped(told(message, text, start, end))}"
    for text in FAULTLESS:
        yield f"source\t{escaped(text)}\tnone"


def main():
    print(f"{write('weslc_cases', 'places.txt', list(lines()))} cases")


if __name__ == "__main__":
    main()
