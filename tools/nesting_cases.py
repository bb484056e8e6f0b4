#!/usr/bin/env python3
"""Writes crates/weslc_cases/data/nesting.json: what nests, as deep as each command takes it, one deeper, and far deeper; and the bounds of
types and values.

usage: tools/nesting_cases.py [--check | --table PROGRAM [STACK..]]

Each command takes trees of 2,500 levels; the first node that is one level deeper, in the order in which nodes end, is told with its place.
So each case that is taken shows that the deepest walk of its command fits the stack. What a case wants follows from how texts are printed,
and from how many levels a node is: a call is two, a statement two, a block two, `continuing` two, `loop` four, any other node one. Of
statements, whose lines are indented, the length of the text is wanted.

With --table nothing is written: a built `weslc` runs each case with each of these stacks (in kB; 8192 and 4096), and a line says for each
construct and command how it ended: ok, the case's error, a signal, or another answer."""
import json
import os
import resource
import subprocess
import sys

from cases import write_or_check

PATH = os.path.join(os.path.dirname(os.path.dirname(os.path.realpath(__file__))), "crates/weslc_cases/data/nesting.json")
LIMIT = 2500
HOLE = "@@"
SECONDS = 120


class Nest:
    """Something in whose middle it stands itself, `count` times: each time there are these levels more. A part of them is a node that is
    some bytes shorter before and behind."""

    def __init__(self, count, opens, inner, closes, parts, depth):
        self.count, self.open, self.inner, self.close = count, opens, inner, closes
        self.parts, self.depth = parts, depth

    @property
    def text(self):
        return self.open * self.count + self.inner + self.close * self.count

    def too_deep(self):
        """Where the first node stands that is nested too deep, if one is."""
        depth = self.depth
        for done in range(self.count):
            outside = self.count - done - 1
            for levels, before, behind in self.parts:
                depth += levels
                if depth > LIMIT:
                    start = outside * len(self.open) + before
                    return start, len(self.text) - outside * len(self.close) - behind
        return None

    def pieces(self, around):
        head, tail = around.split(HOLE)
        return {"head": head, "open": self.open, "count": self.count, "inner": self.inner, "close": self.close, "tail": tail}


def same(count):
    return 0


# what stands before and behind, the nodes from the inside out (their levels, and how many of these bytes they leave out before and behind),
# the innermost and its levels, what is declared, and the value, where `x` is 0
BOX = "struct Box {\n    m: i32,\n}\n"
ID = "fn id(a: i32) -> i32 {\n    return a;\n}\n"
SECOND = "fn second(a: i32, b: i32) -> i32 {\n    return b;\n}\n"
TABLE = "var<private> table: array<i32, 2>;\n"
SIGNS = {"+": lambda n: n, "*": same, "^": lambda n: n % 2}  # of each precedence
NUMBERS = {
    "parentheses": ("(", ")", [(1, 0, 0)], "x", 1, "", same),
    "minus signs": ("- ", "", [(1, 0, 0)], "-x", 2, "", same),
    "complements": ("~", "", [(1, 0, 0)], "x", 1, "", lambda n: -(n % 2)),
    **{f"signs {sign}": ("", f" {sign} 1", [(1, 0, 0)], "x", 1, "", value) for sign, value in SIGNS.items()},
    "right sides": ("1 + (", ")", [(1, 4, 0), (1, 0, 0)], "x", 1, "", lambda n: n),
    "conversions": ("i32(", ")", [(2, 0, 0)], "x", 1, "", same),
    "calls": ("id(", ")", [(2, 0, 0)], "x", 1, ID, same),
    "second arguments": ("second(1i, ", ")", [(2, 0, 0)], "x", 1, SECOND, same),
    "indices": ("table[", "]", [(1, 0, 0)], "x", 1, TABLE, same),
    "addresses": ("*&", "", [(1, 1, 0), (1, 0, 0)], "x", 1, "", same),
    "addresses in parentheses": ("*(&(", "))", [(1, 3, 1), (1, 2, 1), (1, 1, 0), (1, 0, 0)], "x", 1, "", same),
    "elements of arrays": ("array(", ")[0i]", [(2, 0, 4), (1, 0, 0)], "x", 1, "", same),
    "members": ("Box(", ").m", [(2, 0, 2), (1, 0, 0)], "x", 1, BOX, same),
    "letters": ("vec2(", ").x", [(2, 0, 2), (1, 0, 0)], "x", 1, "", same),
}
TRUTHS = {
    "exclamation marks": ("!", "", [(1, 0, 0)], "b", 1, "", lambda n: n % 2 == 1),
    "signs &&": ("", " && true", [(1, 0, 0)], "b", 1, "", lambda n: False),
    "signs ||": ("", " || false", [(1, 0, 0)], "b", 1, "", lambda n: False),
    "right sides of &&": ("true && (", ")", [(1, 8, 0), (1, 0, 0)], "b", 1, "", lambda n: False),
    "right sides of ||": ("false || (", ")", [(1, 9, 0), (1, 0, 0)], "b", 1, "", lambda n: False),
    "comparisons": ("true == (", ")", [(1, 8, 0), (1, 0, 0)], "b", 1, "", lambda n: False),
}

# what stands before and behind inner statements, the nodes from the inside out, the lines before and behind the inner ones, how much these
# are indented, and how many loop bodies are run for each
STATEMENTS = {
    "blocks": ("{ ", " }", [(2, 0, 0), (2, 0, 0)], ["{"], ["}"], 1, 0),
    "if": ("if x == 0 { ", " }", [(2, 10, 0), (2, 0, 0)], ["if x == 0 {"], ["}"], 1, 0),
    "else": ("if x == 1 { x = 2i; } else { ", " }", [(2, 27, 0), (2, 0, 0)], ["if x == 1 {", "    x = 2i;", "} else {"], ["}"], 1, 0),
    "else if": ("if x == 1 { x = 2i; } else if x == 0 { ", " }", [(2, 37, 0), (1, 22, 0), (2, 0, 0)], ["if x == 1 {", "    x = 2i;", "} else if x == 0 {"], ["}"], 1, 0),
    "loop": ("loop { ", " break; }", [(4, 0, 0)], ["loop {"], ["    break;", "}"], 1, 1),
    "continuing": ("loop { continuing { ", " break if true; } }", [(2, 7, 2), (4, 0, 0)], ["loop {", "    continuing {"], ["        break if true;", "    }", "}"], 2, 1),
    "for": ("for (; x == 0; ) { ", " }", [(2, 17, 0), (2, 0, 0)], ["for (; x == 0; ) {"], ["}"], 1, 1),
    "while": ("while x == 0 { ", " }", [(2, 13, 0), (2, 0, 0)], ["while x == 0 {"], ["}"], 1, 1),
    "switch": ("switch x { default { ", " } }", [(2, 19, 2), (1, 11, 2), (2, 0, 0)], ["switch x {", "    default: {"], ["    }", "}"], 2, 0),
}
# the statement inside, and its levels
INNER, INNER_LEVELS = "x++;", 4
# the levels of what stands around: of a returned expression, and of a function's statements
RETURN_LEVELS, BODY_LEVELS = 7, 4
STEPS = {"calls": 1, "second arguments": 1}  # for each one


def printed_length(head, tail, count, first, last, step):
    """How long a function's text is whose statements stand in one another so many times."""
    def length(lines, indent):
        return sum(len(line) + 1 + 4 * indent for line in lines)

    total = len(head) + len(tail) + length([INNER], 1 + count * step)
    return total + sum(length(first + last, 1 + done * step) for done in range(count))


def counts(parts, depth, around):
    """How often something can stand in itself, where so many levels are around it; and how often it is too deep by itself."""
    each = sum(levels for levels, _, _ in parts)
    return (LIMIT - depth - around) // each, (LIMIT - depth) // each + 1


def case(command, name, nest, text, more, before):
    """A case of a text with a hole, where a nest that is too deep is refused. So many bytes of the text stand before the hole."""
    bundle = {"command": command, "root": "package", "modules": [{"path": "package", "text": text}], **more}
    if command == "run":
        bundle["entry"] = "main"
    made = {"name": f"{command}: {name}, {nest.count}", "nested": nest.pieces(json.dumps(bundle))}
    found = nest.too_deep()
    if not found:
        return made
    start, end = found
    if command == "eval":
        line = f"error: Expression.TooDeep - - {start}..{end} -"
    else:
        line = f"error: Syntax.TooDeep {'-' if command == 'precompile' else 'package'} - {before + start}..{before + end} -"
    return {**made, "line": line + "\n", "status": 1}


def expression_cases(kinds, ty, variable):
    for name, (opens, closes, parts, inner, depth, declared, value) in kinds.items():
        fits, exceeds = counts(parts, depth, RETURN_LEVELS)
        for count in (fits, exceeds):
            nest = Nest(count, opens, inner, closes, parts, depth)
            head = f"{declared}{variable}@fragment fn main() -> @location(0) {ty} {{\n    return "
            for command in ("link", "compile", "precompile", "run"):
                made = case(command, name, nest, f"{head}{HOLE};\n}}\n", {}, len(head))
                yield {**made, **(wanted_value(command, name, nest, f"{head}{HOLE};\n}}\n", value) if count == fits else {})}
            if "addresses" in name:
                continue  # there are none of constants
            constants = declared.replace("var<private> table: array<i32, 2>;", "const table = array(0i, 0i);") + variable.replace("var<private>", "const").replace(";", " = 0i;" if ty == "i32" else " = false;")
            made = case("eval", name, nest, constants, {"expression": HOLE}, 0)
            yield {**made, **({"text": said(value(count)) + "\n"} if count == fits else {})}


def said(value):
    """How a value is written."""
    if isinstance(value, bool):
        return "true" if value else "false"
    return f"({value}i)" if value < 0 else f"{value}i"


def wanted_value(command, name, nest, text, value):
    if command == "run":
        return {"text": f"answer: {said(value(nest.count))}\nsteps: {STEPS.get(name, 0) * nest.count}\n"}
    return {"nested_text": nest.pieces(text)}


def core_cases():
    """Cases of a function of Core WESL, which `compile` lowers in another way."""
    for name in ("parentheses", "minus signs", "signs +", "signs *", "right sides", "conversions", "calls"):
        opens, closes, parts, inner, depth, declared, _ = NUMBERS[name]
        fits, exceeds = counts(parts, depth, RETURN_LEVELS)
        for count in (fits, exceeds):
            nest = Nest(count, opens, inner, closes, parts, depth)
            head = f"{declared}fn g(x: i32) -> i32 {{\n    return "
            for command in ("link", "compile"):
                made = case(command, f"Core WESL, {name}", nest, f"{head}{HOLE};\n}}\n", {"keep": ["g"]}, len(head))
                yield {**made, **({"nested_text": nest.pieces(f"{head}{HOLE};\n}}\n")} if count == fits else {})}


def statement_cases():
    head, tail = "var<private> x: i32;\n@fragment fn main() {\n", "}\n"
    for name, (opens, closes, parts, first, last, step, bodies) in STATEMENTS.items():
        fits, exceeds = counts(parts, INNER_LEVELS, BODY_LEVELS)
        for count in (fits, exceeds):
            nest = Nest(count, opens, INNER, closes, parts, INNER_LEVELS)
            for command in ("link", "compile", "precompile", "run"):
                made = case(command, name, nest, f"{head}{HOLE}{tail}", {}, len(head))
                if count == exceeds:
                    yield made
                elif command == "run":
                    yield {**made, "text": f"answer: none\nsteps: {bodies * count}\n"}
                elif command == "compile" and name == "blocks":
                    yield {**made, "text": f"{head}    {INNER}\n{tail}"}
                else:
                    yield {**made, "length": printed_length(head, tail, count, first, last, step)}


# where else something nests: the text around, what stands before and behind, the nodes, the innermost and its levels, the levels around, what
# the flag `k` is set to, and for each command what it prints: with the hole, if what nests stays
MAIN = "@fragment fn main() {}\n"
RAN = "answer: none\nsteps: 0\n"
KEPT = {"precompile": HOLE, "link": None, "compile": None, "run": None}
DROPPED = {"precompile": MAIN, "link": MAIN, "compile": MAIN, "run": RAN}
OTHERS = {
    "arguments of an attribute": (f"@x({HOLE}) {MAIN}var<private> v: i32;\n", "(", ")", [(1, 0, 0)], "v", 1, 4, None, {"precompile": HOLE, "link": HOLE, "compile": HOLE, "run": RAN}),
    "a condition that is kept": (f"@if({HOLE}) const a = 1;\n{MAIN}", "!(", ")", [(1, 1, 0), (1, 0, 0)], "k", 1, 4, "keep", KEPT),
    "right sides of a condition that is kept": (f"@if({HOLE}) const a = 1;\n{MAIN}", "k && (", ")", [(1, 5, 0), (1, 0, 0)], "k", 1, 4, "keep", KEPT),
    "left sides of a condition that is kept": (f"@if({HOLE}) const a = 1;\n{MAIN}", "", " || k", [(1, 0, 0)], "k", 1, 4, "keep", KEPT),
    "a condition": (f"@if({HOLE}) const a = 1;\n{MAIN}", "(", ")", [(1, 0, 0)], "k", 1, 4, "disable", DROPPED),
    "right sides of a condition": (f"@if({HOLE}) const a = 1;\n{MAIN}", "k || (", ")", [(1, 5, 0), (1, 0, 0)], "k", 1, 4, "disable", DROPPED),
    "left sides of a condition": (f"@if({HOLE}) const a = 1;\n{MAIN}", "", " && k", [(1, 0, 0)], "k", 1, 4, "disable", DROPPED),
    "braces of an import": (f"import package::m::{HOLE};\n{MAIN}", "{", "}", [(1, 1, 1), (1, 0, 0)], "a", 0, 2, None, {**DROPPED, "precompile": HOLE}),
    "an import": (f"import package::{{{HOLE}}};\n{MAIN}", "m::{", "}", [(1, 4, 1), (1, 3, 0), (0, 0, 0)], "a", 0, 4, None, {**DROPPED, "precompile": HOLE}),
}


def other_cases():
    for name, (text, opens, closes, parts, inner, depth, around, feature, printed) in OTHERS.items():
        more = {"features": {"k": feature}} if feature else {}
        fits, exceeds = counts(parts, depth, around)
        for count in (fits, exceeds):
            nest = Nest(count, opens, inner, closes, parts, depth)
            for command, wanted in printed.items():
                made = case(command, name, nest, text, more, text.index(HOLE))
                if count == exceeds:
                    yield made
                elif wanted == HOLE:
                    yield {**made, "nested_text": nest.pieces(text)}
                elif wanted is None:
                    yield {**made, "line": "error: ConditionLeft package - - -\n", "status": 1}
                else:
                    yield {**made, "text": wanted}


def bounds():
    """Types and values at and past the bounds of their parts and depth: what it is, the text, and the declaration that is told."""
    doubled = "".join(f"const c{it} = array(c{it - 1}, c{it - 1}); " for it in range(1, 30))
    yield "constants that double", f"const c0 = 1u; {doubled}@fragment fn main() {{ let y = c29; }}", "TooManyParts", "c18"
    doubled = "".join(f"struct s{it} {{ a: s{it - 1}, b: s{it - 1} }} " for it in range(1, 30))
    yield "structures that double", f"struct s0 {{ a: u32, b: u32 }} {doubled}var<private> x: s29; @fragment fn main() {{ let y = x.a; }}", "TooManyParts", "x"
    yield "an array of 524,286", "@fragment fn main() { let y = array<u32, 524286>()[3]; }", None, None
    yield "an array of 524,287", "@fragment fn main() { let y = array<u32, 524287>()[3]; }", "TooManyParts", "main"
    yield "an array of 4,000,000,000", "@fragment fn main() { let y = array<u32, 4000000000>()[3]; }", "TooManyParts", "main"
    yield "three arrays at once", "@fragment fn main() { var a: array<u32, 500000>; var b: array<u32, 500000>; var c: array<u32, 500000>; }", "TooManyParts", "main"
    yield "an array after another", "@fragment fn main() { for (var i = 0; i < 3; i++) { var a: array<u32, 500000>; } }", None, None
    nested = "".join(f"alias t{it} = array<t{it - 1}, 1>; " for it in range(1, 2600))
    yield "a type that nests 2,600 deep", f"alias t0 = u32; {nested}var<private> x: t2599; @fragment fn main() {{ let y = x[0]; }}", "TypeTooDeep", "x"


def bound_cases():
    for name, text, kind, declaration in bounds():
        bundle = {"command": "run", "root": "package", "modules": [{"path": "package", "text": text}], "entry": "main"}
        steps = 3 if " for " in text else 0
        wanted = {"line": f"error: Eval.{kind} package {declaration} - -\n", "status": 1} if kind else {"text": f"answer: none\nsteps: {steps}\n"}
        yield {"name": f"run: {name}", "bundle": bundle, **wanted}


def far_deeper():
    """What is far deeper than any call stack holds is told likewise."""
    for name, kinds in (("blocks", STATEMENTS), ("loop", STATEMENTS), ("parentheses", NUMBERS), ("calls", NUMBERS)):
        opens, closes, parts = kinds[name][:3]
        inner, depth = (INNER, INNER_LEVELS) if kinds is STATEMENTS else ("x", 1)
        nest = Nest(20_000, opens, inner, closes, parts, depth)
        head, tail = ("fn f() { ", " }") if kinds is STATEMENTS else ("const x = ", ";")
        for command in ("link", "compile", "precompile"):
            yield case(command, name, nest, f"{head}{HOLE}{tail}", {}, len(head))


def cases():
    yield from expression_cases(NUMBERS, "i32", "var<private> x: i32;\n")
    yield from expression_cases(TRUTHS, "bool", "var<private> b: bool;\n")
    yield from core_cases()
    yield from statement_cases()
    yield from other_cases()
    yield from bound_cases()
    yield from far_deeper()


def filled(pieces):
    """A text of which the pieces are given."""
    return pieces["head"] + pieces["open"] * pieces["count"] + pieces["inner"] + pieces["close"] * pieces["count"] + pieces["tail"]


def ended(program, stack, it):
    """How a program with so much stack ends on a case."""
    def bound():
        resource.setrlimit(resource.RLIMIT_STACK, (stack * 1024, stack * 1024))

    ran = subprocess.run([program], input=(filled(it["nested"]) if "nested" in it else json.dumps(it["bundle"])).encode(), capture_output=True, preexec_fn=bound, timeout=SECONDS)
    if ran.returncode < 0:
        return f"signal {-ran.returncode}"
    text, line = ran.stdout.decode(), ran.stderr.decode()
    wanted = filled(it["nested_text"]) if "nested_text" in it else it.get("text", "")
    is_text = len(text) == it["length"] if "length" in it else text == wanted
    if is_text and line == it.get("line", "") and ran.returncode == it.get("status", 0):
        return "error" if line else "ok"
    return f"another answer: {text[:60]!r} {len(text)} {line[:100]!r}"


def show_table(program, stacks):
    for it in cases():
        print(f"{it['name']}: {', '.join(ended(program, stack, it) for stack in stacks)}", flush=True)


def main(arguments):
    if arguments[:1] == ["--table"] and len(arguments) > 1:
        return show_table(arguments[1], [int(it) for it in arguments[2:]] or [8192, 4096])
    text = "[\n" + ",\n".join("  " + json.dumps(it) for it in cases()) + "\n]\n"
    return write_or_check(PATH, text, arguments, __doc__, f"{PATH} is not what tools/nesting_cases.py writes")


if __name__ == "__main__":
    main(sys.argv[1:])
