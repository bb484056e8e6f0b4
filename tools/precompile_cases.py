#!/usr/bin/env python3
"""Writes the cases of the program `weslc_cases` for the command `precompile`: modules with conditions on feature flags, and what is left of them.

usage: tools/precompile_cases.py        It writes crates/weslc_cases/data/precompiled.json.

The plain program shares nothing with the crates. A module is three lists of items; an item is its attributes and its parts, each a text
or a list of items again. Which items are one chain is searched for each item anew, and conditions are rewritten until no rule applies.
What is left of a module without errors is also compared with the module itself under every choice of its flags, and is not changed by
the same features again. Of the cases by hand the answer stands below."""
import itertools
import json
import random
from dataclasses import dataclass, replace

from cases import path

# ---- Modules. A condition is a truth value, a flag's name, ("!", x), ("()", x), ("&&", x, y), ("||", x, y), or ("?", text, error), which
# is none.


@dataclass(frozen=True)
class Mark:
    """The attribute `@if`, `@elif` or `@else`; the last has no condition."""

    word: str
    condition: object = None


@dataclass(frozen=True)
class Items:
    """Items in a row with commas between them, or in braces, a line for each."""

    items: tuple
    braced: bool = True


@dataclass(frozen=True)
class Item:
    """Attributes, each a text or a mark, and parts, each a text or items."""

    attributes: tuple
    parts: tuple


EMPTY = Item((), (";",))


def each_list(change, item):
    """An item with each of its lists changed, from within outwards."""
    parts = [replace(part, items=change([each_list(change, it) for it in part.items])) if isinstance(part, Items) else part for part in item.parts]
    return replace(item, parts=tuple(parts))


def in_module(change, module):
    """A module with each of its lists changed, from within outwards."""
    return [change([each_list(change, item) for item in items]) for items in module]


def without_empty(module):
    return in_module(lambda items: tuple(item for item in items if item != EMPTY), module)


# ---- Printing.


def condition_text(x):
    match x:
        case bool():
            return "true" if x else "false"
        case str():
            return x
        case ("!", y):
            return "!" + condition_text(y)
        case ("()", y):
            return "(" + condition_text(y) + ")"
        case ("?", text, _):
            return text
        case (sign, y, z):
            return f"{condition_text(y)} {sign} {condition_text(z)}"


def attribute_text(a):
    if isinstance(a, str):
        return a
    return "@" + a.word + ("" if a.condition is None else f"({condition_text(a.condition)})")


def item_text(item, level):
    parts = [part if isinstance(part, str) else items_text(part, level) for part in item.parts]
    return "".join([attribute_text(a) + " " for a in item.attributes] + parts)


def items_text(part, level):
    if not part.braced:
        return ", ".join(item_text(item, level) for item in part.items)
    if not part.items:
        return "{}"
    return "{\n" + lines_text(part.items, level + 1) + "    " * level + "}"


def lines_text(items, level):
    return "".join("    " * level + item_text(item, level) + "\n" for item in items)


def module_text(module):
    return "".join(lines_text(items, 0) for items in module)


# ---- Chains.


def marks(item):
    return [a for a in item.attributes if isinstance(a, Mark)]


def goes_on(before, item):
    """Whether an item goes on with the chain of the item before it. Of two conditions on one item the second is an error, and both are in
    the chain."""
    is_open = len(marks(before)) == 1 and marks(before)[0].word != "else"
    return is_open and marks(item) != [] and (len(marks(item)) > 1 or marks(item)[0].word != "if")


def before_in_chain(items, at):
    """The items of an item's chain before it."""
    first = at
    while first > 0 and goes_on(items[first - 1], items[first]):
        first -= 1
    return items[first:at]


def chains(items):
    begins = [at for at in range(len(items)) if not before_in_chain(items, at)]
    return [items[begin:end] for begin, end in zip(begins, begins[1:] + [len(items)])]


def bare(item):
    return replace(item, attributes=tuple(a for a in item.attributes if not isinstance(a, Mark)))


def marked(item, mark):
    return replace(item, attributes=tuple(mark if isinstance(a, Mark) else a for a in item.attributes))


# ---- What a module means under a choice of its flags.


def holds(choice, x):
    match x:
        case bool():
            return x
        case str():
            return choice[x]
        case ("!", y):
            return not holds(choice, y)
        case ("()", y):
            return holds(choice, y)
        case ("&&", y, z):
            return holds(choice, y) and holds(choice, z)
        case ("||", y, z):
            return holds(choice, y) or holds(choice, z)


def is_true(choice, item):
    return all(mark.condition is None or holds(choice, mark.condition) for mark in marks(item))


def chosen(choice, items):
    places = [at for at in range(len(items)) if is_true(choice, items[at])]
    return tuple(bare(items[at]) for at in places if not any(is_true(choice, it) for it in before_in_chain(items, at)))


# ---- What features leave. `setting` says of a flag what it is set to.


def absorbed(x):
    """A condition by one rule, applied to the whole of it."""
    match x:
        case ("!", bool(y)):
            return not y
        case ("()", bool(y)):
            return y
        case ("&&", True, y) | ("&&", y, True) | ("||", False, y) | ("||", y, False):
            return y
        case ("&&", False, _) | ("&&", _, False):
            return False
        case ("||", True, _) | ("||", _, True):
            return True
    return x


def rewritten(setting, x):
    """A condition with one rule applied wherever one applies."""
    if isinstance(x, str):
        return {"enable": True, "disable": False}.get(setting(x), x)
    if isinstance(x, bool) or x[0] == "?":
        return x
    return absorbed((x[0], *(rewritten(setting, y) for y in x[1:])))


def simplified(setting, x):
    while rewritten(setting, x) != x:
        x = rewritten(setting, x)
    return x


def standing(setting, item):
    """True, false, or the condition that is still open."""
    conditions = [mark.condition for mark in marks(item) if mark.condition is not None]
    return simplified(setting, conditions[0]) if len(marks(item)) == 1 and conditions else True


def what_is_left(setting, items):
    found = []
    for at, item in enumerate(items):
        earlier = [standing(setting, it) for it in before_in_chain(items, at)]
        is_behind_open = any(not isinstance(it, bool) for it in earlier)
        here = standing(setting, item)
        if any(it is True for it in earlier) or here is False:
            continue
        if here is True:
            found.append(marked(item, Mark("else")) if is_behind_open else bare(item))
        else:
            found.append(marked(item, Mark("elif" if is_behind_open else "if", here)))
    return tuple(found)


# ---- Errors, in their order: of each chain those of its conditions, then those within the items that are left of it.


def condition_errors(setting, x):
    match x:
        case str() if setting(x) == "error":
            yield "UnexpectedFeatureFlag " + x
        case ("?", _, error):
            yield error
        case (_, *parts):
            for part in parts:
                yield from condition_errors(setting, part)


def item_errors(setting, item, is_first):
    if len(marks(item)) > 1:
        yield "DuplicateIf"
    elif marks(item) and is_first and marks(item)[0].word != "if":
        yield "NoPrecedingIf"
    elif marks(item) and marks(item)[0].condition is not None:
        yield from condition_errors(setting, marks(item)[0].condition)


def errors(setting, items):
    for chain in chains(items):
        for at, item in enumerate(chain):
            yield from item_errors(setting, item, at == 0)
        for at, item in enumerate(chain):
            if standing(setting, item) is not False and not any(standing(setting, it) is True for it in chain[:at]):
                for part in item.parts:
                    if isinstance(part, Items):
                        yield from errors(setting, part.items)


# ---- The answer.


def admitted(setting, flags):
    """The choices that features admit."""
    values = [{"enable": [True], "disable": [False]}.get(setting(flag), [False, True]) for flag in flags]
    return [dict(zip(flags, choice)) for choice in itertools.product(*values)]


def check(setting, flags, module, left):
    """What is left means the same under every choice, has no error, and is left as it is by the same features."""
    for choice in admitted(setting, flags):
        under = [in_module(lambda items: chosen(choice, items), it) for it in (module, left)]
        assert under[0] == under[1], (choice, module_text(module), module_text(left))
    assert not any(True for items in left for _ in errors(setting, items))
    assert in_module(lambda items: what_is_left(setting, items), left) == left


def emptied(module):
    """The names of the structures without members."""
    return [item.parts[0].split()[1] for item in module[2] if item.parts[0].startswith("struct ") and not item.parts[1].items]


def all_errors(setting, module):
    return [error for items in without_empty(module) for error in errors(setting, items)]


def answer(setting, flags, module):
    module = without_empty(module)
    for error in all_errors(setting, module):
        return "Condition." + error
    left = in_module(lambda items: what_is_left(setting, items), module)
    check(setting, flags, module, left)
    return "Unprintable " + emptied(left)[0] if emptied(left) else module_text(left)


# ---- Cases by hand: what flags are set to where none is listed, what flags are set to, a text, and the answer.

FLAGS = "disable", "f=enable d=disable k=keep e=error"
OTHERS = "disable", "f=disable k=keep"
NO_FLAGS = (
    ["1", "1u", "0.5", "!1", "(1)", "k & k", "k | k", "k ^ k", "k == k", "k < k", "-k", "~k", "k()", "k<k>(k)", "k.a", "k[0]"]
    + ["k && 1", "f || 1", "1 && e", "!(k + k)"]
)
LONG = "a_flag_with_a_name_of_more_than_sixteen_bytes"
BY_HAND = {
    "What is left of chains": [
        (*OTHERS, "@if(f) fn a() {} @elif(k) fn b() {} @else fn c() {}", "@if(k) fn b() {}\n@else fn c() {}\n"),
        (*OTHERS, "@if(k) fn a() {} @elif(true) fn b() {} @else fn c() {}", "@if(k) fn a() {}\n@else fn b() {}\n"),
        (*FLAGS, "@if(d) fn a() {}", ""),
        (*FLAGS, "@if(f) fn a() {} @elif(k) fn b() {} @else fn c() {}", "fn a() {}\n"),
        (*FLAGS, "@if(d) fn a() {} @else fn b() {}", "fn b() {}\n"),
        (*FLAGS, "@if(k) fn a() {} @if(f) fn b() {} @else fn c() {}", "@if(k) fn a() {}\nfn b() {}\n"),
        (*FLAGS, "@if(k) fn a() {} ; @elif(d) fn b() {} ; ; @else fn c() {} ;", "@if(k) fn a() {}\n@else fn c() {}\n"),
        (*FLAGS, "fn a() { @if(d) {} ; ; @else { b(); } ; }", "fn a() {\n    {\n        b();\n    }\n}\n"),
        (*FLAGS, "@if(k) import a; @elif(d) import b; @else import c;", "@if(k) import a;\n@else import c;\n"),
        (*FLAGS, "@if(k) import a; enable b; @if(k) var c: u32;", "@if(k) import a;\nenable b;\n@if(k) var c: u32;\n"),
        (
            *FLAGS,
            "struct S { @if(d) a: u32, @elif(k) b: u32, @else c: u32, d: u32 }",
            "struct S {\n    @if(k) b: u32,\n    @else c: u32,\n    d: u32,\n}\n",
        ),
        (*FLAGS, "fn a(@if(d) p: u32, q: u32, @if(k) r: u32, @else s: u32,) {}", "fn a(q: u32, @if(k) r: u32, @else s: u32) {}\n"),
        (*FLAGS, "fn a(@if(d) p: u32) {}", "fn a() {}\n"),
        (
            *FLAGS,
            "fn a() { @if(f) { @if(d) {} @elif(k) while b {} } }",
            "fn a() {\n    {\n        @if(k) while b {}\n    }\n}\n",
        ),
        ("keep", "", "", ""),
        ("keep", "", " ; /* a */", ""),
    ],
    "Attributes beside the condition, and conditions that are no item's": [
        (*FLAGS, "@x @if(d || k) @y(1) fn a() {}", "@x @if(k) @y(1) fn a() {}\n"),
        (*FLAGS, "@x @if(f) @y() fn a() {}", "@x @y() fn a() {}\n"),
        (*FLAGS, "@if(k) fn a() {} @x @elif(f) @y fn b() {}", "@if(k) fn a() {}\n@x @else @y fn b() {}\n"),
        (*FLAGS, "@publish @if(f) import package::a::b;", "@publish import package::a::b;\n"),
        (*FLAGS, "fn a() -> @if(1) u32 @else @elif(e) { }", "fn a() -> @if(1) u32 @else @elif(e) {}\n"),
        (*FLAGS, "fn a() { if b @if(1) {} else @else {} }", "fn a() {\n    if b @if(1) {} else @else {}\n}\n"),
        (
            *FLAGS,
            "fn a() { loop @if(d) { continuing @else {} } }",
            "fn a() {\n    loop @if(d) {\n        continuing @else {}\n    }\n}\n",
        ),
        (
            *FLAGS,
            "fn a() { @if(k) switch b @if(e) { default: @elif(d) { ; } } }",
            "fn a() {\n    @if(k) switch b @if(e) {\n        default: @elif(d) {}\n    }\n}\n",
        ),
        (*FLAGS, "/* a */ @if ( f ) @ x fn a ( ) { return 0x1F ; } // b", "@x fn a() {\n    return 31;\n}\n"),
    ],
    "What is left of conditions": [
        (*FLAGS, "@if(f && k) fn a() {}", "@if(k) fn a() {}\n"),
        (*FLAGS, "@if((k)) fn a() {}", "@if((k)) fn a() {}\n"),
        (*FLAGS, "@if(!(d)) fn a() {}", "fn a() {}\n"),
        (*FLAGS, "@if(!(k)) fn a() {}", "@if(!(k)) fn a() {}\n"),
        (*FLAGS, "@if((k) && true) fn a() {}", "@if((k)) fn a() {}\n"),
        (*FLAGS, "@if(!!k && (k && f)) fn a() {}", "@if(!!k && (k)) fn a() {}\n"),
        (*FLAGS, "@if((d || k) && (f && !d)) fn a() {}", "@if((k)) fn a() {}\n"),
        (*FLAGS, "@if(k || k || f || k) fn a() {}", "fn a() {}\n"),
        (*FLAGS, "@if(k && !k) fn a() {}", "@if(k && !k) fn a() {}\n"),
    ],
    "What flags are set to": [
        ("enable", "", "@if(a) fn a() {} @else fn b() {}", "fn a() {}\n"),
        ("disable", "", "@if(a) fn a() {} @else fn b() {}", "fn b() {}\n"),
        ("keep", "", "@if(a) fn a() {} @else fn b() {}", "@if(a) fn a() {}\n@else fn b() {}\n"),
        ("error", "", "@if(a) fn a() {} @else fn b() {}", "Condition.UnexpectedFeatureFlag a"),
        ("error", "a=disable", "@if(a) fn a() {} @else fn b() {}", "fn b() {}\n"),
        ("keep", "a=enable", "@if(A) fn a() {}", "@if(A) fn a() {}\n"),
        ("keep", "é=enable aé=disable", "@if(é) fn a() {} @if(aé || éa) fn b() {}", "fn a() {}\n@if(éa) fn b() {}\n"),
        ("keep", "", f"@if({LONG}) fn a() {{}}", f"@if({LONG}) fn a() {{}}\n"),
        ("enable", f"{LONG}=error", f"@if({LONG}) fn a() {{}}", f"Condition.UnexpectedFeatureFlag {LONG}"),
    ],
    "Errors of a condition": [
        (*FLAGS, "@if(true || e) fn a() {}", "Condition.UnexpectedFeatureFlag e"),
        (*FLAGS, "@if(d && e) fn a() {}", "Condition.UnexpectedFeatureFlag e"),
        (*FLAGS, "@if(!(e)) fn a() {}", "Condition.UnexpectedFeatureFlag e"),
        (*FLAGS, "@if(a::b) fn a() {}", "Condition.InvalidFeatureFlag a::b"),
        (*FLAGS, "@if(super::super::e) fn a() {}", "Condition.InvalidFeatureFlag super::super::e"),
        (*FLAGS, "@if(package::a<b>) fn a() {}", "Condition.InvalidFeatureFlag package::a<b>"),
        (*FLAGS, "@if(a<b,1+c>) fn a() {}", "Condition.InvalidFeatureFlag a<b, 1 + c>"),
        *((*FLAGS, f"@if({x}) fn a() {{}}", "Condition.InvalidExpression") for x in NO_FLAGS),
        (*FLAGS, "@if(e && 1) fn a() {}", "Condition.UnexpectedFeatureFlag e"),
        (*FLAGS, "@if((k || a::b) && 1) fn a() {}", "Condition.InvalidFeatureFlag a::b"),
    ],
    "Errors of chains": [
        (*OTHERS, "@else fn a() {}", "Condition.NoPrecedingIf"),
        (*FLAGS, "@elif(1) fn a() {}", "Condition.NoPrecedingIf"),
        (*FLAGS, "@if(k) fn a() {} fn b() {} @else fn c() {}", "Condition.NoPrecedingIf"),
        (*FLAGS, "@if(k) fn a() {} @else fn b() {} @else fn c() {}", "Condition.NoPrecedingIf"),
        (*FLAGS, "@if(k) fn a() {} @else fn b() {} @elif(k) fn c() {}", "Condition.NoPrecedingIf"),
        (*FLAGS, "@if(k) import a; @else fn b() {}", "Condition.NoPrecedingIf"),
        (*FLAGS, "@if(f) @else fn a() {}", "Condition.DuplicateIf"),
        (*FLAGS, "@if(1) @x @if(1) fn a() {}", "Condition.DuplicateIf"),
        (*FLAGS, "@if(k) @if(k) fn a() {} @else fn b() {}", "Condition.DuplicateIf"),
        (*FLAGS, "fn a() { @else {} } @if(1) fn b() {}", "Condition.NoPrecedingIf"),
        (*FLAGS, "@if(k) fn a() { @if(1) { } } @if(f) @else fn b() {}", "Condition.DuplicateIf"),
        (*FLAGS, "@if(k) fn a() { @if(1) { } } @if(f) @if(f) fn b() {}", "Condition.DuplicateIf"),
        (*FLAGS, "@if(k) fn a() { @if(1) { } } @if(k) fn b() {} @else @else fn c() {}", "Condition.InvalidExpression"),
        (*FLAGS, "@if(f) fn a() {} @elif(1) fn b() {}", "Condition.InvalidExpression"),
        (*FLAGS, "@if(k) fn a() { @if(1) {} } @elif(e) fn b() {}", "Condition.UnexpectedFeatureFlag e"),
        (*FLAGS, "fn a(@else p: u32) { @if(1) {} }", "Condition.NoPrecedingIf"),
        (*FLAGS, "fn a() { @if(1) {} } fn b(@else p: u32) {}", "Condition.InvalidExpression"),
        (*FLAGS, "@if(1) import a; @else var b: u32;", "Condition.InvalidExpression"),
        (*FLAGS, "struct S { @else a: u32 }", "Condition.NoPrecedingIf"),
    ],
    "What is inside an item that goes has no errors": [
        (*FLAGS, "@if(d) fn a() { @else {} }", ""),
        (*FLAGS, "@if(f) fn a() {} @else fn b() { @else {} }", "fn a() {}\n"),
        (*FLAGS, "@if(f) fn a() { @if(1) {} } @else fn b() { @else {} }", "Condition.InvalidExpression"),
        (*FLAGS, "fn a() { @if(d) { @if(1) {} } @elif(k) { @else {} } }", "Condition.NoPrecedingIf"),
    ],
    "Structures without members": [
        (*FLAGS, "struct S { @if(d) a: u32 }", "Unprintable S"),
        (*FLAGS, "struct R { a: u32 } struct S { @if(d) a: u32, @elif(d) b: u32 } struct T { @if(d) a: u32 }", "Unprintable S"),
        (*FLAGS, "fn a() {} struct S { @if(k) a: u32 }", "fn a() {}\nstruct S {\n    @if(k) a: u32,\n}\n"),
        (*FLAGS, "struct S { @if(d) a: u32 } @if(1) fn a() {}", "Condition.InvalidExpression"),
        (*FLAGS, f"struct {LONG} {{ @if(d) a: u32 }}", f"Unprintable {LONG}"),
    ],
    "Before constants, other declarations, directives and statements of one line": [
        (*OTHERS, "@if(f) const a = 1; @elif(k) const a = 2; @else const a = 3;", "@if(k) const a = 2;\n@else const a = 3;\n"),
        (*OTHERS, "@if(f) enable x; @else enable y;", "enable y;\n"),
        (*OTHERS, "fn g() { @if(f) return; @else discard; }", "fn g() {\n    discard;\n}\n"),
        (*OTHERS, "@if(k) diagnostic(off, a.b); @elif(f) requires b; @a @if(f) requires c; @else @b() enable d;", "@if(k) diagnostic(off, a.b);\n@b() enable d;\n"),
        (*OTHERS, "@if(f) alias a = b; @else struct a { b: c } @if(k) const_assert d; @elif(true) @e const_assert f;", "struct a {\n    b: c,\n}\n@if(k) const_assert d;\n@else @e const_assert f;\n"),
        (*OTHERS, "fn g() { @if(f) let a = 1; ; @elif(k) var a = 2; @else const a = 3; @x(a) a = 4; @y a++; @z f(a); @if(f) const_assert false; @u *p -= 1; @w _ = a; }",
         "fn g() {\n    @if(k) var a = 2;\n    @else const a = 3;\n    @x(a) a = 4;\n    @y a++;\n    @z f(a);\n    @u *p -= 1;\n    @w _ = a;\n}\n"),
        (*OTHERS, "fn g() { loop { @if(f) break; @else continue; continuing { @if(k) a--; break if b; } } }",
         "fn g() {\n    loop {\n        continue;\n        continuing {\n            @if(k) a--;\n            break if b;\n        }\n    }\n}\n"),
        (*OTHERS, "fn g() { @if(k) (a) = 1u; @elif(f) b = 2; @x() @elif(k) (*c).d++; }", "fn g() {\n    @if(k) (a) = 1u;\n    @x() @elif(k) (*c).d++;\n}\n"),
        (*OTHERS, "fn g() { @if(k) x = 1u; @elif(true) (x) = 2u; }", "Unprintable g"),
        (*OTHERS, "fn g() { @if(k) x = 1u; @elif(true) @y(1) (x) = 2u; }", "fn g() {\n    @if(k) x = 1u;\n    @else @y(1) (x) = 2u;\n}\n"),
        (*OTHERS, "fn g() { @else return; }", "Condition.NoPrecedingIf"),
        (*OTHERS, "@if(f) @if(k) enable a;", "Condition.DuplicateIf"),
    ],
    "Syntax errors": [
        (*FLAGS, "fn a() { @b (c) = 1u; }", "Syntax.UnexpectedToken 16..17"),
        (*FLAGS, "fn a() { for (@b c = 1; ; ) {} }", "Syntax.UnexpectedToken 14..15"),
        (*FLAGS, "fn a() { switch b { @c default {} } }", "Syntax.UnexpectedToken 20..21"),
        (*FLAGS, "fn a() { if b {} @c else {} }", "Syntax.UnexpectedToken 20..24"),
        (*FLAGS, "@if(1) fn a() {} fn", "Syntax.UnexpectedEof 19..19"),
        (*FLAGS, "struct S { @if(d) a: u32 } fn self() {}", "Syntax.ReservedWord 30..34"),
        (*FLAGS, "@if() fn a() {}", "Syntax.Attribute 4..5"),
        (*FLAGS, "@if fn a() {}", "Syntax.Attribute 1..3"),
        (*FLAGS, "@else() fn a() {}", "Syntax.Attribute 6..7"),
        (*FLAGS, "@elif(a, b) fn a() {}", "Syntax.Attribute 10..11"),
        (*FLAGS, "fn a() { @else (b) = 1u; }", "Syntax.Attribute 17..18"),
        (*FLAGS, "fn a() { @if(k) ; }", "Syntax.UnexpectedToken 16..17"),
        (*FLAGS, "@if(k) ;", "Syntax.UnexpectedToken 7..8"),
    ],
}

# ---- Every chain of one to three conditions, every three neighbours, and every pair of operands.

OPERANDS = [True, False, "f", "d", "k", ("()", "k"), ("!", "k")]


def function(name, *attributes):
    return Item(attributes, (f"fn {name}(", Items((), False), ") ", Items(())))


def in_list(kind, attributes):
    """A module with a list of items that have these attributes."""
    named = list(zip("abcd", attributes))
    match kind:
        case 0:
            return [(), (), tuple(function(name, *found) for name, found in named)]
        case 1:
            members = tuple(Item(found, (name + ": u32,",)) for name, found in named) + (Item((), ("e: u32,",)),)
            return [(), (), (Item((), ("struct S ", Items(members))),)]
        case 2:
            parameters = tuple(Item(found, (name + ": u32",)) for name, found in named)
            return [(), (), (Item((), ("fn f(", Items(parameters, False), ") ", Items(()))),)]
        case 3:
            return [tuple(Item(found, (f"import {name};",)) for name, found in named), (), ()]
    blocks = tuple(Item(found, ("if " + name + " ", Items(()))) for name, found in named)
    return [(), (), (Item((), ("fn f(", Items((), False), ") ", Items(blocks))),)]


def every_chain():
    for many in (1, 2, 3):
        for conditions in itertools.product("fdk", repeat=many):
            found = [(Mark("elif" if at else "if", x),) for at, x in enumerate(conditions)]
            yield from (found, found + [(Mark("else"),)])


def every_three():
    """Three neighbours, the first of which is no error: of no condition, one or two each."""
    first = [(), (Mark("if", "k"),)]
    others = first + [(Mark("elif", "k"),), (Mark("else"),), (Mark("elif", "k"), Mark("else"))]
    return map(list, itertools.product(first, others, others))


def every_pair():
    for sign, x in itertools.product(("&&", "||"), OPERANDS):
        yield [(), (), tuple(function(f"a{i}", Mark("if", (sign, x, y))) for i, y in enumerate(OPERANDS))]
    for sign, other in itertools.product(("!", "()"), ("!", "&&", "||")):
        inner = [(other, x) if other == "!" else ("()", (other, "k", x)) for x in OPERANDS]
        yield [(), (), tuple(function(f"a{i}", Mark("if", (sign, x))) for i, x in enumerate(inner))]

# ---- Modules from seeds.

NO_CONDITIONS = [
    ("?", "1", "InvalidExpression"),
    ("?", "-a", "InvalidExpression"),
    ("?", "(a & b)", "InvalidExpression"),
    ("?", "(b == c)", "InvalidExpression"),
    ("?", "a(b)", "InvalidExpression"),
    ("?", "a.b", "InvalidExpression"),
    ("?", "a::b", "InvalidFeatureFlag a::b"),
    ("?", "super::c", "InvalidFeatureFlag super::c"),
    ("?", "a<b, c>", "InvalidFeatureFlag a<b, c>"),
]
IMPORTS = ["import package::a::{b, c as d};", "import super::a;", "import a;", "import b::{c::{d, e}, f as g};"]
DIRECTIVES = ["enable f16, b;", "diagnostic(off, a.b);", "requires c;"]
VARIABLES = ["var<private> a: u32 = 1u;", "override b: f32;", "var<storage, read> c: array<u32>;", "override d = 1 + 2;"]
CONSTANTS = ["const a = b + 1;", "alias b = vec2<u32>;", "const_assert c < d;", "const e: i32 = -1;"]
MEMBERS = ["a: u32", "b: vec3<f32>", "c: array<u32, 4>", "d: e"]
SIMPLE = ["a = b + 1u;", "return;", "let b = c(1);", "break;", "discard;", "f(a < b);", "i++;", "const_assert a;", "var d: u32;", "_ = x;"]
OWN_ATTRIBUTES = ["@x", "@y(a, 1)", "@z()", "@size(16)", "@location(0)", "@builtin(position)", "@must_use", "@publish", "@id(1)"]
BODY_ATTRIBUTES = ["@x ", "@if(1) ", "@else ", "@diagnostic(off, a) "]


class Making:
    """Modules made by chance, with flags, and a share of items that have errors."""

    def __init__(self, seed):
        self.random = random.Random(seed)
        self.flags = "abcde"[: self.random.randint(1, 5)]
        self.wrong = self.random.choice([0, 0, 0.15, 0.4])

    def happens(self, share):
        return self.random.random() < share

    # -- conditions

    def operand(self, depth):
        if self.happens(self.wrong / 6):
            return self.random.choice(NO_CONDITIONS)
        if depth == 0 or self.happens(0.4):
            return self.random.choice([True, False]) if self.happens(0.12) else self.random.choice(self.flags)
        return ("!", self.operand(depth - 1)) if self.happens(0.5) else ("()", self.condition(depth - 1))

    def condition(self, depth=2):
        x = self.operand(depth)
        if self.happens(0.5):
            sign = self.random.choice(["&&", "||"])
            for _ in range(self.random.choice([1, 1, 2])):
                x = (sign, x, self.operand(depth))
        return x

    # -- attributes

    def mark(self, word):
        if self.happens(self.wrong / 2):
            word = self.random.choice(["if", "elif", "else"])
        return Mark(word, None if word == "else" else self.condition())

    def attributes(self, word):
        found = [self.random.choice(OWN_ATTRIBUTES) for _ in range(self.random.choice([0, 0, 0, 1, 1, 2]))]
        if word:
            for _ in range(2 if self.happens(self.wrong / 2) else 1):
                found.insert(self.random.randint(0, len(found)), self.mark(word))
        return tuple(found)

    def body_attribute(self):
        return self.random.choice(BODY_ATTRIBUTES) if self.happens(0.06) else ""

    # -- lists: `able` makes an item from its attributes, `plain` one that takes none

    def words(self):
        """The conditions of some neighbours; none is an item without one."""
        if self.happens(0.35):
            return [None] * self.random.choice([1, 2])
        return ["if"] + ["elif"] * self.random.choice([0, 0, 1, 1, 2]) + ["else"] * self.random.choice([0, 1])

    def row(self, able, plain, has_empty, least, most):
        found = []
        while len(found) < least or (len(found) < most and self.happens(0.6)):
            for word in self.words():
                if has_empty and self.happens(0.08):
                    found.append(EMPTY)
                is_plain = word is None and plain is not None and self.happens(0.7)
                found.append(plain() if is_plain else able(self.attributes(word)))
        return tuple(found)

    def one_of(self, texts, end=""):
        return lambda attributes=(): Item(attributes, (self.random.choice(texts) + end,))

    # -- statements

    def body(self, depth, behind=()):
        most = self.random.choice([0, 1, 2, 3]) if depth else 0
        statements = self.row(lambda attributes: self.statement(attributes, depth), self.one_of(SIMPLE), True, 0, most)
        return Items(statements + behind)

    def block(self, depth, behind=()):
        """What stands before a block, and the block."""
        return self.body_attribute(), self.body(depth, behind)

    def statement(self, attributes, depth):
        make = self.random.choice([self.compound, self.compound, self.choice, self.switch, self.loop, self.repeated])
        return Item(attributes, make(depth - 1))

    def compound(self, depth):
        return (self.body(depth),)

    def choice(self, depth):
        parts = ("if a ", *self.block(depth))
        if self.happens(0.4):
            parts += (" else if b < 1 ", *self.block(depth))
        if self.happens(0.4):
            parts += (" else ", *self.block(depth))
        return parts

    def switch(self, depth):
        heads = ["case 1, 2: ", "default: ", "case a, default: "]
        clauses = [Item((), (self.random.choice(heads), *self.block(depth))) for _ in range(self.random.choice([1, 2]))]
        return "switch a ", self.body_attribute(), Items(tuple(clauses))

    def loop(self, depth):
        last = (Item((), ("break if a;",)),) if self.happens(0.5) else ()
        behind = (Item((), ("continuing ", *self.block(depth, last))),) if self.happens(0.5) else ()
        return ("loop ", *self.block(depth, behind))

    def repeated(self, depth):
        return (self.random.choice(["for (var i = 0; i < 4; i++) ", "for (; ; ) ", "while a "]), *self.block(depth))

    # -- declarations

    def structure(self):
        member = self.one_of(MEMBERS, ",")
        members = (member(self.attributes("if")),) if self.happens(0.4) else self.row(member, None, False, 1, 3)
        return Item((), (f"struct {self.random.choice('STU')} ", Items(members)))

    def function(self, attributes):
        parameters = Items(self.row(self.one_of(MEMBERS), None, False, 0, self.random.choice([0, 1, 3])), False)
        result = self.random.choice(["", "", "-> u32 ", "-> @location(0) u32 ", "-> @if(1) u32 "])
        return Item(attributes, (f"fn {self.random.choice('abcdf')}(", parameters, ") " + result, *self.block(2)))

    def declaration(self, attributes):
        return self.function(attributes) if self.happens(0.7) else self.one_of(VARIABLES)(attributes)

    def plain_declaration(self):
        return self.structure() if self.happens(0.6) else self.one_of(CONSTANTS)()

    def module(self):
        if self.happens(0.1):
            return [(), (), tuple(self.structure() for _ in range(self.random.choice([2, 3])))]
        imports = self.row(self.one_of(IMPORTS), None, False, 1, 2) if self.happens(0.25) else ()
        directives = tuple(self.one_of(DIRECTIVES)() for _ in range(self.random.choice([0, 0, 0, 1])))
        return [imports, directives, self.row(self.declaration, self.plain_declaration, True, 1, 3)]

    # -- what flags are set to

    def setting(self):
        words = ["enable", "disable", "keep", "keep"] + ["error"] * self.random.choice([0, 1, 3] if self.wrong else [0])
        default = self.random.choice(words)
        return default, " ".join(f"{flag}={self.random.choice(words)}" for flag in self.flags if self.happens(0.8))


LONGEST = 900
WITHOUT_ERROR, WITH_ERROR, EMPTIED = 200, 120, 20


def from_seeds():
    """The first modules with a condition, by what is answered, that aren't too long. Of errors they have none or several."""
    counts = {"Condition": WITH_ERROR, "Unprintable": EMPTIED, "": WITHOUT_ERROR}
    for seed in itertools.count():
        making = Making(seed)
        module, (default, flags) = making.module(), making.setting()
        if len(set(all_errors(reading(default, flags), module))) == 1:
            continue
        found = case(default, flags, making.flags, module, making.happens(0.5))
        line, text = found.get("line", ""), found["bundle"]["modules"][0]["text"]
        kind = next(kind for kind in counts if kind in line)
        if counts[kind] and any(word in text for word in ("@if", "@elif", "@else")) and len(text) <= LONGEST:
            counts[kind] -= 1
            yield found
        if not any(counts.values()):
            return


# ---- The file.


def reading(default, flags):
    """What a flag is set to."""
    listed = dict(flag.split("=") for flag in flags.split())
    return lambda flag: listed.get(flag, default)


def field(text):
    """A name as a field of an error line: one word."""
    return text.replace(" ", "\\u{20}") or "-"


def printed(found):
    """What the program prints for an answer: a text, or a line about an error."""
    kind, _, about = found.partition(" ")
    if kind.startswith("Syntax."):
        return {"line": f"error: {kind} - - {about} -\n", "status": 1}
    if kind.startswith("Condition.") or kind == "Unprintable":
        return {"line": f"error: {kind} - - - {field(about)}\n", "status": 1}
    return {"text": found}


def bundle_case(default, flags, text, found):
    bundle = {"command": "precompile", "root": "package", "modules": [{"path": "package", "text": text}]}
    bundle["features"] = dict(flag.split("=") for flag in flags.split())
    return {"name": f"{text} [{default} {flags}]", "bundle": {**bundle, "default_feature": default}, **printed(found)}


def case(default, flags, names, module, on_one_line=True):
    text = module_text(module)
    found = answer(reading(default, flags), names, module)
    return bundle_case(default, flags, " ".join(text.split()) if on_one_line else text, found)


def cases():
    for by_hand in BY_HAND.values():
        yield from (bundle_case(*it) for it in by_hand)
    # every chain of one to three conditions, with and without `@else`
    yield from (case(*FLAGS, "fdk", in_list(at % 5, found)) for at, found in enumerate(every_chain()))
    # three neighbours
    yield from (case(*FLAGS, "k", in_list((at + at // 5) % 5, found)) for at, found in enumerate(every_three()))
    # every pair of operands
    yield from (case(*FLAGS, "fdk", module) for module in every_pair())
    yield from from_seeds()


def main():
    written = list(dict.fromkeys(json.dumps(it, ensure_ascii=False) for it in cases()))
    with open(path("weslc_cases", "precompiled.json"), "w", encoding="utf-8") as file:
        file.write("[\n" + ",\n".join(written) + "\n]\n")
    print(f"{len(written)} cases, {sum(len(line.encode()) + 2 for line in written)} bytes, longest {max(map(len, written))}")


if __name__ == "__main__":
    main()
