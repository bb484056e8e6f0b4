"""The shapes of growth.py: bundles in which one thing grows.

A shape is a function of a count that gives `modules` and the other keys of a bundle. Its root keeps what reaches all of it."""

LINKING = ("link", "link eager", "link whole", "compile", "precompile")
ALL = (*LINKING, "run", "eval")
LEVELS = 2_400  # what nests is refused beyond 2,500 levels
SHAPES = []


class Shape:
    def __init__(self, name, make, most, commands):
        self.name, self.make, self.most, self.commands = name, make, most, commands


def shape(name, most=10_000_000, commands=ALL):
    def added(make):
        SHAPES.append(Shape(name, make, most, commands))
        return make

    return added


def one(text, *keep, **more):
    """A bundle of one module."""
    return {"modules": [{"path": "package", "text": text}], "keep": list(keep), **more}


def many(root, others, *keep, **more):
    """A bundle of a root and modules by their names."""
    modules = [{"path": "package", "text": root}] + [{"path": f"package::{name}", "text": text} for name, text in others]
    return {"modules": modules, "keep": list(keep), **more}


def lines(form, count, first=0):
    """A text for each number; `{i}` in it is the number, `{p}` the one before, `{s}` the one after."""
    return "".join(form.replace("{i}", str(i)).replace("{p}", str(i - 1)).replace("{s}", str(i + 1)) for i in range(first, first + count))


def joined(form, count, between=", ", first=0):
    return between.join(form.replace("{i}", str(i)).replace("{p}", str(i - 1)) for i in range(first, first + count))


def body(statements, before=""):
    return f"{before}fn f() -> u32 {{ {statements} }}\n"


BUFFER = "@group(0) @binding(0) var<storage, read_write> b: array<u32, 4>;\n"
BOUND = [{"group": 0, "binding": 0, "space": "storage", "access": "read_write", "value": ["1u", "2u", "3u", "4u"]}]


def kernel(statements, before="", **more):
    """An entry point over a small buffer."""
    return one(f"{BUFFER}{before}@compute @workgroup_size(1) fn main() {{ {statements} }}\n", "main", bindings=BOUND, max_steps=1_000_000_000, **more)


# Modules.


@shape("a chain of modules")
def module_chain(n):
    others = [(f"m{i}", f"import package::m{i + 1}::c{i + 1};\nconst c{i} = c{i + 1};\n" if i < n else f"const c{i} = 1;\n") for i in range(1, n + 1)]
    return many("import package::m1::c1;\nconst a = c1;\n", others, "a")


@shape("a fan of modules")
def module_fan(n):
    root = lines("import package::m{i}::c as c{i};\n", n) + lines("const d{i} = c{i};\n", n)
    return many(root, [(f"m{i}", "const c = 1;\n") for i in range(n)], *(f"d{i}" for i in range(n)))


@shape("a ring of modules")
def module_ring(n):
    others = [(f"m{i}", f"import package::m{i % n + 1}::{{c{i % n + 1}, d{i % n + 1}}};\nconst c{i} = {'d1' if i == n else f'c{i + 1}'};\nconst d{i} = 1;\n") for i in range(1, n + 1)]
    return many("import package::m1::c1;\nconst a = c1;\n", others, "a")


@shape("modules that nothing asks for")
def module_idle(n):
    return many("const a = 1;\n", [(f"m{i}", "const c = 1;\n") for i in range(n)], "a")


@shape("packages")
def packages(n):
    root = lines("const d{i} = p{i}::c;\n", n)
    modules = [{"path": "package", "text": root}] + [{"path": f"p{i}", "text": "const c = 1;\n"} for i in range(n)]
    return {"modules": modules, "keep": [f"d{i}" for i in range(n)]}


@shape("imports of one module, a line each")
def import_lines(n):
    root = lines("import package::m::c{i};\n", n) + lines("const d{i} = c{i};\n", n)
    return many(root, [("m", lines("const c{i} = 1;\n", n))], *(f"d{i}" for i in range(n)))


@shape("a tree of imports with many leaves")
def import_leaves(n):
    root = "import package::m::{" + joined("c{i}", n) + "};\n" + lines("const d{i} = c{i};\n", n)
    return many(root, [("m", lines("const c{i} = 1;\n", n))], *(f"d{i}" for i in range(n)))


@shape("imports that nothing uses")
def import_idle(n):
    return one("import package::gone::{" + joined("c{i}", n) + "};\nconst a = 1;\n", "a")


@shape("a tree of imports, deep", LEVELS // 2)
def import_deep(n):
    root = "import package::" + lines("a{i}::{", n) + "c" + "}" * n + ";\nconst d = c;\n"
    return many(root, [("::".join(f"a{i}" for i in range(n)), "const c = 1;\n")], "d")


@shape("a tree of imports, a leaf at each level", LEVELS // 2)
def import_comb(n):
    return one("import package::" + lines("a{i}::{x{i}, ", n) + "c" + "}" * n + ";\nconst d = 1;\n", "d")


@shape("names by path")
def inline_paths(n):
    root = lines("const d{i} = package::m::c{i};\n", n)
    return many(root, [("m", lines("const c{i} = 1;\n", n))], *(f"d{i}" for i in range(n)))


@shape("one name by path, many times")
def inline_again(n):
    return many("const a = array(" + joined("package::m::c", n) + ");\n", [("m", "const c = 1;\n")], "a")


@shape("a module at a deep path")
def deep_path(n):
    path = "::".join(f"a{i}" for i in range(n))
    return many(f"import package::{path}::c;\nconst d = c;\n", [(path, "const c = 1;\n")], "d")


@shape("many names of a module at a deep path")
def deep_path_names(n):
    path = "::".join("abcdefgh" for i in range(n // 2))
    root = f"import package::{path}::{{" + joined("c{i}", n) + "};\n" + lines("const d{i} = c{i};\n", n)
    return many(root, [(path, lines("const c{i} = 1;\n", n))], *(f"d{i}" for i in range(n)))


@shape("modules in one another, each asks for the next")
def nested_modules(n):
    paths = ["::".join(["a"] * (i + 1)) for i in range(n)]
    others = [(path, f"import package::{path}::a::c as d;\nconst c = d;\n" if i + 1 < n else "const c = 1;\n") for i, path in enumerate(paths)]
    return many("import package::a::c;\nconst r = c;\n", others, "r")


@shape("`super` many times")
def supers(n):
    return one("import " + "super::" * n + "m::c;\nconst a = 1;\n", "a")


# Published imports.


@shape("a chain of re-exports of one name")
def reexports(n):
    others = [(f"m{i}", f"@publish import package::m{i + 1}::x;\n" if i < n else "const x = 1;\n") for i in range(1, n + 1)]
    return many("import package::m1::x;\nconst a = x;\n", others, "a")


@shape("a chain of re-exports, renamed")
def reexports_renamed(n):
    others = [(f"m{i}", f"@publish import package::m{i + 1}::x{i + 1} as x{i};\n" if i < n else f"const x{i} = 1;\n") for i in range(1, n + 1)]
    return many("import package::m1::x1;\nconst a = x1;\n", others, "a")


@shape("a chain of re-exports, asked for at each")
def reexports_asked(n):
    others = [(f"m{i}", f"@publish import package::m{i + 1}::x;\n" if i < n else "const x = 1;\n") for i in range(1, n + 1)]
    return many(lines("const d{i} = package::m{i}::x;\n", n, 1), others, *(f"d{i}" for i in range(1, n + 1)))


@shape("a chain of re-exports, asked for at each by the one before")
def reexports_each(n):
    others = [(f"m{i}", f"@publish import package::m{i + 1}::x;\nconst y{i} = package::m{i + 1}::x;\n" if i < n else "const x = 1;\n") for i in range(1, n + 1)]
    return many(lines("const d{i} = package::m{i}::y{i};\n", n - 1, 1), others, *(f"d{i}" for i in range(1, n)))


@shape("re-exports in one module")
def reexports_inside(n):
    text = lines("@publish import package::m::x{s} as x{i};\n", n) + f"const x{n} = 1;\n"
    return many("import package::m::x0;\nconst a = x0;\n", [("m", text)], "a")


@shape("re-exports in one module, each asked for")
def reexports_inside_asked(n):
    text = lines("@publish import package::m::x{s} as x{i};\n", n) + f"const x{n} = 1;\n"
    return many(lines("const d{i} = package::m::x{i};\n", n), [("m", text)], *(f"d{i}" for i in range(n)))


@shape("a chain of modules that each re-export many names")
def reexports_wide(n):
    names = [f"x{k}" for k in range(n)]
    others = [(f"m{i}", f"@publish import package::m{i + 1}::{{{', '.join(names)}}};\n" if i < n else "".join(f"const {k} = 1;\n" for k in names)) for i in range(1, n + 1)]
    root = f"import package::m1::{{{', '.join(names)}}};\n" + lines("const d{i} = x{i};\n", n)
    return many(root, others, *(f"d{k}" for k in range(n)))


@shape("a module that re-exports one name of each of many")
def publish_fan(n):
    root = "import package::p::{" + joined("x{i}", n) + "};\n" + lines("const d{i} = x{i};\n", n)
    others = [("p", lines("@publish import package::m{i}::x{i};\n", n))] + [(f"m{i}", f"const x{i} = 1;\n") for i in range(n)]
    return many(root, others, *(f"d{i}" for i in range(n)))


@shape("modules that re-export one name of one module")
def publish_star(n):
    others = [("m", "const x = 1;\n")] + [(f"m{i}", "@publish import package::m::x;\n") for i in range(n)]
    return many(lines("const d{i} = package::m{i}::x;\n", n), others, *(f"d{i}" for i in range(n)))


@shape("assertions in a chain of re-exports")
def passed_assertions(n):
    others = [(f"m{i}", f"@publish import package::m{i + 1}::x;\nconst_assert 1 < 2;\n" if i < n else "const x = 1;\n") for i in range(1, n + 1)]
    return many("import package::m1::x;\nconst a = x;\n", others, "a")


@shape("many assertions in a module that many names pass")
def passed_often(n):
    passed = "@publish import package::m::{" + joined("x{i}", n) + "};\n" + "const_assert 1 < 2;\n" * n
    root = "import package::p::{" + joined("x{i}", n) + "};\n" + lines("const d{i} = x{i};\n", n)
    return many(root, [("p", passed), ("m", lines("const x{i} = 1;\n", n))], *(f"d{i}" for i in range(n)))


@shape("a ring of re-exports")
def reexport_ring(n):
    others = [(f"m{i}", f"@publish import package::m{i % n + 1}::x;\n") for i in range(1, n + 1)]
    return many("import package::m1::x;\nconst a = x;\n", others, "a")


@shape("a ring of re-exports, asked for at each")
def reexport_ring_asked(n):
    others = [(f"m{i}", f"@publish import package::m{i % n + 1}::x;\n") for i in range(1, n + 1)]
    return many(lines("const d{i} = package::m{i}::x;\n", n, 1), others, *(f"d{i}" for i in range(1, n + 1)))


# Conditions.


@shape("flags and conditions")
def flags(n):
    text = lines("@if(h{i}) const c{i} = 1;\n@else const c{i} = 2;\n", n)
    return one(text, *(f"c{i}" for i in range(n)), features={f"h{i}": "enable" if i % 2 else "disable" for i in range(n)})


@shape("flags that nothing names")
def flags_idle(n):
    return one("const a = 1;\n", "a", features={f"h{i}": "enable" for i in range(n)})


@shape("a long chain of `@elif`")
def elifs(n):
    return one("@if(f) const a = 1;\n" + lines("@elif(h{i}) const a = 1;\n", n) + "@else const a = 2;\n", "a")


@shape("a long chain of `@elif`, kept", commands=("precompile",))
def elifs_kept(n):
    return one("@if(f) const a = 1;\n" + lines("@elif(h{i}) const a = 1;\n", n) + "@else const a = 2;\n", "a", default_feature="keep")


@shape("a long condition", LEVELS)
def long_condition(n):
    return one("@if(" + joined("h{i}", n, " || ") + ") const a = 1;\n@else const a = 2;\n", "a")


@shape("a long condition, kept", LEVELS, ("precompile",))
def long_condition_kept(n):
    return one("@if(" + joined("h{i}", n, " || ") + ") const a = 1;\n@else const a = 2;\n", "a", default_feature="keep")


@shape("signs in a condition", LEVELS)
def condition_signs(n):
    return one("@if(" + "!" * n + "f) const a = 1;\n@else const a = 2;\n", "a")


@shape("conditions in one another", LEVELS // 3)
def nested_conditions(n):
    return one(body("var x = 1u; " + "@if(!f) { x += 1u; " * n + "}" * n + " return x;"), "f")


@shape("conditions of statements")
def statement_conditions(n):
    return one(body("var x = 1u; " + lines("@if(h{i}) x += 1u; @else x += 2u; ", n) + "return x;"), "f")


@shape("conditions of members")
def member_conditions(n):
    return one("struct S { a: u32, " + lines("@if(h{i}) m{i}: u32, ", n) + "}\nfn f(s: S) -> u32 { return s.a; }\n", "f")


@shape("conditions of imports")
def import_conditions(n):
    root = lines("@if(h{i}) import package::m::c{i};\n@else import package::m::d{i} as c{i};\n", n) + lines("const e{i} = c{i};\n", n)
    return many(root, [("m", lines("const d{i} = 1;\n", n))], *(f"e{i}" for i in range(n)))


@shape("conditions of cases")
def case_conditions(n):
    return kernel("switch b[0] { " + lines("@if(h{i}) case {i}u: { b[1] = 1u; } ", n) + "default: { } }")


@shape("conditions of parameters")
def parameter_conditions(n):
    return one("fn f(a: u32, " + joined("@if(h{i}) p{i}: u32", n) + ") -> u32 { return a; }\n", "f")


@shape("conditions in a condition", LEVELS // 2)
def condition_parentheses(n):
    return one("@if(" + "(h || " * n + "true" + ")" * n + ") const a = 1;\n@else const a = 2;\n", "a")


# Declarations.


@shape("constants")
def consts(n):
    return one(lines("const c{i} = 1;\n", n), *(f"c{i}" for i in range(n)))


@shape("a chain of constants")
def const_chain(n):
    return one("const c0 = 1;\n" + lines("const c{i} = c{p} - 0;\n", n, 1), f"c{n}")


@shape("a chain of constants, the last first")
def const_chain_back(n):
    return one(lines("const c{i} = c{s} - 0;\n", n) + f"const c{n} = 1;\n", "c0")


@shape("constants of one")
def const_fan(n):
    return one("const c = 1;\n" + lines("const c{i} = c - 0;\n", n), *(f"c{i}" for i in range(n)))


@shape("a constant of all")
def const_sink(n):
    return one(lines("const c{i} = 1;\n", n) + "const a = array(" + joined("c{i}", n) + ");\n", "a")


@shape("a layer of constants over another")
def const_layers(n):
    width = max(1, int(n ** 0.5))
    row = joined("c{i}", width)
    return one(lines("const c{i} = 1;\n", width) + lines(f"const d{{i}} = array({row})[{{i}}];\n", width) + f"const a = array({joined('d{i}', width)})[0];\n", "a")


@shape("a chain of arrays of constants")
def array_chain(n):
    return one("const c0 = array(1, 2);\n" + lines("const c{i} = array(c{p}[1], c{p}[0]);\n", n, 1), f"c{n}")


@shape("overrides")
def overrides(n):
    return one(lines("override o{i} = 1u;\n", n), *(f"o{i}" for i in range(n)))


@shape("a chain of overrides")
def override_chain(n):
    return one("override o0 = 1u;\n" + lines("override o{i} = o{p} - 0u;\n", n, 1), f"o{n}")


@shape("overrides that name the last")
def override_last(n):
    return one(lines(f"override o{{i}} = o{n} - 0u;\n", n) + f"override o{n} = 1u;\n", *(f"o{i}" for i in range(n)))


@shape("constants that name the last")
def const_last(n):
    return one(lines(f"const o{{i}} = o{n} - 0u;\n", n) + f"const o{n} = 1u;\n", *(f"o{i}" for i in range(n)))


@shape("variables that name the last override")
def variable_last(n):
    return one(lines(f"var<private> v{{i}} = o{n} - 0u;\n", n) + f"override o{n} = 1u;\n", *(f"v{i}" for i in range(n)))


@shape("overrides that are handed in")
def overrides_given(n):
    given = [{"module": "package", "name": f"o{i}", "value": "2u"} for i in range(n)]
    return one(lines("override o{i} = 1u;\n", n), *(f"o{i}" for i in range(n)), overrides=given)


@shape("variables")
def variables(n):
    return one(lines("var<private> v{i}: u32 = 1u;\n", n), *(f"v{i}" for i in range(n)))


@shape("variables of one address space that all are used")
def variables_used(n):
    return kernel(lines("v{i} = 1u; ", n), lines("var<private> v{i}: u32;\n", n))


@shape("a chain of aliases")
def alias_chain(n):
    return one("alias A0 = u32;\n" + lines("alias A{i} = A{p};\n", n, 1) + f"var<private> v: A{n};\n", "v")


@shape("a chain of aliases, each used")
def alias_chain_used(n):
    return one("alias A0 = u32;\n" + lines("alias A{i} = A{p};\nvar<private> v{i}: A{i};\n", n, 1), *(f"v{i}" for i in range(1, n + 1)))


@shape("a chain of aliases, each used in functions")
def alias_chain_functions(n):
    return one("alias A0 = u32;\n" + lines("alias A{i} = A{p};\nfn h{i}(x: A{i}) -> A{i} { var y: A{i} = x; return A{i}(y); }\n", n, 1), *(f"h{i}" for i in range(1, n + 1)))


@shape("a chain of aliases, each an override's")
def alias_chain_overrides(n):
    return one("alias A0 = u32;\n" + lines("alias A{i} = A{p};\noverride o{i} = A{i}(1);\n", n, 1), *(f"o{i}" for i in range(1, n + 1)))


@shape("aliases of one")
def alias_fan(n):
    return one("alias A = u32;\n" + lines("alias A{i} = A;\nvar<private> v{i}: A{i};\n", n), *(f"v{i}" for i in range(n)))


@shape("aliases of pointers", LEVELS)
def alias_pointers(n):
    return one("alias A0 = u32;\n" + lines("alias A{i} = ptr<function, u32>;\n", n, 1) + lines("fn h{i}(x: A{i}) -> u32 { return *x; }\n", n, 1), *(f"h{i}" for i in range(1, n + 1)))


@shape("structures")
def structures(n):
    return one(lines("struct S{i} { a: u32 }\nvar<private> v{i}: S{i};\n", n), *(f"v{i}" for i in range(n)))


@shape("structures in one another", LEVELS // 2)
def structure_chain(n):
    return one("struct S0 { a: u32 }\n" + lines("struct S{i} { a: S{p} }\n", n, 1) + f"var<private> v: S{n};\n", "v")


@shape("structures in one another, each used", LEVELS // 4)
def structure_chain_used(n):
    return one("struct S0 { a: u32 }\n" + lines("struct S{i} { a: S{p} }\nvar<private> v{i}: S{i};\n", n, 1), *(f"v{i}" for i in range(1, n + 1)))


@shape("structures of one another, refused", commands=("link", "compile", "run"))
def structure_chain_deep(n):
    return one("struct S0 { a: u32 }\n" + lines("struct S{i} { a: S{p} }\n", n, 1) + f"var<private> v: S{n};\n", "v")


@shape("a structure of structures")
def structure_fan(n):
    return one("struct T { a: u32, b: vec2u }\nstruct S { " + lines("m{i}: T, ", n) + "}\nvar<private> v: S;\nfn f() -> u32 { return v.m0.a; }\n", "f")


@shape("members")
def members(n):
    return one("struct S { " + lines("m{i}: u32, ", n) + "}\nvar<private> v: S;\nfn f() -> u32 { return v.m0; }\n", "f")


@shape("members, each read")
def members_read(n):
    return one("struct S { " + lines("m{i}: u32, ", n) + "}\nvar<private> v: S;\nfn f() -> u32 { var x = 0u; " + lines("x += v.m{i}; ", n) + "return x; }\n", "f")


@shape("members of a constant, each read")
def members_const(n):
    text = "struct S { " + lines("m{i}: u32, ", n) + "}\nconst s = S();\n" + lines("const c{i} = s.m{i};\n", n)
    return one(text, *(f"c{i}" for i in range(n)))


@shape("elements of a constant, each read")
def elements_const(n):
    return one("const s = array(" + joined("{i}u", n) + ");\n" + lines("const c{i} = s[{i}];\n", n), *(f"c{i}" for i in range(n)))


@shape("elements of a constant, each read in a function")
def elements_function(n):
    return one("const s = array(" + joined("{i}u", n) + ");\nfn f(i: u32) -> u32 { var x = i; " + lines("x += s[{i}]; ", n) + "return x; }\n", "f")


@shape("a large constant that many constants are")
def const_copies(n):
    width = max(1, int(n ** 0.5))
    return one("const c = array(" + joined("{i}u", n) + ");\n" + lines("const c{i} = c;\n", width), *(f"c{i}" for i in range(width)))


@shape("functions")
def functions(n):
    return one(lines("fn h{i}(x: u32) -> u32 { return x; }\n", n), *(f"h{i}" for i in range(n)))


@shape("a chain of functions")
def function_chain(n):
    return one("fn h0(x: u32) -> u32 { return x; }\n" + lines("fn h{i}(x: u32) -> u32 { return h{p}(x); }\n", n, 1), f"h{n}")


@shape("a chain of functions, called once")
def function_chain_called(n):
    return one("fn h0(x: u32) -> u32 { return x; }\n" + lines("fn h{i}(x: u32) -> u32 { return h{p}(x); }\n", n, 1) + f"const a = h{n}(1u);\n", "a", expression=f"h{n}(2u)")


@shape("a chain of functions that a kernel calls")
def function_chain_run(n):
    return kernel(f"b[0] = h{n}(b[1]);", "fn h0(x: u32) -> u32 { return x; }\n" + lines("fn h{i}(x: u32) -> u32 { return h{p}(x); }\n", n, 1))


@shape("functions with loops, each calls the one before")
def function_loops(n):
    inner = "var s = x; for (var i = 0u; i < 4u; i++) { if i % 2u == 0u { s += b[i]; } else { s ^= 3u; } } "
    return kernel("b[0] = b[1];" if n < 1 else f"if b[0] > 9u {{ b[0] = h{n}(b[1]); }}", "fn h0(x: u32) -> u32 { return x; }\n" + lines(f"fn h{{i}}(x: u32) -> u32 {{ {inner}return h{{p}}(s); }}\n", n, 1))


@shape("functions that are const by the rule")
def const_functions(n):
    return one(lines("fn h{i}(x: u32) -> u32 { return x; }\nconst c{i} = h{i}(1u);\n", n), *(f"c{i}" for i in range(n)))


@shape("a chain of functions that are not const, the last first")
def not_const(n):
    return one(lines("fn h{i}(x: u32) -> u32 { return h{s}(x); }\n", n) + f"var<private> v: u32;\nfn h{n}(x: u32) -> u32 {{ return x + v; }}\n", "h0")


@shape("functions that all call one")
def called_by_all(n):
    return one("fn g(x: u32) -> u32 { return x; }\n" + lines("fn h{i}(x: u32) -> u32 { return g(x); }\n", n), *(f"h{i}" for i in range(n)))


@shape("functions without a result that do nothing")
def void_functions(n):
    return one("fn h0() { }\n" + lines("fn h{i}() { h{p}(); }\n", n, 1), f"h{n}")


@shape("entry points")
def entry_points(n):
    return {"modules": [{"path": "package", "text": lines("@compute @workgroup_size(1) fn e{i}() { }\n", n)}]}


@shape("assertions")
def assertions(n):
    return one("const a = 1;\n" + lines("const_assert a + {i} > 0;\n", n), "a")


@shape("assertions that name a chain of constants")
def assertion_chain(n):
    return one("const c0 = 1;\n" + lines("const c{i} = c{p} - 0;\nconst_assert c{i} > 0;\n", n, 1), "c0")


# Directives.


@shape("a long `enable`")
def enable_long(n):
    return one("enable " + joined("e{i}", n) + ";\nconst a = 1;\n", "a")


@shape("a long `enable` of one name")
def enable_same(n):
    return one("enable " + joined("f16", n) + ";\nconst a = 1;\n", "a")


@shape("many `enable`s")
def enables(n):
    return one(lines("enable e{i};\n", n) + "const a = 1;\n", "a")


@shape("many equal `enable`s")
def enables_equal(n):
    return one("enable f16;\n" * n + "const a = 1;\n", "a")


@shape("many `requires`")
def requires(n):
    return one(lines("requires r{i};\n", n) + "const a = 1;\n", "a")


@shape("many `diagnostic`s")
def diagnostics(n):
    return one(lines("diagnostic(off, d{i});\n", n) + "const a = 1;\n", "a")


@shape("an `enable` in each module")
def enable_modules(n):
    root = lines("const d{i} = package::m{i}::c;\n", n)
    return many(root, [(f"m{i}", f"enable e{i};\nconst c = 1;\n") for i in range(n)], *(f"d{i}" for i in range(n)))


@shape("the same `enable` in each module")
def enable_modules_equal(n):
    root = lines("const d{i} = package::m{i}::c;\n", n)
    return many(root, [(f"m{i}", "enable f16;\nconst c = 1;\n") for i in range(n)], *(f"d{i}" for i in range(n)))


# Functions.


@shape("parameters")
def parameters(n):
    return one("fn f(" + joined("p{i}: u32", n) + ") -> u32 { return p0; }\n", "f")


@shape("parameters, each read")
def parameters_read(n):
    return one("fn f(" + joined("p{i}: u32", n) + ") -> u32 { var x = 0u; " + lines("x += p{i}; ", n) + "return x; }\n", "f")


@shape("arguments")
def arguments(n):
    return kernel(f"b[0] = f({joined('b[0]', n)});", "fn f(" + joined("p{i}: u32", n) + ") -> u32 { return p0; }\n")


@shape("arguments of a constant's call")
def arguments_const(n):
    return one("fn f(" + joined("p{i}: u32", n) + ") -> u32 { return p0; }\nconst a = f(" + joined("{i}u", n) + ");\n", "a")


@shape("arguments of the constructor of a structure")
def arguments_structure(n):
    return one("struct S { " + lines("m{i}: u32, ", n) + "}\nconst a = S(" + joined("{i}u", n) + ").m0;\n", "a")


@shape("arguments of the constructor of a structure, run")
def arguments_structure_run(n):
    return kernel("let s = S(" + joined("b[0]", n) + "); b[1] = s.m0;", "struct S { " + lines("m{i}: u32, ", n) + "}\n")


@shape("a long array")
def long_array(n):
    return one("const a = array(" + joined("{i}", n) + ");\n", "a")


@shape("a long array in a function")
def long_array_function(n):
    return one("fn f(x: u32) -> u32 { let a = array(" + joined("{i}u", n) + "); return a[x]; }\n", "f")


@shape("a long array of what is not constant")
def long_array_run(n):
    return kernel("let a = array(" + joined("b[0]", n) + "); b[0] = a[1];")


@shape("an array of arrays")
def array_rows(n):
    width = max(1, int(n ** 0.5))
    return one("const a = array(" + ", ".join(["array(" + joined("{i}u", width) + ")"] * width) + ");\n", "a")


@shape("statements")
def statements(n):
    return kernel("var s = b[0]; " + "s = (s + 3u * 5u) % 65521u; " * n + "b[1] = s;")


@shape("locals")
def locals_(n):
    return kernel(lines("var v{i} = b[0]; ", n) + "b[1] = v0;")


@shape("a chain of `let`s")
def lets(n):
    return kernel("let v0 = b[0]; " + lines("let v{i} = v{p}; ", n, 1) + f"b[1] = v{n};")


@shape("a chain of local constants")
def local_consts(n):
    return kernel("const v0 = 1u; " + lines("const v{i} = v{p}; ", n, 1) + f"b[1] = v{n};")


@shape("a chain of `let`s of constants")
def constant_lets(n):
    return kernel("let v0 = 1u; " + lines("let v{i} = v{p} + 1u; ", n, 1) + f"b[1] = v{n};")


@shape("a chain of `let`s of arrays")
def array_lets(n):
    return kernel("let v0 = array(b[0], b[1]); " + lines("let v{i} = v{p}; ", n, 1) + f"b[1] = v{n}[0];")


@shape("a chain of pointers")
def pointer_lets(n):
    return kernel("var x = 1u; let p0 = &x; " + lines("let p{i} = p{p}; ", n, 1) + f"b[1] = *p{n};")


@shape("locals, each read at the end")
def locals_read(n):
    return kernel(lines("var v{i} = b[0]; ", n) + lines("b[1] += v{i}; ", n))


@shape("a large variable that each statement reads")
def variable_read(n):
    return kernel(lines("a[{i}] = b[0]; ", n), f"var<private> a: array<u32, {n}>;\n")


@shape("a large local that each statement reads")
def local_read(n):
    return kernel(f"var a: array<u32, {n}>; " + lines("a[{i}] = b[0]; ", n))


@shape("a large `let` that each statement reads")
def let_read(n):
    return kernel("let a = array(" + joined("{i}u", n) + "); " + lines("b[0] += a[{i}]; ", n))


@shape("a large parameter that each statement reads")
def parameter_read(n):
    return kernel(f"var a: array<u32, {n}>; b[0] = f(a);", f"fn f(p: array<u32, {n}>) -> u32 {{ var x = 0u; " + lines("x += p[{i}]; ", n) + "return x; }\n")


@shape("a large constant that each statement reads at a place")
def const_read(n):
    return kernel("var i = b[3] % 2u; " + "b[0] += c[i]; " * n, "const c = array(" + joined("{i}u", n) + ");\n")


@shape("blocks beside one another")
def blocks(n):
    return kernel(lines("{ var v{i} = b[0]; b[1] = v{i}; } ", n))


@shape("blocks in one another", LEVELS // 2 - 4)
def blocks_deep(n):
    return kernel(lines("{ var v{i} = b[0]; ", n) + "b[1] = v0; " + "} " * n)


@shape("blocks in one another, a name in all", LEVELS // 2 - 4)
def blocks_shadow(n):
    return kernel("var v = b[0]; " + "{ var v = v; " * n + "b[1] = v; " + "} " * n)


@shape("`if`s in one another", LEVELS // 2 - 4)
def ifs_deep(n):
    return kernel("var s = b[0]; " + "if s > 1u { s += 1u; " * n + "} " * n + "b[1] = s;")


@shape("loops in one another", LEVELS // 2 - 4)
def loops_deep(n):
    return kernel("var s = b[0]; " + "while s < 1u { s += 1u; " * n + "} " * n + "b[1] = s;")


@shape("a long `else if`")
def else_ifs(n):
    return kernel("if b[0] == 0u { b[1] = 1u; } " + lines("else if b[0] == {i}u { b[1] = 1u; } ", n))


@shape("a long `else if` of constants")
def else_ifs_const(n):
    return kernel("if b[0] == 0u { b[1] = 1u; } " + "else if false { b[1] = 1u; } " * n)


@shape("`if`s beside one another")
def ifs(n):
    return kernel("if b[0] == 7u { b[1] = 1u; } " * n)


@shape("cases of a `switch`")
def cases(n):
    return kernel("switch b[0] { " + lines("case {i}u: { b[1] = 1u; } ", n) + "default: { } }")


@shape("selectors of a case")
def selectors(n):
    return kernel("switch b[0] { case " + joined("{i}u", n) + ": { b[1] = 1u; } default: { } }")


@shape("loops beside one another")
def loops(n):
    return kernel("for (var i = 0u; i < 1u; i++) { b[0] += i; } " * n)


@shape("empty statements")
def empties(n):
    return kernel(";" * n)


@shape("empty declarations")
def empty_declarations(n):
    return one("const a = 1;\n" + ";" * n, "a")


@shape("assertions in a function")
def local_assertions(n):
    return kernel("const_assert 1 < 2; " * n)


@shape("calls that do nothing")
def idle_calls(n):
    return kernel("g(); " * n, "fn g() { }\n")


@shape("`return`s")
def returns(n):
    return kernel("if b[0] > 9u { return; } " * n)


# Expressions.


def expression(text):
    return kernel(f"let x = b[0]; b[1] = {text};", expression=text.replace("x", "1u"))


@shape("a sum", LEVELS)
def sum_left(n):
    return expression("x" + " + 1u" * n)


@shape("a sum that begins with a constant", LEVELS)
def sum_constant(n):
    return expression("1u" + " + x" * n)


@shape("a sum of constants", LEVELS)
def sum_constants(n):
    return expression("1u" + " + 1u" * n)


@shape("a sum from the right", LEVELS // 2)
def sum_right(n):
    return expression("(1u + " * n + "x" + ")" * n)


@shape("parentheses", LEVELS)
def parentheses(n):
    return expression("(" * n + "x" + ")" * n)


@shape("signs", LEVELS)
def signs(n):
    return expression("~" * n + "x")


@shape("calls in one another", LEVELS)
def calls_deep(n):
    return kernel(f"b[1] = {'f(' * n}b[0]{')' * n};", "fn f(x: u32) -> u32 { return x + b[0]; }\n")


@shape("constructors in one another", LEVELS)
def constructors_deep(n):
    return expression("u32(" * n + "x" + ")" * n)


@shape("`&&`", LEVELS)
def conjunction(n):
    return expression("u32(true" + " && x > 0u" * n + ")")


@shape("indices in one another", LEVELS // 2)
def indices_deep(n):
    return kernel("let x = b[0] & 1u; b[1] = " + "b[" * n + "x" + "& 3u]" * n + ";")


@shape("members of members", LEVELS // 2)
def members_deep(n):
    text = "struct S0 { a: u32 }\n" + lines("struct S{i} { a: S{p} }\n", n, 1) + f"var<private> v: S{n};\n"
    return kernel("b[0] = v" + ".a" * (n + 1) + ";", text)


@shape("swizzles", LEVELS)
def swizzles(n):
    return kernel("let v = vec2(b[0], b[1]); b[0] = v" + ".yx" * n + ".x;")


@shape("arrays in one another", LEVELS // 2)
def arrays_deep(n):
    return one("const a = " + "array(" * n + "1u" + ")" * n + ";\n", "a")


@shape("arrays in one another, run", LEVELS // 2)
def arrays_deep_run(n):
    return kernel("let a = " + "array(" * n + "b[0]" + ")" * n + ";")


@shape("constructors of structures in one another, run", LEVELS // 2)
def structures_deep_run(n):
    text = "struct S0 { a: u32 }\n" + lines("struct S{i} { a: S{p} }\n", n, 1)
    return kernel("let a = " + "".join(f"S{i}(" for i in range(n, -1, -1)) + "b[0]" + ")" * (n + 1) + ";", text)


@shape("sums beside one another")
def sums(n):
    return kernel("b[0] = b[1]" + " + b[2]" * 20 + ";" if n < 20 else ("b[0] = b[1]" + " + b[2]" * 20 + "; ") * (n // 20))


@shape("calls in one another with many arguments", LEVELS)
def calls_wide(n):
    return kernel(f"b[1] = {'f(1u, 2u, 3u, 4u, 5u, ' * n}b[0]{')' * n};", "fn f(p: u32, q: u32, r: u32, s: u32, t: u32, x: u32) -> u32 { return p + x; }\n")


@shape("constants in one another, and a name", LEVELS // 2)
def constants_deep(n):
    return expression("(1u + 2u * 3u + " * n + "x" + ")" * n)


@shape("an array of arrays of what is not constant")
def rows_run(n):
    return kernel("let a = array(" + joined("array(b[0], 1u, 2u)", n) + "); b[1] = a[0][0];")


@shape("a long chain of `&&` in blocks")
def conjunctions(n):
    return kernel("if b[0] > 0u && b[1] > 0u && b[2] > 0u { b[1] = 1u; } " * n)


# Attributes, names, blanks.


@shape("attributes")
def attributes(n):
    return one(lines("@x{i}(1) ", n) + "fn f() { }\n", "f")


@shape("arguments of an attribute")
def attribute_arguments(n):
    return one("@x(" + joined("{i}", n) + ") fn f() { }\n", "f")


@shape("attributes of members")
def member_attributes(n):
    return one("struct S { a: u32, " + lines("@x{i}(1) @align(16) m{i}: u32, ", n) + "}\nfn f(s: S) -> u32 { return s.a; }\n", "f")


@shape("comments")
def comments(n):
    return one("// a comment\n" * n + "const a = 1;\n", "a")


@shape("a long comment")
def long_comment(n):
    return one("/*" + "x" * n + "*/ const a = 1;\n", "a")


@shape("comments in one another")
def nested_comments(n):
    return one("/*" * n + "*/" * n + " const a = 1;\n", "a")


@shape("a comment that stays open")
def open_comment(n):
    return one("const a = 1; " + "/*" * n, "a")


@shape("blanks")
def blanks(n):
    return one("const a = 1;\n" + " " * n, "a")


@shape("a long name")
def long_name(n):
    return many("const a = package::m::" + "x" * n + ";\n", [("m", "const " + "x" * n + " = 1;\n")], "a")


@shape("a name of many underscores")
def underscores(n):
    name = "a" + "_b" * n
    return many(f"const a = package::m::{name};\n", [("m", f"const {name} = 1;\n")], "a")


@shape("names of many underscores")
def underscores_many(n):
    width = max(1, int(n ** 0.5))
    names = ["a" + "_b" * width + f"_{i}" for i in range(width)]
    root = "".join(f"const d{i} = package::m::{name};\n" for i, name in enumerate(names))
    return many(root, [("m", "".join(f"const {name} = 1;\n" for name in names))], *(f"d{i}" for i in range(width)))


@shape("names that begin alike")
def alike_names(n):
    width = max(1, int(n ** 0.5))
    return one("".join(f"const {'x' * width}{i} = 1;\n" for i in range(width)), *(f"{'x' * width}{i}" for i in range(width)))


@shape("a long number")
def long_number(n):
    return one("const a = 1." + "0" * n + ";\n", "a", default_feature="disable")


@shape("a long whole number")
def long_whole(n):
    return one("const a = 0x" + "0" * n + "1;\n", "a")


@shape("a member of one name in many structures")
def same_member(n):
    return one(lines("struct S{i} { a: u32 }\n", n) + "fn f(" + joined("p{i}: S{i}", n) + ") -> u32 { return p0.a; }\n", "f")


@shape("a local of one name in many functions")
def same_local(n):
    return one(lines("fn h{i}() -> u32 { let x = {i}u; return x; }\n", n), *(f"h{i}" for i in range(n)))


@shape("names of WGSL")
def wgsl_names(n):
    return one("fn f(x: u32) -> u32 { var y = x; " + "y = max(y, x); " * n + "return y; }\n", "f")


# What is refused.


@shape("a bad token at the end")
def bad_token(n):
    return one(lines("const c{i} = 1;\n", n) + "$", "c0")


@shape("a text that ends too early")
def early_end(n):
    return one(lines("const c{i} = 1;\n", n) + "const", "c0")


@shape("an undefined name at the end")
def undefined_name(n):
    return one(lines("const c{i} = 1;\n", n) + "const a = gone;\n", *(f"c{i}" for i in range(n)), "a")


@shape("a missing import at the end")
def missing_import(n):
    root = lines("const d{i} = package::m::c{i};\n", n) + "const a = package::m::gone;\n"
    return many(root, [("m", lines("const c{i} = 1;\n", n))], *(f"d{i}" for i in range(n)), "a")


@shape("a missing module at the end of a chain")
def missing_module(n):
    others = [(f"m{i}", f"import package::m{i + 1}::c{i + 1};\nconst c{i} = c{i + 1};\n") for i in range(1, n + 1)]
    return many("import package::m1::c1;\nconst a = c1;\n", others, "a")


@shape("a ring of constants")
def const_ring(n):
    return one(lines("const c{i} = c{s} - 0;\n", n) + f"const c{n} = c0;\n", "c0")


@shape("rings of constants")
def const_rings(n):
    return one(lines("const c{i} = d{i} - 0;\nconst d{i} = c{i};\n", n), "c0", f"d{n - 1}")


@shape("a ring of functions")
def function_ring(n):
    return one(lines("fn h{i}(x: u32) -> u32 { return h{s}(x); }\n", n) + f"fn h{n}(x: u32) -> u32 {{ return h0(x); }}\n", "h0")


@shape("a ring of aliases")
def alias_ring(n):
    return one(lines("alias A{i} = A{s};\n", n) + f"alias A{n} = A0;\nvar<private> v: A0;\n", "v")


@shape("an assertion that fails, behind many")
def failing_assertion(n):
    return one("const a = 1;\n" + lines("const_assert a + {i} > 0;\n", n) + "const_assert a > 1;\n", "a")


@shape("parentheses, refused")
def parentheses_refused(n):
    return expression("(" * n + "x" + ")" * n)


@shape("parentheses that stay open")
def parentheses_open(n):
    return expression("(" * n)


@shape("a sum, refused")
def sum_refused(n):
    return expression("x" + " + 1u" * n)


@shape("blocks, refused")
def blocks_refused(n):
    return kernel("{" * n + "}" * n)


@shape("signs, refused")
def signs_refused(n):
    return expression("-" * n + "x")


@shape("members of members, refused")
def members_refused(n):
    return expression("x" + ".a" * n)


@shape("escapes in a text", commands=("link",))
def json_escapes(n):
    return one("const a = 1; // " + "\u00e4\u4e2d" * n + "\n", "a")


# Template lists.


@shape("`a<b, a<b, ..` that open no list")
def template_flat(n):
    return one("const N = 1u;\nfn f(a: u32, b: u32) { x(" + joined("a<b", n) + "); }\nfn x() { }\n", "f")


@shape("`a<b, a<b, ..` in a list")
def template_inside(n):
    return one("const c = array<bool, N>(" + joined("a<a", n) + ");\nconst a = 1;\nconst N = " + str(n) + ";\n", "c")


@shape("template lists in one another", LEVELS // 2)
def template_nested(n):
    return one("alias A = " + "array<" * n + "u32" + ", 1>" * n + ";\nvar<private> v: A;\n", "v")


@shape("`(a<a(a<a(..`", LEVELS // 4)
def template_calls(n):
    return one("fn a() { }\nfn f() { a" + "(a<a" * n + ")" * n + "; }\n", "f")


@shape("a long template list")
def template_long(n):
    return one("alias A = x<" + joined("u32", n) + ">;\n", "A")


@shape("template lists beside one another")
def template_many(n):
    return one(lines("var<private> v{i}: vec2<u32>;\n", n), *(f"v{i}" for i in range(n)))


# Runs.


@shape("bindings", commands=("link", "compile", "run"))
def bindings(n):
    given = [{"group": 0, "binding": i, "space": "storage", "access": "read_write", "value": "1u"} for i in range(n)]
    return one(lines("@group(0) @binding({i}) var<storage, read_write> b{i}: u32;\n", n), *(f"b{i}" for i in range(n)), bindings=given)


@shape("bindings, each read", commands=("link", "compile", "run"))
def bindings_read(n):
    given = [{"group": 0, "binding": i, "space": "storage", "access": "read_write", "value": "1u"} for i in range(n)]
    text = lines("@group(0) @binding({i}) var<storage, read_write> b{i}: u32;\n", n) + "@compute @workgroup_size(1) fn main() { " + lines("b{i} += 1u; ", n) + "}\n"
    return one(text, "main", bindings=given)


@shape("bindings that nothing declares", commands=("run",))
def bindings_idle(n):
    given = [{"group": i, "binding": i, "space": "storage", "access": "read_write", "value": "1u"} for i in range(n)]
    return one(MAIN_TEXT, "main", bindings=given)


@shape("bindings of one place", commands=("run",))
def bindings_equal(n):
    given = [{"group": 0, "binding": 0, "space": "storage", "access": "read_write", "value": ["1u", "2u", "3u", "4u"]} for i in range(n)]
    return {**kernel("b[0] = 1u;"), "bindings": given}


@shape("a large binding", commands=("run",))
def large_binding(n):
    given = [{"group": 0, "binding": 0, "space": "storage", "access": "read_write", "value": [f"{i}u" for i in range(n)]}]
    return one(f"@group(0) @binding(0) var<storage, read_write> b: array<u32>;\n@compute @workgroup_size(1) fn main() {{ b[1] = b[0]; }}\n", "main", bindings=given)


@shape("a large binding, each element written", commands=("run",))
def large_binding_written(n):
    given = [{"group": 0, "binding": 0, "space": "storage", "access": "read_write", "value": [f"{i}u" for i in range(n)]}]
    text = "@group(0) @binding(0) var<storage, read_write> b: array<u32>;\n@compute @workgroup_size(1) fn main() { for (var i = 0u; i < arrayLength(&b); i++) { b[i] += 1u; } }\n"
    return one(text.replace("arrayLength(&b)", f"{n}u"), "main", bindings=given, max_steps=1_000_000_000)


@shape("a binding of many rows", commands=("run",))
def binding_rows(n):
    width = max(1, int(n ** 0.5))
    given = [{"group": 0, "binding": 0, "space": "storage", "access": "read_write", "value": [[f"{i}u" for i in range(width)]] * width}]
    return one(f"@group(0) @binding(0) var<storage, read_write> b: array<array<u32, {width}>>;\n@compute @workgroup_size(1) fn main() {{ b[0][0] = b[0][1]; }}\n", "main", bindings=given)


@shape("a binding of vectors", commands=("run",))
def binding_vectors(n):
    given = [{"group": 0, "binding": 0, "space": "storage", "access": "read_write", "value": [{"vec": ["1u", "2u", "3u", "4u"]}] * n}]
    return one("@group(0) @binding(0) var<storage, read_write> b: array<vec4u>;\n@compute @workgroup_size(1) fn main() { b[0].x = b[0].y; }\n", "main", bindings=given)


@shape("lists in one another in a binding", LEVELS // 2, ("run",))
def binding_deep(n):
    value = "1u"
    for _ in range(min(n, 900)):
        value = [value]
    return {**one(MAIN_TEXT, "main"), "bindings": [{"group": 0, "binding": 0, "space": "storage", "access": "read_write", "value": value}]}


@shape("inputs by location", commands=("run",))
def located(n):
    text = "@fragment fn main(" + joined("@location({i}) p{i}: u32", n) + ") -> @location(0) u32 { return p0; }\n"
    return one(text, "main", inputs={"user": {str(i): "1u" for i in range(n)}})


@shape("a large input", commands=("run",))
def large_input(n):
    return one(f"@fragment fn main(@location(0) p: array<u32, {n}>) -> @location(0) u32 {{ return p[0]; }}\n", "main", inputs={"user": {"0": ["1u"] * n}})


@shape("a large answer", commands=("run",))
def large_answer(n):
    return one("@fragment fn main() -> @location(0) array<u32, " + str(n) + "> { return array(" + joined("{i}u", n) + "); }\n", "main")


@shape("a large value", commands=("eval",))
def large_value(n):
    return one("const a = 1u;\n", "a", expression="array(" + joined("{i}u", n) + ")")


@shape("kept names")
def kept(n):
    return one("const a = 1;\n", *(["a"] * n))


MAIN_TEXT = "@compute @workgroup_size(1) fn main() { }\n"
