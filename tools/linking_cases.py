#!/usr/bin/env python3
"""Writes cases of linking for the program `weslc_cases`: small bundles that are made at random, from fixed seeds, and what a
plain slow program of the definitions of linking makes of each.

usage: tools/linking_cases.py         It writes crates/weslc_cases/data/linking.json, and says how often each answer comes.

The plain program shares nothing with the linker: it goes over lists, searches again and again, has no tables, and parses
nothing. A bundle is described by the pieces of its printed text, so that each piece is known for what it is: a name that is
declared, a parameter, an occurrence in or outside of a body, or anything else. docs/LANGUAGE.md, "Linking", has the
definitions that it follows.
"""

import collections
import json
import os
import sys

FILE = os.path.join(os.path.dirname(os.path.abspath(__file__)), "..", "crates", "weslc_cases", "data", "linking.json")

# ---- Bundles as they are described.

# What a piece of a declaration's text is. An occurrence outside of the body is in the scope of the module, and one inside in
# that of the parameters, too.
FIXED, OWN, PARAMETER, OUTSIDE, INSIDE = "fixed", "own", "parameter", "outside", "inside"


class Declaration:
    def __init__(self, name):
        self.name = name
        self.is_entry_point = False
        self.pieces = []  # pairs of what a piece is and its text, in text order

    def text(self):
        return "".join(text for _, text in self.pieces)

    def hides(self, name):
        return (PARAMETER, name) in self.pieces


class Module:
    def __init__(self, path, imports, declarations):
        self.path = path
        self.imports = imports  # pairs of a module's path and an item of it
        self.declarations = declarations

    def text(self):
        imports = [f"import {path}::{item};\n" for path, item in self.imports]
        return "".join(imports + [declaration.text() for declaration in self.declarations])

    def declares(self, name):
        return name in [declaration.name for declaration in self.declarations]

    def import_of(self, name):
        """The first import of an item of this name, or None."""
        return next((target for target in self.imports if target[1] == name), None)

    def scope(self):
        """All names that its imports and declarations give it, in text order."""
        return [item for _, item in self.imports] + [declaration.name for declaration in self.declarations]


class Bundle:
    def __init__(self, modules, root, keep, max_modules):
        self.modules = modules
        self.root = root
        self.keep = keep
        self.max_modules = max_modules

    def json(self):
        modules = [{"path": module.path, "text": module.text()} for module in self.modules]
        bundle = {"command": "link", "root": self.root, "modules": modules, "max_modules": self.max_modules}
        return {**bundle, "keep": self.keep} if self.keep else bundle


# ---- The plain program of linking. A symbol is the path of a module and the name of a declaration there.


class Refusal(Exception):
    def __init__(self, kind, module="-", name="-"):
        self.kind = kind
        self.line = f"error: {kind} {module} - - {name}\n"


def in_byte_order(paths):
    return sorted(set(paths), key=lambda path: path.encode())


def printed(root, symbol):
    """The name of a symbol in the linked text: in the root its own, else the parts of its path and it, with `_` between. Before
    a part with underscores stands `_` and how many it has."""
    path, name = symbol
    if path == root:
        return name
    parts = path.split("::") + [name]
    return "_".join(f"_{part.count('_')}{part}" if "_" in part else part for part in parts)


class Linking:
    def __init__(self, bundle):
        self.bundle = bundle
        self.loaded = []  # paths
        self.reached = []  # symbols

    def module(self, path):
        """The loaded module at a path, or None."""
        if path not in self.loaded:
            return None
        return next((module for module in self.bundle.modules if module.path == path), None)

    def load(self, path):
        """Loads a module, unless it is one too many, is not found, or has a name twice."""
        if len(self.loaded) >= self.bundle.max_modules:
            raise Refusal("TooManyModules", path)
        self.loaded.append(path)
        if self.module(path) is None:
            raise Refusal("Resolve.ModuleNotFound", path)
        scope = self.module(path).scope()
        for place, name in enumerate(scope):
            if name in scope[:place]:
                raise Refusal("Import.DuplicateSymbol", path, name)

    def keep(self):
        """Begins with the names that are asked for or, where none is, with the entry points of the root."""
        root = self.module(self.bundle.root)
        for name in self.bundle.keep:
            if not root.declares(name):
                raise Refusal("Import.MissingDecl", root.path, name)
            self.add((root.path, name))
        for declaration in root.declarations:
            if not self.bundle.keep and declaration.is_entry_point:
                self.add((root.path, declaration.name))

    def add(self, symbol):
        if symbol not in self.reached:
            self.reached.append(symbol)

    def meaning(self, module, name):
        """What a name means in a module's scope: its own declaration, else the item that its import names."""
        if module.declares(name):
            return "denotes", (module.path, name)
        target = module.import_of(name)
        if target is None:
            return "free", name
        there = self.module(target[0])
        if there is None:
            return "unloaded", target
        if there.declares(name):
            return "denotes", target
        if there.import_of(name):
            return "Import.Private", target
        return "Import.MissingDecl", target

    def said(self, module, declaration, piece):
        """What a piece of a declaration says: `local` with a parameter's name, or `fixed` with a text, or a meaning."""
        kind, text = piece
        if kind == FIXED:
            return "fixed", text
        if kind == OWN:
            return "denotes", (module.path, text)
        if kind == PARAMETER or kind == INSIDE and declaration.hides(text):
            return "local", text
        return self.meaning(module, text)

    def pieces(self, paths):
        """The pieces of what is reached in the loaded modules at these paths, in text order, each with what it says."""
        pieces = []
        for module in filter(None, map(self.module, paths)):
            for declaration in module.declarations:
                if (module.path, declaration.name) in self.reached:
                    for piece in declaration.pieces:
                        pieces.append((declaration, piece, *self.said(module, declaration, piece)))
        return pieces

    def reach(self):
        """Adds what is denoted in what is reached, until that adds nothing."""
        before = None
        while before != len(self.reached):
            before = len(self.reached)
            for _, _, what, symbol in self.pieces(self.loaded):
                if what == "denotes":
                    self.add(symbol)

    def refuse_first(self):
        """Refuses the first occurrence that denotes nothing: by the paths of the modules, then in text order."""
        for _, _, what, target in self.pieces(in_byte_order(self.loaded)):
            if what in ("Import.Private", "Import.MissingDecl"):
                raise Refusal(what, *target)

    def asked(self):
        """The modules that are still to be loaded."""
        return in_byte_order(target[0] for _, _, what, target in self.pieces(self.loaded) if what == "unloaded")

    def linked_pieces(self):
        """The pieces of the linked text: the root's, then the other modules' in byte order of their paths."""
        others = [path for path in in_byte_order(self.loaded) if path != self.bundle.root]
        return self.pieces([self.bundle.root] + others)

    def holders(self, name):
        """How many reached symbols have this name in the linked text."""
        return [printed(self.bundle.root, symbol) for symbol in self.reached].count(name)

    def refuse_clash(self):
        """Refuses the first name that would be read otherwise than meant: one that two symbols have, one that a parameter
        hides, or a free one that a symbol has."""
        for declaration, (kind, _), what, meant in self.linked_pieces():
            if what == "denotes":
                name = printed(self.bundle.root, meant)
                if self.holders(name) > 1 or kind == INSIDE and declaration.hides(name):
                    raise Refusal("NameClash", name=name)
            elif what == "free" and self.holders(meant) > 0:
                raise Refusal("NameClash", name=meant)

    def text(self):
        pieces = self.linked_pieces()
        return "".join(printed(self.bundle.root, it) if what == "denotes" else it for _, _, what, it in pieces)


def linked(bundle):
    """The linked text of a bundle. The first refusal is raised."""
    linking = Linking(bundle)
    linking.load(bundle.root)
    linking.keep()
    linking.reach()
    linking.refuse_first()
    while linking.asked():
        for path in linking.asked():
            linking.load(path)
        linking.reach()
        linking.refuse_first()
    linking.refuse_clash()
    return linking.text()


# ---- Bundles that are made at random.

PATHS = ["package", "package::m", "package::m::n", "package::m_n", "package::o"]
ROOTS = ["package", "package", "package", "package", "package::m"]
NAMES = ["f", "b", "m_a", "a", "e", "d", "c"]
# Names that may not be in scope: some are built in, and some look as names in a linked text do.
STRANGE_NAMES = ["a", "b", "u32", "package_a", "package_m_a", "package_m_b", "package_m__1m_a"]
PARAMETERS = ["p", "a", "package_m_a", "package_m_b"]

# In these forms `!` stands for the declared name, `#` for a parameter's, and `?` for a name that occurs. No module has `i32`.
CONSTANTS = ["const ! = ", "const !: i32 = ", "const !: ? = "]
FUNCTIONS = [
    "fn !()",
    "fn !(#: i32)",
    "@fragment fn !()",
    "fn !(#: i32, #: ?)",
    "@location(?) fn !(#: ?)",
    "@location(7) @fragment fn !(@location(?) #: i32)",
]
RESULTS = ["", " -> i32", " -> ?", " -> @location(?) i32"]
EXPRESSIONS = ["1", "?", "? + 1", "? - -?", "-? % 3i", "(? - 2u) * ?", "?(?, 3)", "?() / - -?"]

# Which names a bundle takes: those in scope, and imports of what is there (tidy); strange names too (alike); and imports of what
# may not be there (wild).
MOODS = ["tidy", "wild", "alike"]


class Chance:
    """A linear congruential generator of 64 bits, so that a seed gives the same bundle everywhere."""

    def __init__(self, mood, seed):
        self.mood = mood
        self.state = seed * 0x9E3779B97F4A7C15 % 2**64

    def below(self, limit):
        self.state = (self.state * 6364136223846793005 + 1442695040888963407) % 2**64
        return (self.state >> 33) % max(limit, 1)

    def one_in(self, limit):
        return self.below(limit) == 0

    def strange_one_in(self, limit):
        return self.mood != "tidy" and self.one_in(limit)

    def wild_one_in(self, limit):
        return self.mood == "wild" and self.one_in(limit)

    def of(self, names):
        place = self.below(len(names))
        return names[place] if names else "a"

    def bundle(self):
        drafts = []  # pairs of a module's path and the names that it declares
        for path in PATHS:
            if len(drafts) < 4 and (path == "package" or self.one_in(2)):
                drafts.append((path, self.names()))
        modules = [self.module(drafts, path, names) for path, names in drafts]
        root = self.of(ROOTS)
        return Bundle(modules, root, self.kept(drafts, root), self.below(20))

    def names(self):
        """Names to be declared. A strange one may be there already."""
        names = []
        for name in NAMES:
            if len(names) < 3 and self.one_in(2):
                names.append(name)
        return names + [self.of(STRANGE_NAMES)] if self.strange_one_in(3) else names

    def module(self, drafts, path, names):
        scope, imports = list(names), []
        for _ in range(3):
            target = self.target(drafts)
            if target[1] not in scope or self.wild_one_in(12):
                # Twice, so that it is taken more often.
                scope += [target[1], target[1]]
                imports.append(target)
        return Module(path, imports, [self.declaration(name, scope) for name in names])

    def target(self, drafts):
        """An item of a module that is there, or any."""
        path, names = drafts[self.below(len(drafts))]
        if self.wild_one_in(3):
            return self.of(PATHS), self.of(NAMES)
        return path, self.of(names)

    def declaration(self, name, scope):
        declaration = Declaration(name)
        value = self.of(EXPRESSIONS)
        if self.one_in(2):
            for form in [self.of(CONSTANTS), value, ";\n"]:
                self.add(declaration, form, scope, OUTSIDE)
            return declaration
        head, result = self.of(FUNCTIONS), self.of(RESULTS)
        declaration.is_entry_point = "@fragment" in head
        for form in [head, result]:
            self.add(declaration, form, scope, OUTSIDE)
        for form in [" {\n    return ", value, ";\n}\n"]:
            self.add(declaration, form, scope, INSIDE)
        return declaration

    def add(self, declaration, form, scope, place):
        """Adds what a form stands for."""
        others = PARAMETERS if place == INSIDE else STRANGE_NAMES
        for letter in form:
            if letter == "!":
                piece = OWN, declaration.name
            elif letter == "#":
                piece = PARAMETER, self.of(PARAMETERS)
            elif letter == "?":
                piece = place, self.occurring(scope, others)
            else:
                piece = FIXED, letter
            declaration.pieces.append(piece)

    def occurring(self, scope, others):
        """A name of the scope, or another."""
        if not scope or self.one_in(9):
            return self.of(others)
        return self.of(STRANGE_NAMES if self.strange_one_in(5) else scope)

    def kept(self, drafts, root):
        """Some of the root's names or none, now and then another name."""
        keep = []
        for path, names in drafts:
            keep += [name for name in names if path == root and self.one_in(2)]
        return keep + [self.of(STRANGE_NAMES)] if self.wild_one_in(8) else keep


# ---- The cases.

SEEDS = 1000

# How many cases of a mood may have the same answer: a kind of refusal, a text, or an empty one.
MOST = {"Resolve.ModuleNotFound": 20, "TooManyModules": 20, "Import.DuplicateSymbol": 30, "empty text": 10, "text": 420}

# How many cases of each refusal there have to be.
LEAST = 20

REFUSALS = [
    "TooManyModules",
    "Resolve.ModuleNotFound",
    "Import.DuplicateSymbol",
    "Import.MissingDecl",
    "Import.Private",
    "NameClash",
]


def case(mood, seed):
    """A case, and the kind of its answer."""
    bundle = Chance(mood, seed).bundle()
    made = {"name": f"{mood} bundle {seed}", "bundle": bundle.json()}
    try:
        text = linked(bundle)
        return {**made, "text": text}, "text" if text else "empty text"
    except Refusal as refusal:
        return {**made, "line": refusal.line, "status": 1}, refusal.kind


def main():
    cases, kinds = [], collections.Counter()
    for mood in MOODS:
        in_mood = collections.Counter()
        for seed in range(SEEDS):
            made, kind = case(mood, seed)
            if in_mood[kind] < MOST.get(kind, SEEDS):
                cases.append(json.dumps(made, separators=(",", ":")))
                in_mood[kind] += 1
        kinds += in_mood
    rare = [kind for kind in REFUSALS if kinds[kind] < LEAST]
    if rare:
        sys.exit(f"too few of {rare}: {dict(kinds)}")
    with open(FILE, "w", encoding="utf-8") as file:
        file.write("[\n" + ",\n".join(cases) + "\n]\n")
    print(f"{len(cases)} cases: {dict(kinds.most_common())}")


if __name__ == "__main__":
    main()
