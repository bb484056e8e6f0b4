#!/usr/bin/env python3
"""Writes cases of faults of the parser for the program `weslc_cases`: samples of every production, and each sample with one token left out,
doubled or replaced, with what a plain slow reading of the grammar makes of it.

usage: tools/parser_cases.py        It writes what stands in crates/weslc_cases/data/parser.txt from the line
`# By tools/parser_cases.py` on, and the count of cases into crates/weslc_cases/stdout; it says how many cases there are.

The plain reading shares nothing with the parser or its tables: the grammar stands below as it is written, Earley's algorithm reads
tokens by it, and the first token at which its set is empty is the first with which no sentence goes on. Templates are found by the
same algorithm, which reads the whole text behind each `<`.
"""

import functools
import re

from cases import path, write

CRATE = "weslc_cases"
NAME = "parser.txt"
MARK = "# By tools/parser_cases.py"
MOST = 2900

# ---- The grammar: `{x}` any number, `[x]` optional, `x+` one or more, `L(x)` a list. `‹` and `›` are the ends of a template,
# and `(@` is a parenthesis right behind the word of an attribute, which always opens its arguments.

GRAMMAR = """
module: {import} {directive} {item}
item: ';' | declaration
import: A 'import' [origin] tree ';'
origin: 'package' '::' | ('super' '::')+
tree: id ['as' id] | id '::' tree | '{' L(tree) '}'
directive: A 'diagnostic' '(' id ',' id ['.' id] [','] ')' ';' | A 'enable' L(id) ';' | A 'requires' L(id) ';'
declaration: A 'var' [template] typed ['=' expr] ';' | A 'override' typed ['=' expr] ';'
  | A 'const' typed '=' expr ';' | A 'alias' id '=' type ';' | A 'struct' id '{' L(A id ':' type) '}'
  | A 'fn' id '(' [L(A id ':' type)] ')' ['->' A type] block | A 'const_assert' expr ';'
typed: id [':' type]
type: name [template]
name: [origin] {id '::'} id
block: A '{' {statement} '}'
statement: ';' | block | A 'if' expr block {'else' 'if' expr block} ['else' block]
  | A 'switch' expr A '{' clause+ '}' | A 'loop' A '{' {statement} [continuing] '}'
  | A 'for' '(' [init] ';' [expr] ';' [update] ')' block | A 'while' expr block
  | A 'break' ';' | A 'continue' ';' | A 'return' [expr] ';' | A 'discard' ';' | A 'const_assert' expr ';' | A local ';' | A update ';'
clause: 'case' L('default' | expr) [':'] block | 'default' [':'] block
continuing: 'continuing' A '{' {statement} ['break' 'if' expr ';'] '}'
local: 'var' [template] typed ['=' expr] | 'let' typed '=' expr | 'const' typed '=' expr
kind: 'const' | 'override' | 'let' | 'var' [template]
init: local | update
update: call | place op expr | '_' '=' expr | place '++' | place '--'
op: '=' | '+=' | '-=' | '*=' | '/=' | '%=' | '&=' | '|=' | '^=' | '>>=' | '<<='
place: '*' place | '&' place | (name | '(' place ')') {postfix}
postfix: '.' id | '[' expr ']'
expr: rel | rel ('&&' rel)+ | rel ('||' rel)+ | unary ('&' unary)+ | unary ('|' unary)+ | unary ('^' unary)+
rel: shift [('<' | '<=' | '>' | '>=' | '==' | '!=') shift]
shift: sum | unary '<<' unary | unary '>>' unary
sum: product {('+' | '-') product}
product: unary {('*' | '/' | '%') unary}
unary: ('-' | '!' | '~' | '*' | '&') unary | primary {postfix}
primary: literal | '(' expr ')' | type | call
call: type '(' [L(expr)] ')'
template: '‹' L(expr) '›'
A: {attribute}
attribute: '@' word ['(@' [L(expr)] ')']
"""
STARTS = {"module": "module", "expression": "expr", "statement": "statement", "declaration": "item", "directive": "directive",
          "import": "import", "kind": "kind"}
SPECIAL = ("id", "word", "literal")


class Notation:
    """Reads the grammar's notation: each group becomes a rule of its own."""

    def __init__(self, text):
        self.rules, self.made = {}, 0
        for line in re.sub(r"\n +", " ", text).strip().split("\n"):
            head, body = line.split(":", 1)
            self.pieces = re.findall(r"'[^']+'|L\(|\w+|[^\s\w]", body)
            self.rules[head] = self.choice()

    def choice(self, end=None):
        found = [self.row(end)]
        while self.pieces and self.pieces[0] == "|":
            self.pieces.pop(0)
            found.append(self.row(end))
        if end:
            assert self.pieces.pop(0) == end
        return found

    def rule(self, make):
        self.made += 1
        head = f"made{self.made}"
        self.rules[head] = make(head)
        return head

    def row(self, end):
        row = []
        while self.pieces and self.pieces[0] not in ("|", end):
            piece = self.pieces.pop(0)
            if piece == "{":
                one = self.choice("}")
                part = self.rule(lambda head: [()] + [(head,) + way for way in one])
            elif piece == "[":
                part = self.rule(lambda head: [()] + self.choice("]"))
            elif piece == "(":
                part = self.rule(lambda head: self.choice(")"))
            elif piece == "L(":
                one = self.rule(lambda head: self.choice(")"))
                some = self.rule(lambda head: [(one,), (head, "','", one)])
                part = self.rule(lambda head: [(some,), (some, "','")])
            else:
                part = piece
            if self.pieces and self.pieces[0] == "+":
                self.pieces.pop(0)
                one = part
                part = self.rule(lambda head: [(one,), (head, one)])
            row.append(part)
        return tuple(row)


RULES = Notation(GRAMMAR).rules


def find_empty():
    """The rules from which nothing comes too."""
    empty = set()
    while True:
        more = {head for head, ways in RULES.items() if any(all(part in empty for part in way) for way in ways)}
        if more == empty:
            return empty
        empty = more


EMPTY = find_empty()
for ways in RULES.values():
    for way in ways:
        assert all(part in RULES or part in SPECIAL or part[0] == "'" for part in way), way

# ---- Tokens: kind, spelling, place. Kinds: id, keyword, reserved, number, symbol, invalid, start, end, and arguments for `(@`.

KEYWORDS = set("""alias break case const const_assert continue continuing default diagnostic discard else enable false fn for if let
loop override requires return struct switch true var while""".split())
RESERVED = set("""NULL Self abstract active alignas alignof as asm asm_fragment async attribute auto await become cast catch class co_await
co_return co_yield coherent column_major common compile compile_fragment concept const_cast consteval constexpr constinit crate debugger
decltype delete demote demote_to_helper do dynamic_cast enum explicit export extends extern external fallthrough filter final finally
friend from fxgroup get goto groupshared highp impl implements import inline instanceof interface layout lowp macro macro_rules match
mediump meta mod module move mut mutable namespace new nil noexcept noinline nointerpolation non_coherent noncoherent noperspective null
nullptr of operator package packoffset partial pass patch pixelfragment precise precision premerge priv protected pub public readonly ref
regardless register reinterpret_cast require resource restrict self set shared sizeof smooth snorm static static_assert static_cast std
subroutine super target template this thread_local throw trait try type typedef typeid typename typeof union unless unorm unsafe unsized
use using varying virtual volatile wgsl where with writeonly yield""".split())
SYMBOLS = sorted("""& && -> @ / ! [ ] { } : :: , = == != > >= >> < <= << % - -- . + ++ | || ( ) ; * ~ _ ^ += -= *= /= %= &= |= ^= >>= <<=
""".split(), key=lambda symbol: -len(symbol))
INTEGERS = re.compile(r"(0[xX][0-9a-fA-F]+|0|[1-9][0-9]*)([iu]?)")
X, P = r"([eE][+-]?[0-9]+)", r"([pP][+-]?[0-9]+)"
FLOATS = [re.compile(form) for form in (
    r"(0|[1-9][0-9]*)[fh]", rf"[0-9]*\.[0-9]+{X}?[fh]?", rf"[0-9]+\.[0-9]*{X}?[fh]?", rf"[0-9]+{X}[fh]?",
    rf"0[xX][0-9a-fA-F]*\.[0-9a-fA-F]+({P}[fh]?)?", rf"0[xX][0-9a-fA-F]+\.[0-9a-fA-F]*({P}[fh]?)?", rf"0[xX][0-9a-fA-F]+{P}[fh]?")]
LARGEST = {"i": 2**31 - 1, "u": 2**32 - 1, "": 2**63 - 1}


def one_token(text, at):
    """Kind and end of the longest token at a place; templates aside."""
    word = re.compile(r"[A-Za-z_]\w*", re.ASCII).match(text, at)
    if word and word.group() != "_":
        spelling = word.group()
        kind = ("invalid" if spelling.startswith("__") else "keyword" if spelling in KEYWORDS
                else "reserved" if spelling in RESERVED else "id")
        return kind, word.end()
    numbers = [(found.end(), "number") for form in FLOATS if (found := form.match(text, at))]
    if found := INTEGERS.match(text, at):
        digits, suffix = found.groups()
        value = int(digits, 16 if digits[:2] in ("0x", "0X") else 10)
        numbers.append((found.end(), "number" if value <= LARGEST[suffix] else "invalid"))
    if numbers:
        end, kind = max(numbers)
        return kind, end
    for symbol in SYMBOLS:
        if text.startswith(symbol, at):
            return "symbol", at + len(symbol)
    return "invalid", at + 1


def tokens_of(text, at=0, opened=()):
    """The tokens of a text from a place on, where these brackets are open."""
    opened, before, word = list(opened), ("symbol", "<"), False
    while at < len(text):
        if text[at] == " ":
            at += 1
            continue
        kind, end = one_token(text, at)
        spelling = text[at:end]
        if spelling[0] == ">" and opened and opened[-1] == "list":
            kind, end, spelling = "end", at + 1, ">"
            opened.pop()
        elif spelling == "<" and (before[0] == "id" or before == ("keyword", "var")) and opens(text, at):
            kind = "start"
            opened.append("list")
        elif spelling in ("(", "["):
            opened.append("plain")
            if word and spelling == "(":
                kind = "arguments"
        elif spelling in (")", "]"):
            opened[-1:] = []
        yield kind, spelling, at, end
        word = before[1] == "@" and kind in ("id", "keyword", "reserved")
        at, before = end, (kind, spelling)


@functools.lru_cache(maxsize=None)
def opens(text, at):
    """Whether the rest of the text from this `<` on begins with a template list. Bare `&&` and `||` at the list's depth stop the
    reading: they are no tokens of the list."""
    reader, depth = Reader("template"), []
    reader.take(("start", "<", at, at + 1))
    for token in tokens_of(text, at + 1, ["list"]):
        kind, spelling = token[0], token[1]
        if not depth and spelling in ("&&", "||"):
            return False
        if not reader.take(token):
            return False
        if kind == "start" or spelling in ("(", "["):
            depth.append("list" if kind == "start" else "plain")
        elif kind == "end" or spelling in (")", "]"):
            if not depth:
                return reader.whole()
            depth.pop()
    return False


def fits(part, token):
    """Whether a token is what a rule names."""
    kind, spelling = token[0], token[1]
    if part == "id":
        return kind == "id"
    if part == "word":
        return kind in ("id", "keyword", "reserved")
    if part == "literal":
        return kind == "number" or spelling in ("true", "false")
    if part in ("'‹'", "'›'"):
        return kind == ("start" if part == "'‹'" else "end")
    if part == "'(@'":
        return kind == "arguments"
    return kind in ("symbol", "keyword", "reserved") and part == f"'{spelling}'"


class Reader:
    """Earley's algorithm. An item is a rule, one of its ways, how much of it was read, and the set where it began."""

    def __init__(self, start):
        self.start = start
        self.sets = []
        self.close([("", (start,), 0, 0)])

    def close(self, items):
        at = len(self.sets)
        found, waiting = dict.fromkeys(items), {}
        self.sets.append(waiting)
        work = list(found)

        def add(item):
            if item not in found:
                found[item] = None
                work.append(item)

        for item in work:
            head, way, read, began = item
            if read == len(way):
                for other, row, done, since in list(self.sets[began].get(head, ())):
                    add((other, row, done + 1, since))
                continue
            part = way[read]
            waiting.setdefault(part, []).append(item)
            if part in RULES:
                for row in RULES[part]:
                    add((part, row, 0, at))
                if part in EMPTY:
                    add((head, way, read + 1, began))
        self.last = found

    def take(self, token):
        """Reads one token. Whether some sentence goes on with it."""
        items = [(head, way, read + 1, began) for part, some in self.sets[-1].items() if part not in RULES and fits(part, token)
                 for head, way, read, began in some]
        if items:
            self.close(items)
        return bool(items)

    def whole(self):
        return ("", (self.start,), 1, 0) in self.last


# ---- The checks of arguments.

ONE = set("align binding blend_src group id location size if elif".split())
NONE = set("const invariant must_use vertex fragment compute publish else".split())
BUILTINS = set("""vertex_index instance_index clip_distances position front_facing frag_depth sample_index sample_mask local_invocation_id
local_invocation_index global_invocation_id workgroup_id num_workgroups subgroup_invocation_id subgroup_size""".split())
SEVERITIES = {"error", "warning", "info", "off"}
TYPES, SAMPLINGS = {"perspective", "linear", "flat"}, {"center", "centroid", "sample", "first", "either"}
SPACES, MODES = set("function private workgroup uniform storage".split()), {"read", "write", "read_write"}


def arguments(tokens, opening):
    """The arguments of a list that opens at this index, and the index of the token that closes it (or none)."""
    found, depth = [[]], 0
    for at in range(opening + 1, len(tokens)):
        kind, spelling = tokens[at][:2]
        if depth == 0 and (kind == "end" or spelling in (")", "]")):
            return (found if found[-1] else found[:-1]), at
        if depth == 0 and spelling == ",":
            found.append([])
            continue
        found[-1].append((kind, spelling))
        if kind == "start" or spelling in ("(", "["):
            depth += 1
        elif kind == "end" or spelling in (")", "]"):
            depth -= 1
    return None, None


def among(argument, names):
    return len(argument) == 1 and argument[0][1] in names


def attribute_fault(word, args):
    """What fails of an attribute; `args` is `None` where there are no parentheses."""
    count = None if args is None else len(args)
    if word in ONE:
        good = count == 1
    elif word in NONE:
        good = args is None
    elif word == "builtin":
        good = count == 1 and among(args[0], BUILTINS)
    elif word == "interpolate":
        good = count in (1, 2) and among(args[0], TYPES) and all(among(arg, SAMPLINGS) for arg in args[1:])
    elif word == "workgroup_size":
        good = count in (1, 2, 3)
    elif word == "diagnostic":
        shape = count == 2 and [kind for kind, _ in args[1]] in (["id"], ["id", "symbol", "id"]) and args[1][1:2] in ([], [("symbol", ".")])
        good = shape and [kind for kind, _ in args[0]] == ["id"]
        if good and not among(args[0], SEVERITIES):
            return "DiagnosticSeverity"
    else:
        good = True
    return None if good else "Attribute"


def failed_check(tokens):
    """The first check that fails among tokens that some sentence continues."""
    failed = []
    for at, (_, spelling, *_) in enumerate(tokens):
        before = tokens[at - 1][1] if at else ""
        behind = tokens[at + 1] if at + 1 < len(tokens) else ("", "")
        if before == "@":
            args, closing = arguments(tokens, at + 1) if behind[1] == "(" else (None, at)
            if closing is not None and (fault := attribute_fault(spelling, args)):
                failed.append((closing, fault))
        elif spelling == "var" and behind[0] == "start":
            args, closing = arguments(tokens, at + 1)
            if closing is not None and not (among(args[0], SPACES) and all(among(arg, MODES) for arg in args[1:]) and len(args) < 3):
                failed.append((closing, "VarTemplate"))
        elif spelling == "diagnostic":
            args, closing = arguments(tokens, at + 1) if behind[1] == "(" else (None, None)
            if closing is not None and not among(args[0], SEVERITIES):
                failed.append((closing, "DiagnosticSeverity"))
    return min(failed, default=None)


def fault(start, text):
    """The fault of a text, or `none`."""
    reader, read = Reader(STARTS[start]), []
    answer = None
    for token in tokens_of(text):
        if not reader.take(token):
            kind = {"invalid": "InvalidToken", "reserved": "ReservedWord"}.get(token[0], "UnexpectedToken")
            answer = f"{kind} {token[2]}..{token[3]}"
            break
        read.append(token)
    if not answer and not reader.whole():
        answer = f"UnexpectedEof {len(text)}..{len(text)}"
    failed = failed_check(read)
    # of a check and a text that end together the end of the text is told
    if failed and not (answer and answer.startswith("UnexpectedEof") and read[failed[0]][3] == len(text)):
        closing, kind = failed
        return f"{kind} {read[closing][2]}..{read[closing][3]}"
    return answer or "none"


# ---- The samples: tokens with spaces between them.

SAMPLES = """
import: import a ;
import: @ if ( f ) @ x import package :: { a as b , c :: { d , e } , } ;
import: import super :: super :: a :: b as c ;
directive: diagnostic ( off , a . b , ) ;
directive: diagnostic ( info , a ) ;
directive: enable f16 , a ;
directive: requires a , b , ;
directive: @ a @ if ( b ) diagnostic ( off , c ) ;
directive: @ else enable a ;
directive: @ a ( b ) requires c ;
declaration: @ group ( 0 ) @ binding ( 1 , ) var < storage , read_write > b : array < vec4 < u32 > , 2 > = f ( ) ;
declaration: var < private > x = - 1 ;
declaration: @ x ( ) var < workgroup , > a : b ;
declaration: @ id ( 1 ) override a : f32 = 1.5 ;
declaration: override a ;
declaration: const a : i32 = 0x1F ;
declaration: alias a = package :: b :: c < d > ;
declaration: struct S { a : i32 , @ size ( 16 ) @ align ( 4 ) b : super :: c , }
declaration: struct S { @ else a : b }
declaration: @ compute @ workgroup_size ( 1 , 2 , 3 ) fn f ( @ builtin ( position ) a : vec4 < f32 > , @ x b : T , ) { }
declaration: fn f ( ) -> @ location ( 0 ) @ interpolate ( flat , center ) T @ y { return ; }
declaration: @ must_use @ diagnostic ( off , a . b ) fn f ( a : T ) -> T { ; }
declaration: @ interpolate ( linear ) @ diagnostic ( warning , a , ) @ blend_src ( 1 ) @ import @ fn ( a ) fn f ( ) { }
declaration: @ if ( a ) const b = 1 ;
declaration: @ a ( ) alias b = c ;
declaration: @ a struct b { @ c d : e }
declaration: @ a @ elif ( b ) const_assert c ;
declaration: const_assert a < b ;
declaration: const_assert a < b > ( c ) ;
declaration: ;
module: @ a import b ; @ c enable d ; @ e const f = 1 ; @ g struct h { i : j } ; @ k ( ) const_assert l ;
module: @ x import a ; import b ; enable c ; requires d ; ; const a = 1 ; var b : i32 ; @ vertex fn f ( ) { }
module: diagnostic ( error , a ) ; diagnostic ( off , b . c ) ; alias a = b ; struct c { d : e } ; const_assert f ;
module: import super :: a :: { b } ; @ if ( a ) fn c ( ) { if d { } else { } } @ else var e : f ; override g = 1 ;
statement: ;
statement: @ x { ; { } a ++ ; }
statement: @ a if b @ c { } else if d @ e { } else @ f { }
statement: if ( a < b ) { return c ; } else if e { } else if g { }
statement: @ a switch b @ c { case 1 , default , : { } default { } case d @ e { break ; } }
statement: switch ( a ) { case a + 1 : { } case default { } default : @ b { } }
statement: @ a loop @ b { c ( ) ; continuing @ d { e -- ; break if f ; } }
statement: loop { break ; continuing { } }
statement: @ a for ( var b = 0 ; b < 4 ; b ++ ) @ c { continue ; }
statement: for ( ; ; ) { }
statement: for ( a = 1 ; ; b ( ) ) { discard ; }
statement: for ( let a = 1 ; c ; _ = d ) { }
statement: for ( const a : b = 1 ; c ; d . e += 2 ) { }
statement: @ a while b @ c { }
statement: break ;
statement: continue ;
statement: return ;
statement: return - a ;
statement: discard ;
statement: const_assert a == 1 ;
statement: var < function > a : vec2 < i32 > = b ;
statement: var a ;
statement: let a : b = c ;
statement: const a = 1u ;
statement: f ( a , b , ) ;
statement: package :: a :: f < b > ( ) ;
statement: @ a break ;
statement: @ if ( a ) return ;
statement: @ a ( ) return b ;
statement: @ a @ b continue ;
statement: @ else discard ;
statement: @ a const_assert b ;
statement: @ a let b = 1 ;
statement: @ a @ b ( c ) var < function > d : e ;
statement: @ a b ( ) ;
statement: @ a * b = 1 ;
statement: @ a & b ++ ;
statement: @ a _ = b ;
statement: @ a b . c += 1 ;
statement: @ a ( b ) ( c ) . d = 1 ;
statement: @ a @ b ( ) ( c ) [ 0 ] -- ;
statement: @ a ( b ) @ c ( d ) ( * e ) ++ ;
statement: ( a ) = 1 ;
statement: { @ if ( a ) return ; ; @ else { } @ b c = 1 ; @ d ( e ) ( f ) = 1 ; ( g ) ++ ; }
statement: loop { @ a break ; continuing { @ b c ( ) ; break if d ; } }
statement: for ( ( a ) = 1 ; b ; ( c ) ++ ) { }
statement: switch a { case b { @ c break ; } }
statement: * a . b [ c ] = d ;
statement: ( * & a ) [ 1 ] . b <<= 2 ;
statement: _ = a ;
statement: & super :: a ++ ;
statement: a [ b < c ] -- ;
statement: a -= b ;
statement: a >>= b ;
statement: a ^= b [ c ] . d ;
kind: const
kind: override
kind: let
kind: var
kind: var < storage >
kind: var < storage , read_write , >
kind: var < workgroup , >
expression: a + b * c - d / - e % f
expression: a && b < c && ! d
expression: a || ( b && c ) || d == e
expression: a & b & ~ c
expression: a | - b | c
expression: a ^ * b ^ & c
expression: a << b >= c + 1
expression: a >> b != c << d
expression: - a . b [ c ] . d
expression: f ( a , g ( ) , ) [ 0 ] . x
expression: ( a ) . b
expression: a < b , c < d > , > ( e )
expression: a < b < c , 1 > > ( true , false )
expression: array < a , ( b > c ) , d [ e >= f ] , > ( )
expression: super :: super :: a :: b < package :: c > . d
expression: a < ( b ) * c
expression: a > b
expression: a <= b
expression: a < ( b && c ) , d << 1 > ( e )
expression: 1 . x * 2.5f
"""
REPLACEMENTS = "; ) } { , = z 1 @ fn else target __x ( < import".split()


def spaced(tokens):
    return " ".join(tokens)


def tight(tokens):
    """The tokens with spaces between words and numbers alone."""
    return re.sub(r"(?<![\w]) | (?![\w])", "", " ".join(tokens))


def changes(tokens):
    """Token lists with one token left out; then those with one doubled, or one replaced."""
    few = [tokens[:at] + tokens[at + 1:] for at in range(len(tokens))]
    doubled = [tokens[:at + 1] + tokens[at:] for at in range(len(tokens))]
    many = [tokens[:at] + [other] + tokens[at + 1:] for at in range(len(tokens)) for other in REPLACEMENTS if other != tokens[at]]
    return few, doubled, many


def evenly(some, count):
    return [some[at * len(some) // count] for at in range(count)]


def chosen():
    """Pairs of a start and a text: each sample, what leaves out a token, and evenly of what doubles or replaces one, so many that there
    are not too many in all. Every third text has no spaces but between words."""
    samples, few, doubled, many = [], [], [], []
    for line in SAMPLES.strip().split("\n"):
        start, text = line.split(": ", 1)
        tokens = text.split()
        assert fault(start, text) == "none", line
        samples.append((start, tokens))
        for found, made in zip((few, doubled, many), changes(tokens)):
            found += [(start, change) for change in made]
    pairs = [(start, spaced(tokens)) for start, tokens in samples] + [(start, tight(tokens)) for start, tokens in samples]
    picked = few + evenly(doubled, len(doubled) // 3)
    picked += evenly(many, MOST - len(pairs) - len(picked))
    pairs += [(start, tight(tokens) if at % 3 == 0 else spaced(tokens)) for at, (start, tokens) in enumerate(picked)]
    return list(dict.fromkeys(pairs))


def made_lines():
    return [f"fault\t{start}\t{text}\t{fault(start, text)}" for start, text in chosen()]


def main():
    with open(path(CRATE, NAME), encoding="utf-8") as file:
        kept = file.read().split(MARK)[0].rstrip("\n").split("\n")
    lines = kept + [MARK] + made_lines()
    count = write(CRATE, NAME, lines)
    print(f"{count} cases, {len(lines)} lines, longest {max(map(len, lines))}")


if __name__ == "__main__":
    main()
