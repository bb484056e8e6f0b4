#!/usr/bin/env python3
"""Writes cases of template lists for the program `weslc_cases`: texts chosen by hand with the answers that the grammar gives,
and texts made at random, from fixed seeds, with what a plain slow reading of the grammar makes of each.

usage: tools/template_cases.py        It writes crates/weslc_cases/data/lists.txt, and says how many lists there are.

The plain reading shares nothing with the lexer: for each part of the grammar it finds all places where such a part may end, with
memory and no thought of what comes next, and it reads the whole text behind each `<`. An answer shows each token by its spelling, the
start of a list as `‹` and its end as `›`.
"""

import functools
import os
import random

FILE = os.path.join(os.path.dirname(os.path.abspath(__file__)), "..", "crates", "weslc_cases", "data", "lists.txt")

SYMBOLS = """<<= >>= && -> == != >= >> <= << -- ++ || += -= *= /= %= &= |= ^= ::
& @ / ! [ ] { } : , = > < % - . + | ( ) ; * ~ _ ^""".split()
KEYWORDS = {"true", "false", "var", "package", "super"}

# ---- Tokens: pairs of a spelling and whether it is the start or the end of a list.


def longest(text, at):
    """The longest piece at a place."""
    c = text[at]
    if c.isalpha() or c.isdigit():
        end = at
        while end < len(text) and (text[end].isalnum() if c.isalpha() else text[end].isdigit()):
            end += 1
        return text[at:end]
    return next(symbol for symbol in SYMBOLS if text.startswith(symbol, at))


def is_word(token):
    spelling, mark = token
    return mark is None and spelling[0].isalpha() and (spelling not in KEYWORDS or spelling == "var")


def read(text, opened):
    """The tokens of a text, where these brackets are open, the last one at the end."""
    tokens, at = [], 0
    opened = list(opened)
    while at < len(text):
        if text[at] == " ":
            at += 1
            continue
        piece = longest(text, at)
        mark = None
        if piece[0] == ">" and opened and opened[-1] == "list":
            piece, mark = ">", "end"
        elif piece == "<" and tokens and is_word(tokens[-1]) and opens(text[at + 1:]):
            mark = "start"
        at += len(piece)
        tokens.append((piece, mark))
        if mark == "start":
            opened.append("list")
        elif mark == "end" or piece in (")", "]"):
            opened[-1:] = []
        elif piece in ("(", "["):
            opened.append("plain")
    return tokens


@functools.lru_cache(maxsize=None)
def opens(behind):
    """Whether a `<` before this text opens a list: what is read behind it begins with the inside of one."""
    return bool(Reading(tuple(read(behind, ["list"]))).ends("list", 0))


# ---- The grammar: all places where a part that begins at a place may end.

PREFIXES, FACTORS, TERMS = ("-", "!", "~", "*", "&"), ("*", "/", "%"), ("+", "-")
BITWISE, LOGICAL, SHIFTS, COMPARISONS = ("&", "|", "^"), ("&&", "||"), ("<<", ">>"), ("<", "<=", ">", ">=", "==", "!=")


class Reading:
    def __init__(self, tokens):
        self.tokens = tokens
        self.known = {}

    def ends(self, part, at):
        if (part, at) not in self.known:
            self.known[part, at] = frozenset(getattr(self, part)(at))
        return self.known[part, at]

    def sign(self, at, *spellings):
        return at < len(self.tokens) and self.tokens[at][1] is None and self.tokens[at][0] in spellings

    def mark(self, at, mark):
        return at < len(self.tokens) and self.tokens[at][1] == mark

    def word(self, at):
        return at < len(self.tokens) and self.tokens[at][0][0].isalpha() and self.tokens[at][0] not in KEYWORDS

    def chain(self, starts, operators, part):
        """Behind any number of an operator of these and a part."""
        found, left = set(), set(starts)
        while left:
            at = left.pop()
            if at not in found:
                found.add(at)
                if self.sign(at, *operators):
                    left |= self.ends(part, at + 1)
        return found

    def then(self, starts, *spellings):
        return {at + 1 for at in starts if self.sign(at, *spellings)}

    def name(self, at):
        starts = {at}
        if self.sign(at, "package"):
            starts = self.then({at + 1}, "::")
        else:
            while any(self.sign(at, "super") for at in starts):
                starts = self.then({at + 1 for at in starts}, "::")
        found, left = set(), starts
        while left:
            at = left.pop()
            if self.word(at):
                found.add(at + 1)
                left |= self.then({at + 1}, "::")
        return found

    def type(self, at):
        names = self.ends("name", at)
        return names | {end for start in names if self.mark(start, "start") for end in self.ends("list", start + 1)}

    def primary(self, at):
        found = set(self.ends("type", at))
        for start in self.then(found, "("):
            found |= self.ends("arguments", start)
        if at < len(self.tokens) and (self.tokens[at][0][0].isdigit() or self.sign(at, "true", "false")):
            found.add(at + 1)
        if self.sign(at, "("):
            found |= self.then(self.ends("expression", at + 1), ")")
        return found

    def arguments(self, at):
        found, left = set(), {at}
        while left:
            at = left.pop()
            found |= self.then({at}, ")")
            behind = self.ends("expression", at)
            found |= self.then(behind, ")")
            left |= self.then(behind, ",")
        return found

    def singular(self, at):
        found, left = set(), set(self.ends("primary", at))
        while left:
            at = left.pop()
            if at in found:
                continue
            found.add(at)
            if self.sign(at, ".") and self.word(at + 1):
                left.add(at + 2)
            if self.sign(at, "["):
                left |= self.then(self.ends("expression", at + 1), "]")
        return found

    def unary(self, at):
        found = set(self.ends("singular", at))
        return found | self.ends("unary", at + 1) if self.sign(at, *PREFIXES) else found

    def product(self, at):
        return self.chain(self.ends("unary", at), FACTORS, "unary")

    def sum(self, at):
        return self.chain(self.ends("product", at), TERMS, "product")

    def shift(self, at):
        shifted = {end for start in self.then(self.ends("unary", at), *SHIFTS) for end in self.ends("unary", start)}
        return self.ends("sum", at) | shifted

    def relational(self, at):
        shifts = self.ends("shift", at)
        return shifts | {end for start in self.then(shifts, *COMPARISONS) for end in self.ends("shift", start)}

    def item(self, at):
        found = set(self.ends("relational", at))
        for operator in BITWISE:
            found |= self.chain(self.ends("unary", at), [operator], "unary")
        return found

    def expression(self, at):
        found = set(self.ends("item", at))
        for operator in LOGICAL:
            found |= self.chain(self.ends("relational", at), [operator], "relational")
        return found

    def list(self, at):
        found, left = set(), {at}
        while left:
            items = self.ends("item", left.pop())
            left |= self.then(items, ",")
            found |= {end + 1 for start in (items, self.then(items, ",")) for end in start if self.mark(end, "end")}
        return found


def shown(tokens):
    return " ".join({"start": "‹", "end": "›"}.get(mark, spelling) for spelling, mark in tokens)


# ---- By hand: WGSL's own examples and the like.

BY_HAND = [
    ("a < b || c > d", "a < b || c > d"),
    ("a<b||c>(d)", "a < b || c > ( d )"),
    ("a < b && c > d", "a < b && c > d"),
    ("(a<b,c>(d))", "( a ‹ b , c › ( d ) )"),
    ("a(b<c,d>(e))", "a ( b ‹ c , d › ( e ) )"),
    ("a(b<1,c>1)", "a ( b ‹ 1 , c › 1 )"),
    ("a[b<d]>()", "a [ b < d ] > ( )"),
    ("a[b<c>d]", "a [ b ‹ c › d ]"),
    ("a[b<c>]", "a [ b ‹ c › ]"),
    ("(a<b>)", "( a ‹ b › )"),
    ("(a<b)>c", "( a < b ) > c"),
    ("a<b>", "a ‹ b ›"),
    ("a<b,>", "a ‹ b , ›"),
    ("a<b,,>", "a < b , , >"),
    ("a<>", "a < >"),
    ("a<,>", "a < , >"),
    ("a<b<c>>", "a ‹ b ‹ c › ›"),
    ("a<b<c<d>>>", "a ‹ b ‹ c ‹ d › › ›"),
    ("a<b<c>>=1", "a ‹ b ‹ c › › = 1"),
    ("a<b>>=c", "a ‹ b › >= c"),
    ("a<b>==c", "a ‹ b › == c"),
    ("a<b>=c", "a ‹ b › = c"),
    ("a<b<=c>", "a ‹ b <= c ›"),
    ("a<b>>c", "a ‹ b › > c"),
    ("a<(b>c)>", "a ‹ ( b > c ) ›"),
    ("a<(b>>c)>", "a ‹ ( b >> c ) ›"),
    ("a<b[c>d]>", "a ‹ b [ c > d ] ›"),
    ("a<(b&&c)>1", "a ‹ ( b && c ) › 1"),
    ("a<b(c||d)>", "a ‹ b ( c || d ) ›"),
    ("a<b&c>", "a ‹ b & c ›"),
    ("a<b&c|d>", "a < b & c | d >"),
    ("a<b|c|d>", "a ‹ b | c | d ›"),
    ("a<b<c", "a < b < c"),
    ("a<b<c>", "a < b ‹ c ›"),
    ("a<b<c>d>", "a < b ‹ c › d >"),
    ("a<1+2*3,-b>", "a ‹ 1 + 2 * 3 , - b ›"),
    ("a<b<<c>", "a ‹ b << c ›"),
    ("a<b<<c<<d>", "a < b << c << d >"),
    ("a<b==c>", "a ‹ b == c ›"),
    ("a<b==c==d>", "a < b == c == d >"),
    ("1<b>c", "1 < b > c"),
    (")<b>c", ") < b > c"),
    ("var<a>b", "var ‹ a › b"),
    ("super<a>", "super < a >"),
    ("a<super::b>", "a ‹ super :: b ›"),
    ("a<super::super::b::c>", "a ‹ super :: super :: b :: c ›"),
    ("a<package::b>", "a ‹ package :: b ›"),
    ("a<package::super::b>", "a < package :: super :: b >"),
    ("a<b::super::c>", "a < b :: super :: c >"),
    ("a<package>", "a < package >"),
    ("a::b<c>::d", "a :: b ‹ c › :: d"),
    ("a<b<c>::d>", "a < b ‹ c › :: d >"),
    ("a<b.c[1].d>", "a ‹ b . c [ 1 ] . d ›"),
    ("a<b(c)(d)>", "a < b ( c ) ( d ) >"),
    ("a<b(c).d>", "a ‹ b ( c ) . d ›"),
    ("a<&b>", "a ‹ & b ›"),
    ("a<*b*c>", "a ‹ * b * c ›"),
    ("a<b;c>", "a < b ; c >"),
    ("a<b=c>", "a < b = c >"),
    ("a<b", "a < b"),
    ("a <b , c> d", "a ‹ b , c › d"),
    ("array<i32,select(2,3,a>b)>", "array ‹ i32 , select ( 2 , 3 , a > b ) ›"),
    ("a<b(,)>", "a < b ( , ) >"),
    ("a<b(c,)>", "a ‹ b ( c , ) ›"),
    ("a<b()>", "a ‹ b ( ) ›"),
]

# a text that begins with `<`, and whether that opens a list
STARTS = [
    ("<X<Y<Z>>>", True),
    ("<b || c>d", False),
    ("<b>", True),
    ("<b,c>d", True),
    ("<b<c>", False),
    ("<<b>>", False),
    ("<=b>", False),
    ("b>", False),
    ("", False),
    ("<", False),
    (" <b>", False),
    ("<(b||c)>", True),
]

# a text, and whether the tokens behind the first one begin with a list; `$` is no token, and ends them
BEHIND_FIRST = [
    ("a<b>", True),
    ("a<b>c", True),
    ("a<b<c>>", True),
    ("a<b", False),
    ("a b<c>", False),
    ("a<b>(c) $ d", True),
    ("a<b || c>d", False),
    ("a<b $ c>", False),
    ("a", False),
    ("", False),
]

# a text's parts: so often the first, then the second, and so often the last; how many lists and tokens there are, and how many
# entries the table of the lists has, one for each character
LONG = [
    (4000, "a<", "", "", "0 lists, 8000 tokens, 8000 entries"),
    (4000, "a<a>", "", "", "4000 lists, 16000 tokens, 16000 entries"),
    (500, "a<", "a", ">", "500 lists, 1501 tokens, 1501 entries"),
    (500, "a<(", "a", ")>", "500 lists, 2501 tokens, 2501 entries"),
    (500, "a<(", "", "", "0 lists, 1500 tokens, 1500 entries"),
    (4000, "a(", "a", ")", "0 lists, 12001 tokens, 12001 entries"),
    (20000, "a<b,", "", "", "0 lists, 80000 tokens, 80000 entries"),
    (20000, "a<b,", "c>", "", "1 lists, 80002 tokens, 80002 entries"),
    (20000, "a<b&&", "", "", "0 lists, 80000 tokens, 100000 entries"),
    (20000, "a<b[", "", "", "0 lists, 80000 tokens, 80000 entries"),
    (20000, "a<(", "a", ")>", "20000 lists, 100001 tokens, 100001 entries"),
]

# ---- At random.

PIECES = (["a", "b"] * 7 + ["<"] * 8 + [">"] * 8 + [",", "(", ")", "[", "]"] * 2
          + ["1", "true", "var", "super", "package", "::", ".", "&&", "||", "&", "|", "+", "-", "*", "%", "!", "==", "=", ">>", "<<", ";", " "])


def spaced(pieces):
    """The text of some pieces, with a blank where two would be one word or number."""
    text = ""
    for piece in pieces:
        if text and (text[-1].isalnum() or text[-1] == ".") and (piece[0].isalnum() or piece[0] == "."):
            if not (text[-1].isalpha() and piece[0] == ".") and not (text[-1] == "." and piece[0].isalpha()):
                text += " "
        text += piece
    return text


def at_random(random_numbers):
    return [random_numbers.choice(PIECES) for _ in range(random_numbers.randint(3, 12))]


def an_operand(n, depth):
    kind = n.randint(0, 9) if depth else n.randint(0, 3)
    if kind <= 3:
        return [n.choice(["a", "b", "1", "true"])]
    if kind <= 5:
        return ["a", "<"] + separated(n, depth - 1) + [">"]
    if kind == 6:
        return ["("] + an_expression(n, depth - 1) + [")"]
    if kind == 7:
        return ["b", "("] + separated(n, depth - 1) + [")"]
    if kind == 8:
        return ["a", "["] + an_expression(n, depth - 1) + ["]"]
    return [n.choice(["-", "!", "*", "&"])] + an_operand(n, depth - 1)


def an_expression(n, depth):
    pieces = an_operand(n, depth)
    while n.random() < 0.35:
        pieces += [n.choice(["+", "*", "<", ">", "&", "|", "&&", "||", "==", "<<", ">>", ">="])] + an_operand(n, depth)
    return pieces


def separated(n, depth):
    pieces = an_expression(n, depth)
    while n.random() < 0.3:
        pieces += [","] + an_expression(n, depth)
    return pieces + ([","] if n.random() < 0.1 else [])


def near_grammar(n):
    """An expression, in which a piece is sometimes lost or exchanged."""
    pieces = an_expression(n, 3)
    if n.random() < 0.5 and pieces:
        at = n.randrange(len(pieces))
        pieces[at:at + 1] = n.choice([[], [n.choice(PIECES)]])
    return pieces


def random_texts():
    n = random.Random(1)
    texts = []
    while len(texts) < 400:
        text = spaced(at_random(n) if n.random() < 0.4 else near_grammar(n)).strip()
        if "<" in text and "//" not in text and len(text) <= 60 and text not in texts:
            texts.append(text)
    return texts


def main():
    lines = ["# Tokens of texts by hand: `‹` starts a list, `›` ends one"]
    for text, answer in BY_HAND:
        assert shown(read(text, [])) == answer, (text, answer, shown(read(text, [])))
        lines.append(f"lex\t{text}\t{answer}")
    lines += ["", "# Whether a text begins with a `<` that opens a list"]
    for text, answer in STARTS:
        assert (text[:1] == "<" and longest(text, 0) == "<" and opens(text[1:])) == answer, text
        lines.append(f"recognize\t{text}\t{str(answer).lower()}")
    lines += ["", "# Whether the tokens behind the first one begin with a list"]
    for text, answer in BEHIND_FIRST:
        lines.append(f"tokens\t{text}\t{str(answer).lower()}")
    lines += ["", "# Long texts"]
    for count, first, middle, last, answer in LONG:
        lines.append(f"repeat\t{count}\t{first}\t{middle}\t{last}\t{answer}")
    lines += ["", "# Texts at random"]
    lists, texts = 0, random_texts()
    for text in texts:
        answer = shown(read(text, []))
        lists += "‹" in answer
        lines.append(f"lex\t{text}\t{answer}")
    os.makedirs(os.path.dirname(FILE), exist_ok=True)
    with open(FILE, "w", encoding="utf-8") as file:
        file.write("\n".join(lines) + "\n")
    print(f"{len(BY_HAND)} texts by hand, {len(texts)} at random, of which {lists} have lists")


if __name__ == "__main__":
    main()
