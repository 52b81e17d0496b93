#!/usr/bin/env python3
"""Looks for a multiplication, division or remainder of residues in the code of the crates below: products of residues
are worked out by doubling and adding (docs/changes/M-102.md). Residues and exponents are u8, numbers that count or
index are wider, so an operand's type decides; the exponents that are halved are listed.
Comments and contracts are not code. Says `products: N multiplications and divisions, none of residues`, or each one
that is of residues or that this script cannot read, and then ends with status 1.

Each run first tries the search itself: every edit in TRIES of a small source that passes has to be noticed.
"""
import pathlib
import re
import sys

ROOT = pathlib.Path(__file__).resolve().parent.parent
# Every crate that crates.txt lists but those of text and programs, so that a new one is looked at too.
OTHERS = {"notation", "comma_text", "writing", "json_text", "printing", "misqafur", "misqafur_cli", "csv_test", "basis_test"}
CRATES = [name for name in re.findall(r"^(\w+):", (ROOT / "crates.txt").read_text(), re.MULTILINE) if name not in OTHERS]
COUNTS = {"usize", "u32", "u64"}
HALVED = {("power", "left"), ("multiply_powers", "left")}
TOKEN = re.compile(r"[A-Za-z_]\w*|\d\w*|'\w+|[-+*/%=<>!&|]=|->|=>|::|\.\.=?|<<|>>|&&|\|\||[^\s\w]")
OPERATORS = {"*", "/", "%", "*=", "/=", "%="}
# What goes on with an operand.
FURTHER = {"as", ".", "[", "("}


class Unclear(Exception):
    """Code that this script does not understand, and so cannot judge."""


def closing(tokens, at):
    """Where the bracket that opens at a place is closed."""
    pairs, depth = {"(": ")", "[": "]", "{": "}"}, 0
    for i in range(at, len(tokens)):
        depth += (tokens[i] in pairs) - (tokens[i] in pairs.values())
        if depth == 0:
            return i
    raise Unclear("a bracket is not closed")


def opening(tokens, at):
    """Where the bracket that closes at a place was opened."""
    pairs, depth = {")": "(", "]": "[", "}": "{"}, 0
    for i in range(at, -1, -1):
        depth += (tokens[i] in pairs) - (tokens[i] in pairs.values())
        if depth == 0:
            return i
    raise Unclear("a bracket is not opened")


def functions(source):
    """Each function of a file: its name, the types of its parameters, its answer's type and the tokens of its body."""
    source = re.sub(r"//[^\n]*", "", source)
    source = re.sub(r'b?"(\\.|[^"\\])*"', "0", source)
    source = re.sub(r"^\s*(ghost )?use [^;]*;", "", source, flags=re.M)
    tokens, found, i = TOKEN.findall(source), [], 0
    while i < len(tokens):
        if tokens[i] != "fn":
            if tokens[i] in OPERATORS:
                raise Unclear(f"`{tokens[i]}` outside a function")
            i += 1
            continue
        name, i = tokens[i + 1], i + 2
        while tokens[i] != "(":
            i += 1
        end = closing(tokens, i)
        text = " ".join(tokens[i + 1:end])
        kinds = dict(re.findall(r"(\w+) : ((?:& )?(?:' ?\w+ )?(?:mut )?(?:\[ )?\w+)", text))
        answer, i = None, end + 1
        if tokens[i] == "->":
            answer, i = tokens[i + 1], i + 2
        while tokens[i] != "{" or tokens[i - 1] in ("requires", "ensures") or tokens[i - 2] in ("requires", "ensures"):
            i = closing(tokens, i) + 1 if tokens[i] == "{" else i + 1
        end = closing(tokens, i)
        found.append((name, kinds, answer, tokens[i + 1:end]))
        i = end + 1
    return found


def scalar(kind):
    """The type of a number or of a list's entry."""
    return kind.split()[-1] if kind else None


class Reader:
    """The types of one function's names and operands."""

    def __init__(self, name, kinds, body, answers):
        self.name, self.kinds, self.body, self.answers = name, dict(kinds), body, answers
        # Twice, since a name may be compared with one that is declared behind it.
        for i, token in list(enumerate(body)) * 2:
            if token == "let":
                self.declare(i + 1 + (body[i + 1] == "mut"))
            if token == "for":
                self.loop(i + 1)

    def declare(self, i):
        name, body = self.body[i], self.body
        if body[i + 1] == ":":
            self.kinds[name] = body[i + 2] if body[i + 2] != "[" else body[i + 3]
        elif body[i + 1] == "=":
            self.kinds[name] = self.expression(i + 2) or self.compared(name)

    def compared(self, name):
        """The type of a name that begins as a plain number: that of what it is compared with."""
        for i, token in enumerate(self.body[:-2]):
            if token == name and self.body[i + 1] in ("<", "<=", "==", "!="):
                kind = self.operand(i + 2)[0]
            elif token in ("<", "<=", "==", "!=") and self.body[i + 1] == name and self.body[i + 2] not in FURTHER:
                kind = self.operand(self.before(i))[0]
            else:
                continue
            if kind:
                return kind
        return None

    def loop(self, i):
        """The names that a loop binds: over numbers the one is of their type; over the items of a list, counted or not, an item's number is an index and the
        item of the list's type; others are of no known type."""
        start = self.body.index("in", i)
        end = start
        while self.body[end] != "{":
            end = closing(self.body, end) + 1 if self.body[end] in ("(", "[") else end + 1
        names = [name for name in self.body[i:start] if re.match(r"[A-Za-z_]\w*$", name)]
        self.kinds.update(dict.fromkeys(names))
        first = start + 1 + (self.body[start + 1] == "(")
        whole = first == start + 1 or self.body[closing(self.body, start + 1) + 1:end] in ([], [".", "rev", "(", ")"])
        if "(" not in self.body[i:start] and whole and self.ranges(first):
            self.kinds[names[0]] = self.bound(first)
            return
        # The first of two names is a count where the items are counted last of all.
        if self.body[i] == "(" and self.body[i + 2] == "," and self.body[end - 4:end] == [".", "enumerate", "(", ")"]:
            self.kinds[names[0]] = "usize"
        items = [token for token in self.body[start + 1:end] if token not in ("&", "mut")]
        if items[1:] in ([], [".", "iter", "(", ")"], [".", "iter", "(", ")", ".", "enumerate", "(", ")"]):
            self.kinds[names[-1]] = scalar(self.kinds.get(items[0]))

    def ranges(self, i):
        """Whether what begins at a place are the numbers of a range: two dots stand in it, and not inside an index."""
        while self.body[i] not in ("{", ")"):
            if self.body[i] in ("..", "..="):
                return True
            i = closing(self.body, i) + 1 if self.body[i] in ("(", "[") else i + 1
        return False

    def bound(self, i):
        """The type of a loop's index: that of a bound that has one, else that of an index."""
        kinds = [self.expression(i)]
        while self.body[i] not in ("..", "..="):
            i += 1
        kinds.append(self.expression(i + 1))
        return next((kind for kind in kinds if kind), "usize")

    def expression(self, i):
        """The type of what begins at a place, from the first operand that has one."""
        while i < len(self.body) and self.body[i] not in (";", "{", "..", "..=", ",", ")"):
            if self.body[i] in ("if", "loop", "match"):
                return None
            if re.match(r"[\w(\[&]", self.body[i]) and self.body[i] not in ("mut", "&"):
                kind, i = self.operand(i)
                if kind:
                    return kind
            else:
                i += 1
        return None

    def operand(self, i):
        """The type of the operand that begins at a place, and where it ends."""
        body, token = self.body, self.body[i]
        kind = None
        if token[0].isdigit():
            suffix = re.search(r"(u8|u16|u32|u64|usize|i8|i16)$", token)
            kind, i = suffix.group(1) if suffix else None, i + 1
        elif token in ("(", "["):
            kind, i = self.expression(i + 1), closing(body, i) + 1
        else:
            while i + 1 < len(body) and body[i + 1] == "::":
                i += 2
            token = body[i]
            kind, i = scalar(self.kinds.get(token)), i + 1
            if i < len(body) and body[i] == "(":
                kind, i = self.answers.get(token), closing(body, i) + 1
        while i < len(body):
            if body[i] == "[":
                i = closing(body, i) + 1
            elif body[i] == "." and body[i + 1] == "len":
                kind, i = "usize", i + 4
            elif body[i] == ".":
                kind, i = self.answers.get("." + body[i + 1]), i + 2
            elif body[i] == "as":
                kind, i = body[i + 1], i + 2
            else:
                break
        return kind, i

    def before(self, i):
        """The operand that ends before a place: where it begins."""
        j = i - 1
        if j >= 2 and self.body[j - 1] == "as":
            j -= 2
        while self.body[j] in (")", "]"):
            j = opening(self.body, j) - (1 if re.match(r"\w", self.body[opening(self.body, j) - 1]) else 0)
        while j >= 2 and self.body[j - 1] in (".", "::"):
            j -= 2
        if not re.match(r"[\w(]", self.body[j]):
            raise Unclear(f"{self.name}: the operand before `{self.body[i]}`")
        return j

    def reads(self, i):
        """Whether a star stands before what it reads, and is no operator: nothing that it could multiply ends before it."""
        return self.body[i] == "*" and not re.match(r"[\w)\]?}>]", self.body[i - 1] if i else "") or self.body[i - 1] in ("return", "in", "else", "match", "if", "mut")

    def index(self, i):
        """Whether a number made an index stands at a place, and nothing is done with it there: its type says nothing of what it was made from, but so many times
        an index is no product of two residues."""
        while self.body[i] == "(":
            i += 1
        return self.body[i:i + 4] == ["usize", "::", "from", "("] and self.body[closing(self.body, i + 3) + 1] not in FURTHER

    def judge(self, i):
        """What is wrong with the operator at a place, or None."""
        text = " ".join(self.body[max(0, i - 6):i + 7])
        begin = self.before(i)
        kinds = {self.operand(begin)[0], self.operand(i + 1)[0]} - {None}
        literals = all(self.body[j][0].isdigit() for j in (begin, i + 1))
        indexed = self.body[i] == "*" and self.body[begin][0].isdigit() and self.index(i + 1)
        if self.body[begin] in {name for where, name in HALVED if where == self.name} and self.body[i + 1] == "2":
            return None
        if literals or indexed or (kinds and kinds <= COUNTS):
            return None
        return f"{self.name}: {'a residue' if kinds else 'an operand of no known type'} in `{text}`"


def judged(sources):
    """How many operators there are, and what is wrong with them."""
    parsed = [one for source in sources for one in functions(source)]
    answers = {"count_ones": "u32", ".count_ones": "u32", **{name: answer for name, _, answer, _ in parsed}}
    for source in sources:
        for fields in re.findall(r"struct \w+ \{([^}]*)\}", source):
            answers.update({"." + name: kind for name, kind in re.findall(r"(\w+): (\w+)", fields)})
    count, wrong = 0, []
    for name, kinds, _, body in parsed:
        reader = Reader(name, kinds, body, answers)
        for i, token in enumerate(body):
            if token in OPERATORS and not reader.reads(i):
                count += 1
                problem = reader.judge(i)
                wrong += [problem] if problem else []
    return count, wrong


TRY = """
// x * y
pub fn power(p: u8, x: u8, e: u8) -> u8
    requires { ⌜ x * y < p ⌝ }
{
    let mut left = e;
    while 0 < left {
        if left % 2 == 1 { x = mul(p, x, x); }
        left = left / 2;
    }
    let from = 8 * e as usize;
    from as u8
}
fn put(n: usize, p: u8, to: &mut [u8], from: &[u8]) {
    for i in 0..n {
        let place = 64 * i;
        to[place] = from[8 * i + 1];
    }
    for (i, x) in from.iter().enumerate() {
        to[usize::from(i * 2)] = mul(p, *x, to[i]);
    }
}
"""
TRIES = (
    ("x = mul(p, x, x)", "x = x * x % p"),
    ("x = mul(p, x, x)", "x *= x"),
    ("left = left / 2", "left = left / p"),
    ("let mut left = e", "let mut left = e % p"),
    ("from[8 * i + 1]", "from[8 * i + 1] * from[i]"),
    ("from[8 * i + 1]", "3 * from[i]"),
    ("from[8 * i + 1]", "(from[i] as u16 * from[n] as u16 % p as u16) as u8"),
    ("from[8 * i + 1]", "from[i] % p"),
    ("let place = 64 * i", "let place = 64 * p as u16"),
    ("let place = 64 * i", "let place = 64 * unknown"),
    ("from as u8", "2 * x"),
    ("mul(p, *x, to[i])", "*x * to[i]"),
    ("mul(p, *x, to[i])", "*x % p"),
    ("mul(p, *x, to[i])", "(u32::from(*x) * u32::from(to[i]) % u32::from(p)) as u8"),
    ("mul(p, *x, to[i])", "usize::from(*x) * usize::from(p)"),
    ("mul(p, *x, to[i])", "{ let y = inverse(p, *x)? * to[i]; y }"),
    ("mul(p, *x, to[i])", "{ let y = if n == 0 { p } else { *x } * to[i]; y }"),
    ("mul(p, *x, to[i])", "{ let y = { *x } * to[i]; y }"),
    ("for (i, x) in from.iter().enumerate() {", "for (x, (i, y)) in from.iter().zip(to.iter().enumerate()) { let z = *x * *x;"),
    ("for (i, x) in from.iter().enumerate() {", "for x in from[0..n].iter() { let z = *x * *x;"),
    ("for (i, x) in from.iter().enumerate() {", "for x in (0..n).map(|i| from[i]) { let z = x * x;"),
    ("mul(p, *x, to[i])", "{ let mut y = 1; while n < y as usize { y = y * y; } y }"),
    ("mul(p, *x, to[i])", "8 * usize::from(*x).pow(2)"),
    ("mul(p, *x, to[i])", "60 % usize::from(p)"),
)


def tries():
    """The edits of a small source that are not noticed."""
    if judged([TRY]) != (6, []):
        return [f"the small source is refused: {judged([TRY])}"]
    missed = []
    for old, new in TRIES:
        try:
            if old not in TRY or not judged([TRY.replace(old, new)])[1]:
                missed.append(f"not noticed: {new}")
        except Unclear:
            pass
    return missed


def main():
    missed = tries()
    sources = [path.read_text() for crate in CRATES for path in sorted((ROOT / "crates" / crate / "src").rglob("*.rt"))]
    try:
        count, wrong = judged(sources)
    except Unclear as unclear:
        count, wrong = 0, [str(unclear)]
    for line in missed + wrong:
        print("products:", line)
    if missed or wrong or not count:
        return 1
    print(f"products: {count} multiplications and divisions, none of residues")
    return 0


if __name__ == "__main__":
    sys.exit(main())
