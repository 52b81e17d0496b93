#!/usr/bin/env python3
"""Write the stored cases of the test program basis_test: points, and what the calls must answer and leave for them.

usage: tools/basis_cases.py CASES STDOUT [PATTERN]
Writes the cases to the file CASES (crates/basis_test/data/cases) and what the program prints for them to STDOUT
(crates/basis_test/stdout); of the cases only those whose names match PATTERN, if it is given. They are made of
tests/texts/vectors (NAME.csv with what the program prints for it in NAME.txt), tests/remainders (NAME.rem: the same
points, two polynomials and their remainders) and tests/cancellations (a line for each NAME: how many cancellations
drawing up these points takes). The bases, interpolants and remainders were computed by Singular 4.3.1 and agree with
Macaulay2 1.21.

A case is a head of 20 bytes and, in this order: levels and values, as signed bytes; the bytes that the tables of
points, standard monomials, leading monomials, coefficients and counts begin with; the interpolant; 8 bytes, 1 for each
variable of the wiring list; and two polynomials, each its number of terms, their coefficients as signed bytes, 8
exponents a term, and the remainder. The head: modulus (2 bytes, the lowest first, as in all numbers of two), variables,
order, refusal and number of points (1 byte each); then two bytes each: the number of rows, of levels, of levels before
the last point, and of the bytes of points, leading monomials and coefficients; and the cancellations. Of the
coefficients of a polynomial every second is written as the negative level of the same residue. Where
there are two points or more and room for it (512 levels), the first one is offered twice. A case that is refused has
its levels, at most 512, behind the head, and nothing else.
"""
import fnmatch, os, sys

sys.dont_write_bytecode = True
from text_cases import TESTS, levels_in, write

VECTORS = os.path.join(TESTS, "texts", "vectors")
REMAINDERS = os.path.join(TESTS, "remainders")
CANCELLATIONS = os.path.join(TESTS, "cancellations")


def signed(levels):
    return bytes(level % 256 for level in levels)


def padded(numbers, size=8):
    return bytes(numbers) + bytes(size - len(numbers))


def lines(path):
    """The lines of a stored result as first word and numbers; colons only part the numbers."""
    with open(path) as file:
        for line in file:
            words = line.replace(":", " ").split()
            yield words[0], [int(word) for word in words[1:] if word.isdigit()]


def printed(path, m):
    """Tables, interpolant and wiring list from what the program prints."""
    standard, leads, coefficients = b"", b"", b""
    for word, numbers in lines(path):
        if word == "points":
            n, _, r = numbers
        elif word == "standard":
            standard += padded(numbers)
        elif word == "row":
            leads += padded(numbers[:m])
            coefficients += padded(numbers[m:], 64)
        elif word == "interpolant":
            interpolant = bytes(numbers)
        elif word == "wiring":
            wiring = bytes(k in numbers for k in range(1, 9))
    assert len(standard) == 8 * n and len(leads) == 8 * r and len(interpolant) == n
    return r, standard, leads, coefficients, interpolant + wiring


def polynomials(path, p, states):
    """The two polynomials with their remainders."""
    found, points, terms = b"", [], []
    for word, numbers in lines(path):
        if word == "state":
            points.append(numbers)
        elif word == "terms":
            terms = []
        elif word == "term":
            terms.append(numbers)
        elif word == "remainder":
            levels = [c - p if c and k % 2 else c for k, (c, *_) in enumerate(terms)]
            found += bytes([len(terms)]) + signed(levels) + b"".join(padded(term[1:]) for term in terms) + bytes(numbers)
    assert b"".join(padded(point) for point in points) == states
    return found


def head(settings, refusal, n, *words):
    p, m, order = settings[:3]
    return p.to_bytes(2, "little") + bytes([m, order, refusal, n]) + b"".join(word.to_bytes(2, "little") for word in words)


def counts():
    """The cancellations by name."""
    with open(CANCELLATIONS) as file:
        return {name: int(count) for name, count in map(str.split, file)}


def accepted(name, cancellations):
    text, result = (os.path.join(VECTORS, name + end) for end in (".csv", ".txt"))
    with open(text, "rb") as file:
        settings, records = levels_in(file.read())
    p, m = settings[:2]
    levels = [level for record in records for level in record[:m]]
    states = b"".join(padded([level % p for level in record[:m]]) for record in records)
    r, standard, leads, coefficients, answers = printed(result, m)
    counts = [1] * len(records)
    if 2 <= len(records) and len(levels) + m <= 512:
        levels, counts[0] = levels[:m] + levels, 2
    before = max(len(levels) - m, 0)
    sizes = (len(states), len(leads), len(coefficients))
    front = head(settings, 0, len(records), r, len(levels), before, *sizes, cancellations)
    given = signed(levels) + signed(record[m] for record in records)
    tables = states + standard + leads + coefficients + bytes(counts)
    return front + given + tables + answers + polynomials(os.path.join(REMAINDERS, name + ".rem"), p, states)


def refused(settings, levels, refusal):
    return head(settings, refusal, 0, 0, len(levels), 0, 0, 0, 0, 0) + signed(levels)


def refusals():
    """The examples of docs/SCOPE.md that are refused, by name: moduli, numbers of variables, orders, no weights where they are
    wanted, a 65th point, a 256th replicate."""
    primes = [p for p in range(2, 62) if all(p % d for d in range(2, p))]
    for p in [p for p in range(68) if p not in primes] + [256 + p for p in primes]:
        yield "modulus-%d" % p, refused((p, 1, 0), [1], 3)
    for m in (0, 9, 16, 64, 255):
        yield "variables-%d" % m, refused((61, m, 2), [1] * m, 4)
    for order in (4, 255):
        yield "order-%d" % order, refused((61, 1, order), [1], 5)
    yield "order-3-without-weights", refused((61, 1, 3), [1], 15)
    points = [level for k in range(64) for level in (k % 11 - 11 * (k % 3 == 0 < k % 11), k // 11)]
    for name, last in (("outside", [11, 0]), ("far", [127, -128])):
        yield "points-64-%s" % name, refused((11, 2, 1), points[:-2] + last, 9)
        yield "points-65-%s" % name, refused((11, 2, 1), points + last, 9)
    yield "points-65-new", refused((11, 2, 1), points + [9, 5], 8)
    yield "points-65-new-and-again", refused((11, 2, 1), points + [9, 5] + points, 8)
    yield "replicates-256", refused((11, 2, 1), [-1, 3, 10, 3] * 128, 13)
    yield "replicates-256-outside", refused((11, 2, 1), [-1, 3, 10, 3] * 127 + [10, 3, 10, 11], 9)


def print_of(cases):
    bases = [case for case in cases if case[4] == 0]
    added = sum(case[5] > 0 for case in bases)
    lines = [("bases drawn up", len(bases)), ("last points added", added), ("interpolants", len(bases)),
             ("wiring lists", len(bases)), ("remainders", 2 * len(bases)), ("lists refused", len(cases) - len(bases))]
    lines.append(("sum", sum(count for _, count in lines)))
    return "".join("%s: %d passed, 0 failed\n" % line for line in lines)


def main():
    names = sorted(name[:-4] for name in os.listdir(REMAINDERS))
    counted = counts()
    found = dict([(name, accepted(name, counted[name])) for name in names] + list(refusals()))
    chosen = fnmatch.filter(found, sys.argv[3] if len(sys.argv) > 3 else "*")
    write([found[name] for name in chosen], print_of, *sys.argv[1:3])


if __name__ == "__main__":
    main()
