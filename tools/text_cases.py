#!/usr/bin/env python3
"""Write the cases of the test program csv_test: stored texts with what the text reader must answer and leave.

usage: tools/text_cases.py CASES STDOUT [STEP]
Writes the cases to the file CASES (crates/csv_test/data/texts) and what the program prints for them to STDOUT
(crates/csv_test/stdout); of the cases only every STEP-th, if it is given. They are made of the folders of tests/texts
(NAME.csv with the expected print in NAME.txt) and of tests/c/data/fuzz.txt (lines `HEX -> refused N R` and
`HEX -> read P M ORDER N`). Points and values are read by Python's own csv module, and replicates counted here.

A case is 16 bytes, the text, and for an accepted text 8n bytes of points, n of values, n of counts and 8 of weights. The 16
bytes: the text's length (3 bytes, the lowest first), the lengths to lend for states (2), values, counts and weights (1 each),
refusal (1), record (2), modulus (2), variables, order and n (1 each).
"""
import csv, io, os, re, sys

ORDERS = {"": 2, "lex": 0, "grlex": 1, "grevlex": 2, "weight": 3}
LAST_FIELD = r"mod ([0-9]{1,3})(?: (lex|grlex|grevlex)| (weight)((?: [0-9]{1,2})*))?"
BUFFERS = ("states", "values", "counts", "weights")
TESTS = os.path.join(os.path.dirname(os.path.abspath(__file__)), "..", "tests")


def records_in(text):
    """The settings, with as many weights as names by weight and else none, and the levels of a text without faults of form, the
    value of each record last, by Python's csv module."""
    rows = list(csv.reader(io.StringIO(text.decode("latin-1"), newline=""), strict=True))
    modulus, plain, weight, numbers = re.fullmatch(LAST_FIELD, rows[0][-1]).groups("")
    m, weights = len(rows[0]) - 1, tuple(int(word) for word in numbers.split())
    levels = [[int(field) for field in row] for row in rows[1:]]
    assert all(len(row) == m + 1 for row in levels) and len(weights) == (m if weight else 0)
    return (int(modulus), m, ORDERS[plain or weight], weights), levels


def gathered(points):
    """The distinct points in the order in which each came first, with how often it came."""
    return [(point, points.count(point)) for point in dict.fromkeys(points)]


def refusal_of(settings, records):
    """The refusal among 9, 8, 13 and 14 of a text's records, with the record; None if there is none. Each is looked for over
    all records before the next."""
    (p, m, *_), times, values, late = settings, {}, {}, {}
    for at, record in enumerate(records, 2):
        if any(abs(level) >= p for level in record):
            return 9, at
    for at, record in enumerate(records, 2):
        point, value = tuple(level % p for level in record[:m]), record[m] % p
        times[point] = times.get(point, 0) + 1
        if len(times) > 64:
            return 8, at
        if times[point] > 255:
            late.setdefault(13, at)
        if values.setdefault(point, value) != value:
            late.setdefault(14, at)
    return min(late.items(), default=None)


def levels_in(text):
    """The settings and the levels of an accepted text."""
    settings, levels = records_in(text)
    assert refusal_of(settings, levels) is None
    return settings, levels


def read(text):
    """What an accepted text says."""
    (p, m, order, weights), levels = levels_in(text)
    held = gathered([tuple(level % p for level in row[:m]) for row in levels])
    values = {tuple(level % p for level in row[:m]): row[m] % p for row in levels}
    points = b"".join(bytes(point) + bytes(8 - m) for point, _ in held)
    counts = bytes(count for _, count in held)
    return (p, m, order, len(held)), points + bytes(values[point] for point, _ in held) + counts + bytes(weights) + bytes(8 - len(weights))


def case(text, settings=None, refusal=0, record=0, states=520, values=70, counts=68, weights=12):
    """One case; settings are what an accepted text must have, where they are stored too."""
    said, behind = (0, 0, 0, 0), b""
    if refusal == 0:
        said, behind = read(text)
        assert settings is None or settings == said, (settings, said)
    p, m, order, n = said
    head = len(text).to_bytes(3, "little") + states.to_bytes(2, "little") + bytes([values, counts, weights, refusal])
    return head + record.to_bytes(2, "little") + p.to_bytes(2, "little") + bytes([m, order, n]) + text + behind


def stored(folder):
    for name in sorted(os.listdir(folder)):
        if not name.endswith(".csv"):
            continue
        with open(os.path.join(folder, name), "rb") as file:
            text = file.read()
        with open(os.path.join(folder, name[:-4] + ".txt")) as file:
            words = file.readline().split()
        if words[0] == "refused":
            yield case(text, refusal=int(words[1]), record=int(words[2]))
            continue
        told = re.search(r"-p(\d+)-m(\d+)-n(\d+)-(\w+)$", name[:-4])
        settings = told and (int(told[1]), int(told[2]), ORDERS[told[4]], int(told[3]))
        assert read(text)[0][3] == int(words[1])
        yield case(text, settings or None)


def fuzz(path):
    with open(path) as file:
        for line in file:
            text, told = line.split(" -> ") if not line.startswith("-> ") else ("", line[3:])
            words = told.split()
            numbers = tuple(int(word) for word in words[1:])
            if words[0] == "refused":
                yield case(bytes.fromhex(text), refusal=numbers[0], record=numbers[1])
            else:
                yield case(bytes.fromhex(text), numbers)


def lengths():
    """Short and long buffers: refusal 6, with what comes before and behind it."""
    good = b"g1,g2,mod 5 weight 2 1\n0,0,1\n1,2,0\n"
    for sizes in ((512, 64, 64, 8), (520, 64, 64, 8), (512, 70, 64, 8), (512, 64, 68, 8), (512, 64, 64, 12)):
        yield case(good, **dict(zip(BUFFERS, sizes)))
    many = b"a,b,mod 61\n" + b"".join(b"%d,%d,1\n" % (k % 61, k // 61) for k in range(65))
    often = b"a,mod 5\n" + b"4,1\n" * 255 + b"-1,1\n"
    for sizes in ((511, 64, 64, 8), (512, 63, 64, 8), (512, 64, 63, 8), (512, 64, 64, 7), (0, 0, 0, 0), (520, 0, 68, 12), (0, 70, 68, 12),
                  (520, 70, 0, 12), (520, 70, 68, 0)):
        lent = dict(zip(BUFFERS, sizes))
        for text in (good, b"a,mod 5\n5,1\n", b"a,mod 5\n4,1\n-1,2\n", many, often):
            yield case(text, refusal=6, **lent)
        yield case(b"a,mod 6\n", refusal=3, record=1, **lent)
        yield case(b"mod 5\n", refusal=4, record=1, **lent)
        yield case(b"a,mod 5 weight 0\n", refusal=15, record=1, **lent)
        yield case(b"a,mod 5\n1\n", refusal=2, record=2, **lent)
    yield case(many, refusal=8, record=66)
    yield case(often, refusal=13, record=257)


def weights():
    """Headers with weights: as many as there are names, each of one or two digits and none of them 0; 15 behind 3 and 4."""
    for m in range(1, 9):
        names = b"".join(b"g%d," % k for k in range(m))
        for text in (b"%smod 7 weight%s\n", b'%s"mod 7 weight%s"\r\n'):
            yield case(text % (names, b" 1" * m))
            yield case(text % (names, b"".join(b" %02d" % (99 - 13 * k) for k in range(m))))
            for k in range(m):
                yield case(text % (names, b" 7" * k + b" 0" + b" 99" * (m - k - 1)), refusal=15, record=1)
                yield case(text % (names, b" 7" * k + b" 100" + b" 99" * (m - k - 1)), refusal=2, record=1)
            for told in (b" 1" * (m - 1), b" 1" * (m + 1), b" 1" * (m - 1) + b" ", b" 1" * m + b" ", b"  1" * m, b" 1" * (m - 1) + b" -1"):
                yield case(text % (names, told), refusal=2, record=1)
    for m, told, refusal in ((0, b"", 4), (0, b" 1", 2), (9, b" 1" * 9, 4), (9, b" 0" * 9, 4), (9, b" 1" * 8, 2), (9, b" 1" * 8 + b" 100", 2), (40, b" 09" * 40, 4)):
        yield case(b"a," * m + b"mod 5 weight" + told + b"\n", refusal=refusal, record=1)
    for last, refusal in ((b"mod 4 weight 0", 3), (b"mod 5 Weight 1", 2), (b"mod 5 weights 1", 2), (b"mod 5 weight1", 2), (b"mod 5  weight 1", 2),
                          (b"mod 5 grlex 1", 2), (b"mod 5weight 1", 2)):
        yield case(b"a," + last + b"\n", refusal=refusal, record=1)
    yield case(b"a,mod 5 weight 0\n1\n", refusal=2, record=2)
    yield case(b"a,mod 5 weight 0\n7,1\n", refusal=15, record=1)


def write(cases, print_of, cases_file, stdout_file):
    """The cases and the print due for them."""
    assert cases
    with open(cases_file, "wb") as file:
        file.write(b"".join(cases))
    with open(stdout_file, "w") as file:
        file.write(print_of(cases))


def print_of(cases):
    return "%d passed\n" % len(cases)


def main():
    cases = [c for name in ("vectors", "refusals", "edges", "lex-word", "M-104", "replicates", "M-106", "M-109") for c in stored(os.path.join(TESTS, "texts", name))]
    cases += fuzz(os.path.join(TESTS, "c", "data", "fuzz.txt"))
    cases += lengths()
    cases += weights()
    write(cases[:: int(sys.argv[3]) if len(sys.argv) > 3 else 1], print_of, *sys.argv[1:3])


if __name__ == "__main__":
    main()
