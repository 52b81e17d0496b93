"""The Python module on the stored texts and remainders, on refusals, and on random lists of calls against an exact check."""
import pathlib
import random
import re
import sys
import unittest

import exact
import misqafur

ROOT = pathlib.Path(__file__).resolve().parents[2]
PRIMES = [2, 3, 5, 7, 11, 13, 17, 19, 23, 29, 31, 37, 41, 43, 47, 53, 59, 61]


def printed(text):
    """What the program prints of a text, made from the module's answers."""
    def line(*words):
        return " ".join(str(word) for word in words if word != ()) + "\n"
    try:
        sheet, values = misqafur.read(text)
    except misqafur.Refusal as refusal:
        return line("refused", refusal.number, refusal.record)
    coefficients = [{e: c for c, e in polynomial.terms} for polynomial in [*sheet.basis, sheet.interpolate(values)]]
    lines = [line("points", len(sheet), "standard", len(sheet.standard), "rows", len(sheet.basis))]
    lines += [line("standard", *e) for e in sheet.standard]
    lines += [line("row", *lead, ":", *(row.get(e, 0) for e in sheet.standard)) for lead, row in zip(sheet.leads, coefficients)]
    lines += [line("interpolant", *(coefficients[-1].get(e, 0) for e in sheet.standard)), line("wiring", *sheet.wiring(values))]
    return "".join(lines)


def terms_of(block):
    for line in block:
        coefficient, exponents = line.split(":")
        yield int(coefficient), [int(e) for e in exponents.split()]


class Stored(unittest.TestCase):
    def test_texts(self):
        texts = sorted((ROOT / "tests/texts").glob("*/*.csv"))
        self.assertGreater(len(texts), 500)
        for text in texts:
            with self.subTest(text.name):
                self.assertEqual(printed(text.read_bytes()), text.with_suffix(".txt").read_text())

    def test_remainders(self):
        tried = 0
        for file in sorted((ROOT / "tests/remainders").glob("*.rem")):
            lines = file.read_text().splitlines()
            modulus, genes, order = map(int, lines[0].split()[1:])
            states = [[int(level) for level in line.split()[1:]] for line in lines if line.startswith("state ")]
            sheet = misqafur.Sheet(modulus, genes, order).draw_up(states)
            terms = []
            for line in lines:
                if line.startswith("terms "):
                    terms = []
                elif line.startswith("term "):
                    terms += terms_of([line[5:]])
                elif line.startswith("remainder"):
                    due = misqafur.Polynomial(modulus, sheet.names, zip(map(int, line.split()[1:]), sheet.standard))
                    self.assertEqual(sheet.remainder(terms), due, file.name)
                    tried += 1
        self.assertGreater(tried, 200)


class Refusals(unittest.TestCase):
    def refused(self, number, call, *arguments):
        with self.assertRaises(misqafur.Refusal) as caught:
            call(*arguments)
        self.assertEqual(caught.exception.number, number)
        self.assertIn(misqafur.REFUSALS[number][0], str(caught.exception))

    def test_settings(self):
        for modulus in (-3, 0, 1, 4, 62, 67, 2**64 + 5):
            self.refused(3, misqafur.Sheet, modulus, 2)
        for genes in (0, 9, 200, -1, 2**64 + 2, ["a"] * 9, []):
            self.refused(4, misqafur.Sheet, 5, genes)
        for order in ("Lex", "", 4, -1, "by weight"):
            self.refused(5, misqafur.Sheet, 5, 2, order)
        self.refused(3, misqafur.Sheet, 4, 9, "no")
        with self.assertRaises(TypeError):
            misqafur.Sheet(5, "g1")

    def test_calls(self):
        sheet = misqafur.Sheet(5, 2, "grlex").draw_up([(0, 0), (1, 2), (2, 1)])
        before = [bytes(table) for table in sheet._tables.values()]
        for number, call, *arguments in (
                (7, sheet.add, (1,)), (7, sheet.add, (1, 2, 3)), (9, sheet.add, (5, 0)), (9, sheet.add, (0, 300)), (9, sheet.add, (4, 260)),
                (9, sheet.add, (-252, 4)),
                (12, sheet.withdraw, (4, 4)), (9, sheet.withdraw, (0, -5)), (7, sheet.withdraw, ()), (7, sheet.draw_up, [(1, 2), (3,)]),
                (7, sheet.draw_up, [(1,), (2, 3, 4)]), (13, sheet.draw_up, [(4, 0), (0, 0)] * 128 + [(-1, 0)] * 128),
                (9, sheet.draw_up, [(0, -129)]), (7, sheet.interpolate, [1, 2]), (9, sheet.interpolate, [1, 2, 5]), (7, sheet.wiring, []),
                (8, sheet.remainder, [(1, (0, 0))] * 257), (9, sheet.remainder, [(7, (0, 0))]), (9, sheet.remainder, [(1, (0, 0, 1))]),
                (7, sheet.remainder, [(1, (0,))])):
            with self.subTest(f"{call.__name__} {arguments}"):
                self.refused(number, call, *arguments)
        self.assertEqual([bytes(table) for table in sheet._tables.values()], before)
        wide = misqafur.Sheet(61, 2, "grlex").draw_up([(i % 61, i // 61) for i in range(64)])
        for number, call, *arguments in (
                (8, wide.add, (60, 60)), (9, wide.add, (60, 61)), (8, wide.draw_up, [(i % 61, i // 61) for i in range(65)] * 256),
                (9, wide.draw_up, [(i % 61, i // 61) for i in range(65)] + [(0, 61)])):
            self.refused(number, call, *arguments)
        sheet._tables["coefficients"][1] ^= 1
        self.refused(10, sheet.check)
        for place, count in ((0, 0), (2, 0), (3, 1), (63, 255)):
            damaged = misqafur.Sheet(5, 2, "grlex").draw_up([(0, 0), (1, 2), (2, 1)])
            damaged._tables["counts"][place] = count
            for call, *arguments in ((damaged.check,), (damaged.add, (4, 4)), (damaged.withdraw, (0, 0)), (damaged.interpolate, [0, 0, 0]),
                                     (damaged.remainder, []), (damaged.wiring, [0, 0, 0])):
                self.refused(10, call, *arguments)
        for values in ([1.5, 0, 0], ["a", 0, 0], [None, 0, 0], [float("nan"), 0, 0]):
            with self.assertRaises(TypeError):
                sheet.interpolate(values)

    def test_header_says_the_same(self):
        header = (ROOT / "include/misqafur.h").read_text()
        sentences = re.findall(r'return "([^"]*)";', header)[1:-1]
        self.assertEqual(sentences, [misqafur.REFUSALS[number][0] for number in sorted(misqafur.REFUSALS)])
        self.assertEqual(sorted(misqafur.REFUSALS), list(range(1, len(sentences) + 1)))
        self.assertIn(f"#define MISQAFUR_ABI {misqafur.ABI}\n", header)
        for name, size in misqafur.TABLES.items():
            self.assertIn(f"#define MISQAFUR_{name.upper()}_SIZE {size}\n", header)
        prototypes = set(re.findall(r"^uint\d+_t misqafur_(\w+)\(", header, re.M))
        self.assertEqual(prototypes | {f"abi_{misqafur.ABI}"}, set(misqafur._CALLS))


class RandomCalls(unittest.TestCase):
    """Lists of additions and withdrawals beside a plain list of states and counts, each sheet by the exact check and drawn up anew."""

    def answered(self, sheet, chance):
        values = [chance.randrange(1 - sheet.modulus, sheet.modulus) for _ in sheet.states]
        interpolant = sheet.interpolate(values)
        self.assertEqual(list(exact.solution_faults(sheet, interpolant, values)), [])
        self.assertEqual(sheet.wiring(values), exact.wiring(sheet, values))
        self.assertEqual([interpolant(s) for s in sheet.states], [v % sheet.modulus for v in values])
        terms = [(chance.randrange(sheet.modulus), [chance.randrange(9) for _ in sheet.names]) for _ in range(chance.randrange(6))]
        at_states = [sum(c * exact.value(sheet.modulus, e, s) for c, e in terms) for s in sheet.states]
        self.assertEqual(list(exact.solution_faults(sheet, sheet.remainder(terms), at_states)), [])

    def one_list(self, chance):
        modulus, genes = chance.choice(PRIMES), chance.randrange(1, 9)
        order = exact.any_order(chance, genes)
        sheet, counts = misqafur.Sheet(modulus, genes, **order), {}
        for _ in range(chance.randrange(1, 40)):
            levels = [chance.randrange(1 - modulus, modulus) for _ in range(genes)]
            if counts and chance.random() < 0.4:
                levels = [x - modulus * (x > 0) for x in chance.choice(list(counts))]
            state, add = tuple(x % modulus for x in levels), chance.random() < 0.75
            for _ in range(chance.choice((1, 1, 1, 2, 300)) if add and chance.random() < 0.1 else 1):
                due = (13 if counts.get(state) == 255 else 0) if add else 0 if state in counts else 12
                try:
                    (sheet.add if add else sheet.withdraw)(levels)
                    self.assertEqual(due, 0)
                    counts[state] = counts.get(state, 0) + (1 if add else -1)
                    counts = {state: count for state, count in counts.items() if count}
                except misqafur.Refusal as refusal:
                    self.assertEqual(refusal.number, due)
                self.assertEqual((sheet.states, sheet.counts), (list(counts), list(counts.values())))
        self.assertEqual(list(exact.faults(sheet)), [])
        pots = [state for state, count in counts.items() for _ in range(count)]
        chance.shuffle(pots)
        drawn = misqafur.Sheet(modulus, genes, **order).draw_up(pots)
        self.assertEqual((drawn.standard, drawn.basis), (sheet.standard, sheet.basis))
        self.assertEqual(dict(zip(drawn.states, drawn.counts)), counts)
        self.assertTrue(sheet.check())
        self.answered(sheet, chance)

    def test_lists(self):
        chance = random.Random(1)
        for i in range(150):
            with self.subTest(list=i):
                self.one_list(chance)

    def test_full_sheets(self):
        chance = random.Random(2)
        for modulus, genes in ((2, 8), (3, 4), (61, 1), (61, 8), (31, 2), (5, 3)):
            for _ in range(5):
                states = set()
                while len(states) < min(64, modulus**genes):
                    states.add(tuple(chance.randrange(modulus) for _ in range(genes)))
                sheet = misqafur.Sheet(modulus, genes, **exact.any_order(chance, genes)).draw_up(list(states))
                self.assertEqual(list(exact.faults(sheet)), [])
                self.answered(sheet, chance)

    def test_replicates(self):
        """The example of the requirement: 4, 0 and -1 modulo 5 are two states, the first seen twice; it goes with its last pot."""
        sheet = misqafur.Sheet(5, 1).draw_up([(4,), (0,), (-1,)])
        self.assertEqual((sheet.states, sheet.counts, len(sheet)), ([(4,), (0,)], [2, 1], 2))
        once = misqafur.Sheet(5, 1).draw_up([(4,), (0,)])
        self.assertEqual((sheet.basis, sheet.cancellations), (once.basis, once.cancellations))
        self.assertEqual(sheet.withdraw((4,)).counts, [1, 1])
        self.assertEqual((sheet.withdraw((-1,)).states, sheet.counts), ([(0,)], [1]))
        sheet, values = misqafur.read(b"a,mod 5\n4,1\n0,2\n-1,-4\n")
        self.assertEqual((sheet.states, sheet.counts, values), ([(4,), (0,)], [2, 1], [1, 2]))

    def test_cancellations(self):
        """The example of the requirement, in two orders of arrival; no other call answers them."""
        sheet = misqafur.Sheet(3, 2, "grlex").draw_up([(0, 0), (1, 2), (2, 1)])
        self.assertEqual(sheet.cancellations, 3)
        self.assertEqual(sheet.draw_up([(1, 2), (2, 1), (0, 0)]).cancellations, 6)
        self.assertIsNone(sheet.withdraw((0, 0)).cancellations)
        self.assertIsNone(sheet.add((0, 0)).cancellations)

    def test_the_check_notices(self):
        """The exact check itself: a changed number anywhere in a sheet is a fault."""
        for table, place in (("states", 9), ("standard", 8), ("leads", 0), ("leads", 17), ("coefficients", 1), ("coefficients", 130)):
            sheet = misqafur.Sheet(5, 2, "grlex").draw_up([(0, 0), (1, 2), (2, 1)])
            sheet._tables[table][place] = (sheet._tables[table][place] + 1) % 5
            self.assertNotEqual(list(exact.faults(sheet)), [], (table, place))


if __name__ == "__main__":
    sys.exit(not unittest.main(exit=False).result.wasSuccessful())
