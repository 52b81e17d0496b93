"""A gene left out: by its name or its number, against drawing up the shortened states; what is refused, and in which words; that
the sheet from which it is left out stays; and reports without a gene."""
import copy
import itertools
import pickle
import random
import subprocess
import sys
import unittest

import exact
import misqafur
from test_names import kept

GENES = ["Rb", "E2F", "CycA"]
STATES = [(0, 0, 1), (1, 2, 0), (2, 1, 0), (1, 0, 1), (1, 2, 0)]


def shortened(state, place):
    return (*state[:place], *state[place + 1:])


def drawn_without(sheet, place):
    """The sheet of the states without a gene, drawn up with their counts by what is left of the settings."""
    weights = shortened(sheet.weights, place) if sheet.weights else None
    pots = [shortened(state, place) for state, count in zip(sheet.states, sheet.counts) for _ in range(count)]
    return misqafur.Sheet(sheet.modulus, shortened(sheet.names, place), sheet.order, weights=weights).draw_up(pots)


class Leaving(unittest.TestCase):
    def same(self, left, drawn):
        drawn.cancellations = None
        self.assertEqual((kept(left), repr(left)), (kept(drawn), repr(drawn)))

    def test_by_name_and_number(self):
        for order in ({"order": "lex"}, {"order": "grlex"}, {"order": "grevlex"}, {"weights": [3, 1, 2]}):
            sheet = misqafur.Sheet(5, GENES, **order).draw_up(STATES)
            for place, gene in enumerate(GENES):
                for named in (gene, place + 1, float(place + 1)):
                    self.same(sheet.without(named), drawn_without(sheet, place))
        self.assertEqual(misqafur.Sheet(5, GENES, weights=[3, 1, 2]).without("E2F").weights, (3, 2))

    def test_equal_states_are_one(self):
        """At the place of the first, with their counts added; there are then as many values."""
        left = misqafur.Sheet(5, GENES).draw_up(STATES).without("Rb")
        self.assertEqual((left.names, left.states, left.counts), (("E2F", "CycA"), [(0, 1), (2, 0), (1, 0)], [2, 2, 1]))
        self.assertIsNone(left.cancellations)
        self.assertTrue(left.check())
        self.assertEqual(left.interpolate([1, 0, 3])((2, 0)), 0)
        with self.assertRaises(misqafur.Refusal) as caught:
            left.interpolate([1, 0, 3, 1])
        self.assertIn("One value is wanted for each different state, 3", str(caught.exception))

    def test_wiring_tells_whether_values_are_left(self):
        """Two states that become one have different values exactly where the wiring list names the gene."""
        chance = random.Random(5)
        for _ in range(60):
            sheet = misqafur.Sheet(3, 3).draw_up([[chance.randrange(2) for _ in range(3)] for _ in range(6)])
            values = [chance.randrange(2) for _ in range(len(sheet))]
            for gene in (1, 2, 3):
                pairs = set(zip((shortened(state, gene - 1) for state in sheet.states), values))
                self.assertEqual(gene in sheet.wiring(values), len(pairs) > len(sheet.without(gene)))

    def test_random(self):
        chance = random.Random(7)
        for _ in range(120):
            modulus, genes = chance.choice((2, 3, 5, 61)), chance.randrange(2, 9)
            most = min(modulus, chance.choice((2, 3, 61)))
            states = [[chance.randrange(most) for _ in range(genes)] for _ in range(chance.randrange(30))]
            sheet = misqafur.Sheet(modulus, genes, **exact.any_order(chance, genes)).draw_up(states)
            gene = chance.randrange(1, genes + 1)
            left = sheet.without(gene)
            self.same(left, drawn_without(sheet, gene - 1))
            self.assertEqual(list(exact.faults(left)), [])

    def test_either_order(self):
        sheet = misqafur.Sheet(5, GENES, weights=[3, 1, 2]).draw_up(STATES)
        for first, second in itertools.permutations(GENES, 2):
            self.assertEqual(kept(sheet.without(first).without(second)), kept(sheet.without(second).without(first)))

    def test_the_sheet_stays(self):
        for order in ({}, {"weights": [3, 1, 2]}):
            sheet = misqafur.Sheet(5, GENES, **order).draw_up(STATES)
            before, said = kept(sheet), (repr(sheet), sheet.cancellations)
            left = sheet.without("CycA")
            after = kept(left)
            self.assertEqual((kept(sheet), (repr(sheet), sheet.cancellations)), (before, said))
            sheet.draw_up([(4, 4, 4)])
            self.assertEqual(kept(left), after)
            for made in (copy.copy(left), pickle.loads(pickle.dumps(left))):
                self.assertEqual(kept(made), after)
                made.add({"E2F": 4, "Rb": 3})
                self.assertEqual(kept(left), after)
            self.assertTrue(left.add((4, 4)).withdraw((4, 4)).check())

    def test_unknown_names(self):
        sheet = misqafur.Sheet(5, GENES).draw_up(STATES)
        for gene in ("rb", "", "1", "Rb "):
            with self.assertRaises(ValueError) as caught:
                sheet.without(gene)
            self.assertEqual(str(caught.exception), f"{gene!r} is no gene of this sheet: they are 'Rb', 'E2F', 'CycA'")
        with self.assertRaises(ValueError) as caught:
            misqafur.Sheet(5, ["a", "b", "a"]).without("a")
        self.assertEqual(str(caught.exception), "'a' stands more than once among the genes: they are 'a', 'b', 'a'")
        self.assertEqual(misqafur.Sheet(5, ["a", "b", "a"]).without(3).names, ("a", "b"))
        for gene in (None, 1.5, ["Rb"], b"Rb"):
            with self.subTest(gene), self.assertRaises(TypeError):
                sheet.without(gene)

    def refused(self, sheet, gene, number, said):
        before = kept(sheet)
        with self.assertRaises(misqafur.Refusal) as caught:
            sheet.without(gene)
        self.assertEqual((caught.exception.number, kept(sheet)), (number, before))
        self.assertEqual(str(caught.exception), f"refused with {number}: {misqafur.REFUSALS[number][0]}. {said}")

    def test_refused(self):
        for gene in (0, -1, 4, 255, 257, 2**64 + 1):
            self.refused(misqafur.Sheet(5, GENES).draw_up(STATES), gene, 16, f"It has 'Rb', 'E2F', 'CycA', and {gene} was to be left out")
        for gene in ("Rb", 1):
            self.refused(misqafur.Sheet(5, ["Rb"]).draw_up([[1], [2]]), gene, 16, f"It has 'Rb', and {gene!r} was to be left out")
        often = misqafur.Sheet(5, 2).draw_up([(0, 1)] * 200 + [(1, 1)] * 55)
        self.assertEqual(often.without("g1").counts, [255])
        self.refused(often.add((2, 1)), "g1", 13, "Without 'g1' states become equal, and their counts add up to more")


class Reports(unittest.TestCase):
    def said(self, gene, text):
        run = subprocess.run([sys.executable, "-m", "misqafur", "report", "--without", gene, "-"], input=text, capture_output=True, text=True, check=False)
        return run.returncode, " ".join((run.stdout + run.stderr).split())

    def test_no_states_become_equal(self):
        status, said = self.said("g1", "g1,g2,mod 5 grlex\n0,0,1\n1,2,0\n2,1,3\n")
        self.assertEqual(status, 0)
        for part in ("3 states of 1 gene (g2), levels modulo 5, order grlex", "g1 is left out. No two states became equal: there are 3 as before.",
                     "(at each state it has the value that the text gives): 1 + 2*g2 Wiring: g2"):
            self.assertIn(part, said)

    def test_states_become_equal(self):
        text = "Rb,E2F,mod 3 weight 2 1\n0,0,1\n1,0,1\n1,2,0\n1,2,0\n"
        for gene in ("Rb", "1"):
            status, said = self.said(gene, text)
            self.assertEqual(status, 0)
            for part in ("2 states of 1 gene (E2F), levels modulo 3, order by weight (E2F 1) replicates: (0,) 2 times, (2,) 2 times",
                         "! Rb is left out. States that became equal are one, and their counts are added: of 3 there are 2.", "1 + E2F Wiring: E2F"):
                self.assertIn(part, said)

    def test_no_rule_is_left(self):
        """The target needs the gene: then the sheet is told, and no rule."""
        status, said = self.said("Rb", "Rb,E2F,mod 3\n0,0,1\n1,0,2\n1,2,0\n")
        self.assertEqual(status, 0)
        self.assertIn("so no rule of the other genes has the target's values: they need Rb. What holds at every state", said)
        self.assertNotIn("Wiring", said)
        self.assertIn("1. E2F^2 + E2F", said)

    def test_random(self):
        """A report's values are the text's at every state, or the wiring list names the gene."""
        chance = random.Random(11)
        for _ in range(60):
            sheet = misqafur.Sheet(3, 3).draw_up([[chance.randrange(2) for _ in range(3)] for _ in range(5)])
            values, gene = [chance.randrange(2) for _ in range(len(sheet))], chance.randrange(1, 4)
            left, kept_values, _ = misqafur.left_out(sheet, values, gene)
            self.assertEqual(kept_values is None, gene in sheet.wiring(values))
            if kept_values is not None:
                rule = left.interpolate(kept_values)
                self.assertEqual([rule(shortened(state, gene - 1)) for state in sheet.states], values)

    def test_refused(self):
        self.assertEqual(self.said("rb", "Rb,E2F,mod 3\n0,0,1\n"), (1, "misqafur: 'rb' is no gene of this sheet: they are 'Rb', 'E2F'"))
        for gene, text in (("Rb", "Rb,mod 3\n0,0\n"), ("3", "Rb,E2F,mod 3\n0,0,1\n"), ("0", "Rb,E2F,mod 3\n0,0,1\n")):
            status, said = self.said(gene, text)
            self.assertEqual(status, 1)
            self.assertIn("Refused with 16: the gene to be left out is none of the sheet's, or the only one that it has.", said)
            self.assertIn("- Name one of the sheet's genes; the last one stays.", said)


if __name__ == "__main__":
    sys.exit(not unittest.main(exit=False).result.wasSuccessful())
