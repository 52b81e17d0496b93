"""Orders by weight: weights by place or by the genes' names, what is wrong with them in words, texts, copies; with equal ones grlex."""
import collections
import copy
import itertools
import pickle
import random
import sys
import unittest

import exact
import misqafur
from test_names import has, kept

GENES = ["Rb", "E2F"]
STATES = [(0, 0), (1, 2), (2, 1)]
TEXT = b"Rb,E2F,mod 5 weight 1 2\n0,0,1\n1,2,0\n2,1,3\n"
Pair = collections.namedtuple("Pair", "E2F Rb")


def tables_of(sheet):
    return [bytes(table) for table in sheet._tables.values()]


def named():
    """The weights 1 of Rb and 2 of E2F in everything that has names, in another order than the genes."""
    yield from ({"E2F": 2, "Rb": 1}, Pair(2, 1))
    if has("numpy"):
        import numpy
        yield numpy.array((2, 1), dtype=[("E2F", "i8"), ("Rb", "i8")])
    if has("pandas"):
        import pandas
        yield from (pandas.Series({"E2F": 2, "Rb": 1}), pandas.DataFrame({"E2F": [2], "Rb": [1.0]}))


class Weights(unittest.TestCase):
    def test_order(self):
        """The example of the reading: by the weights 1 and 2, 1 < x < y < x^2 < xy < x^3 < y^2; a whole grid has them all."""
        sheet = misqafur.Sheet(5, 2, weights=[1, 2]).draw_up(list(itertools.product(range(5), repeat=2)))
        self.assertEqual(sheet.standard[:9], [(0, 0), (1, 0), (0, 1), (2, 0), (1, 1), (3, 0), (0, 2), (2, 1), (4, 0)])
        self.assertEqual(list(exact.faults(sheet)), [])

    def test_equal_weights_are_grlex(self):
        chance = random.Random(3)
        for weight in (1, 2, 99):
            for modulus, genes in ((2, 6), (3, 4), (5, 2), (61, 8)):
                states = [[chance.randrange(modulus) for _ in range(genes)] for _ in range(40)]
                grlex, weighed = (misqafur.Sheet(modulus, genes, **order).draw_up(states)
                                  for order in ({"order": "grlex"}, {"weights": [weight] * genes}))
                self.assertEqual((tables_of(weighed), weighed.cancellations), (tables_of(grlex), grlex.cancellations))

    def test_names_decide(self):
        due = misqafur.Sheet(5, GENES, weights=[1, 2]).draw_up(STATES)
        self.assertEqual(str(due), "<sheet of 3 states of Rb, E2F modulo 5, by weight (Rb 1, E2F 2)>")
        self.assertEqual((due.order, due.weights), ("weight", (1, 2)))
        self.assertNotEqual(tables_of(due), tables_of(misqafur.Sheet(5, GENES, weights=[2, 1]).draw_up(STATES)))
        for weights in named():
            self.assertEqual(kept(misqafur.Sheet(5, GENES, weights=weights).draw_up(STATES)), kept(due))
        for order in ("weight", 3):
            self.assertEqual(kept(misqafur.Sheet(5, GENES, order, weights=(1, 2)).draw_up(STATES)), kept(due))

    def test_wrong_names(self):
        for weights, said in (({"Rb": 1, "E2f": 2}, "missing 'E2F', unexpected 'E2f'"), ({"Rb": 1}, "missing 'E2F', unexpected none"),
                              ({"Rb": 1, "E2F": 2, "p27": 3}, "missing none, unexpected 'p27'"), ({"E2F": 2, 1: 1}, "which weight is whose")):
            with self.assertRaises(ValueError) as caught:
                misqafur.Sheet(5, GENES, weights=weights)
            self.assertIn(said, str(caught.exception))
            self.assertNotIn("level", str(caught.exception))
        with self.assertRaises(ValueError):
            misqafur.Sheet(5, ["a", "a"], weights={"a": 1})

    def refused(self, weights, said, number=15, **settings):
        with self.assertRaises(misqafur.Refusal) as caught:
            misqafur.Sheet(**{"modulus": 5, "genes": GENES, "weights": weights, **settings})
        self.assertEqual(caught.exception.number, number)
        self.assertTrue(str(caught.exception).endswith(said), str(caught.exception))

    def test_wrong_weights(self):
        for weight in (0, -1, 100, 255, 256, 257, 2**64 + 1):
            self.refused([weight, 2], f"Weights run from 1 to 99, and Rb has {weight}")
        self.refused({"E2F": 0, "Rb": 100}, "Weights run from 1 to 99, and Rb has 100, E2F has 0")
        for weights in ([], [1], [1, 2, 3], [1, 2, 0], [1] * 8, [1] * 9, [1] * 300):
            self.refused(weights, f"One weight is wanted for each gene, 2, and {len(weights)} were given")
        self.refused(None, "2, and 0 were given", order="weight")
        self.refused([0, 0], misqafur.REFUSALS[3][0], 3, modulus=4)
        self.refused([0] * 9, misqafur.REFUSALS[4][0], 4, genes=9)
        for weights in ([1.5, 2], ["1", 2], [None, 2], {1, 2}, 7, "12"):
            with self.subTest(weights), self.assertRaises(TypeError):
                misqafur.Sheet(5, GENES, weights=weights)

    def test_another_order(self):
        """Weights beside another order are an error that says so, and none is changed in silence."""
        for order in ("lex", "grlex", "grevlex", 0, 2, 4, "Weight"):
            with self.assertRaises(ValueError) as caught:
                misqafur.Sheet(5, GENES, order, weights=[1, 2])
            self.assertIn(f"weights belong to the order 'weight', and the order given is {order!r}", str(caught.exception))
        for order in misqafur.ORDERS[:3]:
            self.assertEqual(misqafur.Sheet(5, GENES, order).weights, ())
            self.assertEqual(misqafur.Sheet(5, GENES, order, weights=()).order, order)
        self.assertEqual(misqafur.Sheet(5, GENES).order, "grevlex")

    def test_copies(self):
        sheet = misqafur.Sheet(5, GENES, weights=[1, 2]).draw_up(STATES)
        for made in (copy.copy(sheet), copy.deepcopy(sheet), pickle.loads(pickle.dumps(sheet))):
            self.assertEqual((kept(made), str(made)), (kept(sheet), str(sheet)))
            self.assertTrue(made.add((4, 4)).check())
        again = misqafur.Sheet(sheet.modulus, sheet.names, sheet.order, weights=sheet.weights).draw_up(sheet.states)
        self.assertEqual(kept(again), kept(misqafur.Sheet(5, GENES, weights=[1, 2]).draw_up(STATES)))


class Texts(unittest.TestCase):
    def advice(self, text):
        with self.assertRaises(misqafur.Refusal) as caught:
            misqafur.read(text)
        return caught.exception.number, caught.exception.record, " ".join(misqafur.refusal_report(text, caught.exception).split())

    def test_read(self):
        sheet, values = misqafur.read(TEXT)
        self.assertEqual((kept(sheet), values), (kept(misqafur.Sheet(5, GENES, weights=[1, 2]).draw_up(STATES)), [1, 0, 3]))
        self.assertIn("levels modulo 5, order by weight (Rb 1, E2F 2)", misqafur.report(sheet, values))
        self.assertIn("modulo 5, by weight (Rb 1, E2F 2)", misqafur.staircase(sheet))
        self.assertEqual(misqafur.read(b'a,"mod 5 weight 07"\n')[0].weights, (7,))
        self.assertEqual(misqafur.read(b"a,mod 5 grlex\n")[0].weights, ())

    def test_refused(self):
        for text, number, said in (
                (b"a,b,mod 5 weight 2\n", 2, "The header has 2 gene names and 1 weight: one is wanted for each gene."),
                (b"a,mod 5 weight\n", 2, "The header has 1 gene name and 0 weights"),
                (b"a,mod 5 weight 100\n", 2, "`mod 5 weight 2 1`, and is `mod 5 weight 100`"),
                (b"a,mod 5 Weight 1\n", 2, "and is `mod 5 Weight 1`"),
                (b"a,b,mod 5 weight 0 1\n", 15, "The weight is 0 of a."),
                (b",b,mod 5 weight 0 00\n", 15, "The weight is 0 of a gene without a name, b.")):
            with self.subTest(text):
                self.assertEqual(self.advice(text)[:2], (number, 1))
                self.assertIn(said, self.advice(text)[2])
        self.assertIn("a gene with a large weight is used last", self.advice(b"a,mod 5 weight 0\n")[2])


if __name__ == "__main__":
    sys.exit(not unittest.main(exit=False).result.wasSuccessful())
