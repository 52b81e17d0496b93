"""States that come with names go by their names, whatever they come in; names that cannot tell are an error."""
import collections
import importlib.util
import itertools
import sys
import unittest

import misqafur

GENES = ["Rb", "E2F", "p27-kip"]
STATES = [(0, 0, 1), (1, 2, 3), (2, 1, 4), (1, 2, 3), (4, 0, 2)]
Row = collections.namedtuple("Row", "E2F Rb")


def has(module):
    return importlib.util.find_spec(module) is not None


def sheet_of(states=STATES, genes=GENES):
    return misqafur.Sheet(5, genes, "grlex").draw_up(states)


def kept(sheet):
    """All that a sheet is."""
    return {name: bytes(table) for name, table in sheet._tables.items()}, sheet.names, sheet.modulus, sheet.order, sheet.weights, sheet._n, sheet._r, sheet.cancellations


def by_names(names, state):
    """A state as a dictionary, its names in another order than the sheet's genes."""
    return {name: state[GENES.index(name)] for name in names}


def tables(names):
    """The same states as every kind of table with names, in the order of these names."""
    rows = [by_names(names, state) for state in STATES]
    yield "dictionaries", rows
    yield "columns", {name: [row[name] for row in rows] for name in names}
    if has("numpy"):
        import numpy
        yield "fields", numpy.array([tuple(row.values()) for row in rows], dtype=[(name, "i8") for name in names])
    if has("pandas"):
        import pandas
        frame = pandas.DataFrame(rows)
        yield from (("frame", frame), ("frame of rows", frame.set_axis(range(7, 12))), ("series", [frame.loc[i] for i in frame.index]))
        yield "frame of other kinds", frame.astype({names[0]: "float64", names[1]: "Int8", names[2]: "object"})


def one_by_one(table):
    """The states of a table, each with its names."""
    if isinstance(table, dict):
        return [dict(zip(table, row)) for row in zip(*table.values())]
    return [table.iloc[i] for i in range(len(table))] if hasattr(table, "iloc") else list(table)


class Names(unittest.TestCase):
    def assertNames(self, call, handed, *said):
        """Refused with a message that says these things, the sheet of the call as it was."""
        sheet = getattr(call, "__self__", None)
        before = kept(sheet) if isinstance(sheet, misqafur.Sheet) else None
        with self.assertRaises(ValueError) as caught:
            call(handed)
        self.assertNotIsInstance(caught.exception, misqafur.Refusal)
        for words in said:
            self.assertIn(words, str(caught.exception))
        if before:
            self.assertEqual(kept(sheet), before)

    def test_every_order_of_names(self):
        due = sheet_of()
        for names in itertools.permutations(GENES):
            for kind, table in tables(names):
                with self.subTest(kind=kind, names=names):
                    self.assertEqual(kept(sheet_of(table)), kept(due))
                    added = misqafur.Sheet(5, GENES, "grlex")
                    for state in one_by_one(table):
                        added.add(state)
                    self.assertEqual((added.states, added.counts, added.basis), (due.states, due.counts, due.basis))
                    rule = due.interpolate([1, 0, 3, 2])
                    self.assertEqual([rule(state) for state in one_by_one(table)], [1, 0, 3, 0, 2])
                    for state in one_by_one(table)[:3]:
                        added.withdraw(state)
                    self.assertEqual((added.states, added.counts), ([(1, 2, 3), (4, 0, 2)], [1, 1]))

    def test_the_issues_example(self):
        table = {"E2F": [0, 2, 1], "Rb": [0, 1, 2]}
        self.assertEqual(misqafur.Sheet(5, ["Rb", "E2F"]).draw_up(table).states, [(0, 0), (1, 2), (2, 1)])
        self.assertEqual(misqafur.Sheet(5, ["Rb", "E2F"]).draw_up([Row(2, 1)]).add(Row(E2F=0, Rb=4)).states, [(1, 2), (4, 0)])

    def test_names_that_differ(self):
        sheet = sheet_of()
        for call, handed in ((sheet.add, {"Rb": 1, "e2f": 2, "p27-kip": 3}), (sheet.withdraw, {"Rb": 1, "e2f": 2, "p27-kip": 3}),
                             (sheet.draw_up, [by_names(GENES, STATES[0]), {"Rb": 1, "e2f": 2, "p27-kip": 3}]),
                             (sheet.draw_up, {"Rb": [1], "e2f": [2], "p27-kip": [3]}), (sheet.interpolate([0] * 4), {"Rb": 1, "e2f": 2, "p27-kip": 3})):
            self.assertNames(call, handed, "missing 'E2F', unexpected 'e2f'", "the genes are 'Rb', 'E2F', 'p27-kip'", "handed over were 'Rb', 'e2f', 'p27-kip'")
        self.assertNames(sheet.add, {"Rb": 1, "E2F": 2}, "missing 'p27-kip', unexpected none")
        self.assertNames(sheet.draw_up, {**{name: [1] for name in GENES}, "target": [2]}, "missing none, unexpected 'target'")
        self.assertNames(sheet.draw_up, {name: [] for name in ("a", "b", "c")}, "missing 'Rb', 'E2F', 'p27-kip', unexpected 'a', 'b', 'c'")
        self.assertNames(sheet.draw_up, {"Rb": [1, 2], "E2F": [1, 2], "p27-kip": [1]}, "different lengths")
        self.assertNames(sheet.add, {" Rb": 1, "E2F": 2, "p27-kip": 3}, "missing 'Rb', unexpected ' Rb'")

    def test_genes_without_names(self):
        """A sheet of a number of genes has the genes g1, g2 and so on: these are the names that it takes, and no others."""
        sheet = misqafur.Sheet(5, 2)
        self.assertEqual(sheet.draw_up({"g2": [0, 2], "g1": [4, 1]}).states, [(4, 0), (1, 2)])
        self.assertNames(sheet.draw_up, {"a": [0, 2], "b": [4, 1]}, "missing 'g1', 'g2', unexpected 'a', 'b'", "Make the sheet with these names")
        self.assertEqual(sheet.draw_up([(0, 4)]).states, [(0, 4)])

    def test_names_that_cannot_tell(self):
        self.assertNames(sheet_of().add, {"Rb": 1, 2: 2, "p27-kip": 3}, "neither names nor places")
        self.assertNames(sheet_of().add, {1: 1, 0: 2, 2: 3}, "neither names nor places")
        self.assertNames(misqafur.Sheet(5, ["a", "a"]).add, {"a": 1, "b": 2}, "'a' stands more than once in 'a', 'a'")
        self.assertEqual(misqafur.Sheet(5, ["a", "a"]).add((1, 2)).states, [(1, 2)])
        self.assertEqual(sheet_of([{0: 1, 1: 2, 2: 3}]).states, [(1, 2, 3)])
        for wrong in ({0, 1, 2}, frozenset((0, 1, 2))):
            with self.assertRaises(TypeError):
                sheet_of().add(wrong)
        with self.assertRaises(TypeError):
            misqafur.Sheet(5, set(GENES))
        with self.assertRaises(TypeError):
            sheet_of().draw_up({"Rb": 1, "E2F": 2, "p27-kip": 3})

    def test_values_have_an_order(self):
        """A dictionary is no list of values: its keys are not taken for them."""
        sheet = misqafur.Sheet(5, 1).draw_up([(0,), (4,)])
        for call in (sheet.interpolate, sheet.wiring):
            for wrong in ({0: 1, 4: 2}, {1, 2}):
                with self.assertRaises(TypeError):
                    call(wrong)
            call({0: 1, 4: 2}.values())

    def test_polynomials(self):
        """A polynomial's names decide whose exponents are whose, in a remainder too; so do those of exponents."""
        sheet = sheet_of()
        for names in itertools.permutations(GENES):
            powers = dict(zip(GENES, (2, 1, 3)))
            other = misqafur.Polynomial(5, names, [(1, [powers[name] for name in names]), (3, {name: powers[name] % 2 for name in GENES})])
            due = misqafur.Polynomial(5, GENES, [(1, (2, 1, 3)), (3, (0, 1, 1))])
            self.assertEqual(sheet.remainder(other), sheet.remainder(due))
            self.assertEqual(sheet.remainder([(1, {name: powers[name] for name in names}), (3, (0, 1, 1))]), sheet.remainder(due))
            self.assertEqual([other(by_names(names, s)) for s in STATES], [due(s) for s in STATES])
        self.assertNames(sheet.remainder, misqafur.Polynomial(5, ["Rb", "E2F", "p27"], [(1, (1, 0, 0))]), "missing 'p27-kip', unexpected 'p27'")
        self.assertNames(sheet.remainder, misqafur.Polynomial(7, GENES, [(1, (1, 0, 0))]), "modulo 7", "modulo 5")
        self.assertNames(sheet.remainder, [(1, {"Rb": 1})], "missing 'E2F', 'p27-kip'")
        twice = misqafur.Sheet(5, ["a", "a"]).draw_up([(1, 2), (2, 1)])
        self.assertEqual(str(twice.remainder(twice.basis[0])), "0")

    @unittest.skipUnless(has("pandas"), "pandas is not installed")
    def test_frames(self):
        import pandas
        sheet, frame = sheet_of(), pandas.DataFrame(STATES, columns=GENES)
        twice = pandas.DataFrame(STATES, columns=["Rb", "E2F", "Rb"])
        self.assertNames(sheet.draw_up, twice, "'Rb' stands more than once in 'Rb', 'E2F', 'Rb'")
        self.assertNames(sheet.add, twice.iloc[0], "'Rb' stands more than once")
        self.assertNames(sheet.draw_up, frame.assign(target=1), "unexpected 'target'")
        self.assertNames(sheet.draw_up, frame.set_index("Rb"), "missing 'Rb'")
        self.assertNames(misqafur.Sheet(5, 3).draw_up, frame, "missing 'g1', 'g2', 'g3', unexpected 'Rb', 'E2F', 'p27-kip'")
        plain = pandas.DataFrame(STATES)
        for unnamed in (plain, plain.set_axis([2, 5, 9], axis=1), plain.to_numpy()):
            self.assertEqual(kept(sheet_of(unnamed)), kept(sheet))
        self.assertEqual(sheet_of([plain.loc[1]]).states, [(1, 2, 3)])
        for wrong in ([1, 0, 2], ["Rb", 1, 2], [0.5, 1.5, 2.5], pandas.MultiIndex.from_product([["a"], GENES])):
            self.assertNames(sheet.draw_up, plain.set_axis(wrong, axis=1), "neither names nor places")
        self.assertEqual(sheet_of([]).add(frame[["E2F", "p27-kip", "Rb"]].iloc[[1]]).states, [(1, 2, 3)])
        self.assertNames(sheet.add, frame, "one row of levels is wanted, and this table has 5 rows")
        self.assertEqual(kept(misqafur.Sheet(5, frame.columns, "grlex").draw_up(frame[GENES[::-1]])), kept(sheet))
        self.assertEqual(len(sheet_of(frame[:0])), 0)
        self.assertEqual(kept(sheet_of(dict(frame[GENES[::-1]].items()))), kept(sheet))
        self.assertNames(sheet.draw_up, {**frame, "Rb": frame["Rb"][::-1]}, "rows of different labels")
        odd = misqafur.Sheet(5, ["columns", "keys", "dtype"])
        self.assertEqual(odd.add(pandas.Series({"dtype": 3, "columns": 1, "keys": 2})).states, [(1, 2, 3)])
        self.assertEqual(odd.draw_up(pandas.DataFrame({"dtype": [3], "columns": [1], "keys": [2]})).states, [(1, 2, 3)])


if __name__ == "__main__":
    sys.exit(not unittest.main(exit=False).result.wasSuccessful())
