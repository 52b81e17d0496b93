"""Copies are sheets of their own, in other processes too; what is said of values for replicates; the library's version."""
import copy
import multiprocessing
import os
import pathlib
import pickle
import random
import shutil
import subprocess
import sys
import tempfile
import unittest

import misqafur
from test_names import GENES, has, kept, sheet_of


def drawn(seed):
    """A sheet of random states, as a worker draws it up, and what it refuses."""
    chance = random.Random(seed)
    sheet = misqafur.Sheet(7, GENES, "lex").draw_up([[chance.randrange(7) for _ in GENES] for _ in range(9)])
    if seed % 2:
        sheet.add((7, 7, 7))
    return sheet


class Copies(unittest.TestCase):
    def test_copies_are_sheets_of_their_own(self):
        for made in (copy.copy, copy.deepcopy, lambda sheet: pickle.loads(pickle.dumps(sheet)), lambda sheet: pickle.loads(pickle.dumps(sheet, 2))):
            first = sheet_of()
            before, second = kept(first), made(first)
            self.assertEqual(kept(second), before)
            self.assertTrue(second.check())
            changed = kept(second.add((3, 3, 3)).withdraw((0, 0, 1)))
            self.assertEqual(kept(first), before)
            self.assertTrue(first.check())
            first.draw_up([(1, 1, 1)])
            self.assertEqual(kept(second), changed)
            self.assertTrue(second.check())

    def test_stored_by_another_interface(self):
        state = sheet_of().__getstate__()
        before_counts = {**state, "_tables": {name: table for name, table in state["_tables"].items() if name != "counts"}}
        before_weights = {name: part for name, part in state.items() if name != "weights"}
        for stored in (before_counts, before_weights):
            with self.assertRaises(ValueError):
                copy.copy(sheet_of()).__setstate__(stored)

    def test_polynomials_and_refusals(self):
        rule = sheet_of().interpolate([1, 0, 3, 2])
        self.assertEqual(pickle.loads(pickle.dumps(rule)), rule)
        for refusal in (misqafur.Refusal(9), misqafur.Refusal(2, 4), misqafur.Refusal(7, more="So and so.")):
            again = pickle.loads(pickle.dumps(refusal))
            self.assertEqual((str(again), again.number, again.record, again.sentence), (str(refusal), refusal.number, refusal.record, refusal.sentence))

    def test_processes(self):
        """Sheets, and what is refused, come back from the processes of a pool that share nothing with this one."""
        with multiprocessing.get_context("spawn").Pool(2) as pool:
            for seed, sheet in zip((0, 2, 4), pool.map(drawn, (0, 2, 4))):
                self.assertEqual(kept(sheet), kept(drawn(seed)))
            with self.assertRaises(misqafur.Refusal) as caught:
                pool.apply(drawn, (1,))
            self.assertEqual(caught.exception.number, 9)


class Replicates(unittest.TestCase):
    POTS, VALUES = [(0, 0), (1, 2), (0, 0), (2, 1), (1, 2)], [1, 0, 1, 3, 0]

    def said(self, call, values):
        with self.assertRaises(misqafur.Refusal) as caught:
            call(values)
        self.assertEqual(caught.exception.number, 7)
        return str(caught.exception)

    def test_a_value_for_each_pot(self):
        sheet = misqafur.Sheet(5, 2, "grlex").draw_up(self.POTS)
        for call in (sheet.interpolate, sheet.wiring):
            said = self.said(call, self.VALUES)
            for words in ("One value is wanted for each different state, 3 in the order of sheet.states, and 5 were given, one for each pot",
                          "5 pots", "sheet.counts", "frame.drop_duplicates([*sheet.names, target])[target]"):
                self.assertIn(words, said)
            self.assertIn("3 in the order of sheet.states, and 4 were given: this sheet has replicates", self.said(call, [1, 0, 3, 0]))
        plain = misqafur.Sheet(5, 2, "grlex").draw_up(self.POTS[:2])
        self.assertTrue(self.said(plain.interpolate, [1]).endswith("different state, 2 in the order of sheet.states, and 1 were given"))

    def test_what_is_advised(self):
        """The lines of the message, run as they stand: one value for each state; replicates that disagree stay refused."""
        sheet = misqafur.Sheet(5, 2, "grlex").draw_up(self.POTS)
        said = self.said(sheet.interpolate, self.VALUES)
        words = said[said.index("["):said.index("]") + 1]
        self.assertEqual(str(sheet.interpolate(eval(words, {"pots": self.POTS, "values": self.VALUES}))), "1 + 2*g2")
        self.said(sheet.interpolate, eval(words, {"pots": self.POTS, "values": [1, 0, 2, 3, 0]}))
        if has("pandas"):
            import pandas
            frame = pandas.DataFrame(self.POTS, columns=sheet.names).assign(CycA=self.VALUES)
            words = said[said.index("frame.drop"):said.index("[target]") + len("[target]")]
            self.assertEqual(str(sheet.interpolate(eval(words, {"frame": frame, "sheet": sheet, "target": "CycA"}))), "1 + 2*g2")


class Versions(unittest.TestCase):
    def test_version(self):
        self.assertEqual(misqafur.library_version(), misqafur.__version__)
        self.assertEqual(misqafur.__version__.split(".")[0], str(misqafur.ABI))

    @unittest.skipUnless(shutil.which("gcc"), "gcc is not installed")
    def test_library_of_another_interface(self):
        """A library with other calls of our names is told as that, in a sentence, before any call is made."""
        with tempfile.TemporaryDirectory() as folder:
            other = pathlib.Path(folder) / "libmisqafur.so.2"
            code = "int misqafur_abi_2(void) { return 20100; }\nint misqafur_check(void) { return 0; }\n"
            subprocess.run(["gcc", "-shared", "-fPIC", "-xc", "-", "-o", str(other)], input=code, text=True, check=True)
            said = subprocess.run([sys.executable, "-m", "misqafur", "report", "-"], input="g1,mod 5\n1,1\n", capture_output=True, text=True,
                                  env={**os.environ, "MISQAFUR_LIBRARY": str(other)}, check=False)
        self.assertEqual((said.returncode, said.stdout), (2, ""))
        self.assertIn(f"{other} has no misqafur_abi_{misqafur.ABI}: it is no library of interface {misqafur.ABI}", said.stderr)
        self.assertEqual(said.stderr.count("\n"), 1)


if __name__ == "__main__":
    sys.exit(not unittest.main(exit=False).result.wasSuccessful())
