"""Packed drawing up: modulo 2 the sheet of the general way, byte for byte, and without cancellations; never unless asked for."""
import os
import pathlib
import random
import shutil
import subprocess
import sys
import tempfile
import unittest
import unittest.mock

import exact
import misqafur


def bytes_of(sheet):
    return len(sheet), len(sheet.leads), [bytes(table) for table in sheet._tables.values()]


class Packed(unittest.TestCase):
    def both(self, genes, states, **order):
        general, packed = (misqafur.Sheet(2, genes, **order).draw_up(states, packed=packed) for packed in (False, True))
        self.assertEqual(bytes_of(packed), bytes_of(general))
        self.assertIsInstance(general.cancellations, int)
        self.assertIsNone(packed.cancellations)
        return packed

    def test_same_sheet(self):
        chance = random.Random(1)
        for _ in range(200):
            genes = chance.randrange(1, 9)
            most = min(64, 2**genes)
            numbers = chance.sample(range(2**genes), chance.randrange(most + 1))
            numbers += [chance.choice(numbers) for _ in range(chance.randrange(9))] if numbers else []
            states = [[-(number >> k & 1) if chance.random() < 0.5 else number >> k & 1 for k in range(genes)] for number in numbers]
            sheet = self.both(genes, states, **exact.any_order(chance, genes))
            self.assertTrue(sheet.check())
            self.assertEqual((sum(sheet.counts), list(exact.faults(sheet))), (len(numbers), []))

    def test_squares(self):
        """The example of the request: of the states 0 and 1 the row is g1^2 + g1."""
        sheet = self.both(1, [(0,), (1,)], order="lex")
        self.assertEqual(list(map(str, sheet.basis)), ["g1^2 + g1"])

    def test_names(self):
        sheet = misqafur.Sheet(2, ["a", "b"], "lex").draw_up({"b": [0, 1], "a": [0, 0]}, packed=True)
        self.assertEqual(sheet.states, [(0, 0), (0, 1)])

    def test_goes_on(self):
        """What was drawn up packed is a sheet like any other."""
        sheet = misqafur.Sheet(2, 3).draw_up([(0, 0, 0), (1, 0, 1)], packed=True)
        sheet.add((1, 1, 1)).withdraw((0, 0, 0))
        self.assertEqual(bytes_of(sheet), bytes_of(misqafur.Sheet(2, 3).draw_up([(1, 0, 1), (1, 1, 1)])))
        self.assertIsNone(sheet.cancellations)

    def test_never_unless_asked_for(self):
        """Drawing up and reading modulo 2 count their cancellations as ever; `packed` is asked for by its name."""
        states = [(0, 0), (0, 1), (1, 1)]
        self.assertGreater(misqafur.Sheet(2, 2).draw_up(states).cancellations, 0)
        with unittest.mock.patch.object(misqafur, "_call", wraps=misqafur._call) as calls:
            misqafur.Sheet(2, 2).draw_up(states, packed=True).draw_up(states)
        self.assertEqual([call.args[0] for call in calls.mock_calls if call.args], ["check", "draw_up_packed", "draw_up"])
        self.assertGreater(misqafur.read(b"a,b,mod 2\n0,0,1\n0,1,1\n1,1,0\n")[0].cancellations, 0)
        with self.assertRaises(TypeError):
            misqafur.Sheet(2, 2).draw_up(states, True)


class Refusals(unittest.TestCase):
    def refused(self, number, sheet, states):
        before, cancellations = bytes_of(sheet), sheet.cancellations
        with self.assertRaises(misqafur.Refusal) as caught:
            sheet.draw_up(states, packed=True)
        self.assertEqual(caught.exception.number, number)
        self.assertEqual((bytes_of(sheet), sheet.cancellations), (before, cancellations))
        return str(caught.exception)

    def test_other_moduli(self):
        for modulus in (3, 5, 61):
            said = self.refused(3, misqafur.Sheet(modulus, 2).draw_up([(0, 0), (1, 2)]), [(0, 0), (1, modulus)])
            self.assertIn("not 2 where a sheet is drawn up packed", said)
            self.assertIn(f"This sheet is modulo {modulus}: draw it up without `packed`", said)

    def test_what_the_library_refuses(self):
        sheet = misqafur.Sheet(2, 8).draw_up([[0] * 8])
        states = [[number >> k & 1 for k in range(8)] for number in range(65)]
        self.refused(7, sheet, [[0] * 7])
        self.refused(9, sheet, [[0] * 7 + [2]])
        self.refused(9, sheet, [[0] * 7 + [-2]])
        self.refused(8, sheet, states)
        self.refused(13, sheet, states[:1] * 256)
        self.refused(8, sheet, states * 256)


class Versions(unittest.TestCase):
    @unittest.skipUnless(shutil.which("gcc"), "gcc is not installed")
    def test_older_library(self):
        """A library of this interface that has not every call is told as that, in a sentence."""
        with tempfile.TemporaryDirectory() as folder:
            older = pathlib.Path(folder) / f"libmisqafur.so.{misqafur.ABI}"
            names = [name for name in misqafur._CALLS if name not in ("draw_up_packed", f"abi_{misqafur.ABI}")]
            code = f"int misqafur_abi_{misqafur.ABI}(void) {{ return {10000 * misqafur.ABI}; }}\n" + "".join(f"int misqafur_{name}(void) {{ return 0; }}\n" for name in names)
            subprocess.run(["gcc", "-shared", "-fPIC", "-xc", "-", "-o", str(older)], input=code, text=True, check=True)
            said = subprocess.run([sys.executable, "-m", "misqafur", "report", "-"], input="g1,mod 5\n1,1\n", capture_output=True, text=True,
                                  env={**os.environ, "MISQAFUR_LIBRARY": str(older)}, check=False)
        self.assertEqual((said.returncode, said.stdout), (2, ""))
        self.assertIn(f"{older} has no misqafur_draw_up_packed: it is of version {misqafur.ABI}.0.0", said.stderr)
        self.assertEqual(said.stderr.count("\n"), 1)


if __name__ == "__main__":
    sys.exit(not unittest.main(exit=False).result.wasSuccessful())
