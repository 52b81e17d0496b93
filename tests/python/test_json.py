"""Sheets as JSON: the text against a canonical writer of this file's own and against other programs' (json, jq, node); there and back for
stored and random sheets; the stored calls; names; what is refused, and in which words; the command line."""
import io
import json
import pathlib
import random
import shutil
import subprocess
import sys
import tempfile
import unittest

import exact
import misqafur
from test_names import kept

ROOT = pathlib.Path(__file__).resolve().parents[2]
THREE = (ROOT / "examples/three.csv").read_bytes()
MEMBERS = ["coefficients", "counts", "leads", "modulus", "order", "points", "standard", "variables", "weights"]
PRIMES = (2, 3, 5, 7, 11, 13, 17, 19, 23, 29, 31, 37, 41, 43, 47, 53, 59, 61)


def canonical(value):
    """RFC 8785 of what a sheet's text is made of: members in the order of their names, whole numbers, no blanks."""
    if isinstance(value, dict):
        return "{" + ",".join(f'"{name}":{canonical(value[name])}' for name in sorted(value)) + "}"
    if isinstance(value, list):
        return "[" + ",".join(map(canonical, value)) + "]"
    assert type(value) is int, value
    return str(value)


def members(sheet):
    """What the text has to say, from the sheet's polynomials and lists."""
    standard = [list(e) for e in sheet.standard]
    rows = [{exponents: coefficient for coefficient, exponents in polynomial.terms} for polynomial in sheet.basis]
    return {"coefficients": [[row.get(tuple(e), 0) for e in standard] for row in rows], "counts": sheet.counts, "leads": [list(e) for e in sheet.leads],
            "modulus": sheet.modulus, "order": misqafur.ORDERS.index(sheet.order), "points": [list(state) for state in sheet.states],
            "standard": standard, "variables": len(sheet.names), "weights": list(sheet.weights)}


def any_sheet(chance, most=12):
    """A random sheet under any settings, with replicates."""
    modulus, genes = chance.choice(PRIMES), chance.randrange(1, 9)
    sheet = misqafur.Sheet(modulus, genes, **exact.any_order(chance, genes))
    states = [[chance.randrange(modulus) for _ in range(genes)] for _ in range(chance.randrange(most))]
    return sheet.draw_up([state for state in states for _ in range(chance.choice((1, 1, 2, 5)))])


def refusal_of(text):
    try:
        misqafur.Sheet.from_json(text)
    except misqafur.Refusal as refusal:
        return refusal
    return None


def edited(**changes):
    """The text of the example with other members."""
    return canonical({**json.loads(misqafur.read(THREE)[0].to_json()), **changes}).encode()


class Texts(unittest.TestCase):
    def there_and_back(self, sheet):
        text = sheet.to_json()
        self.assertIs(type(text), bytes)
        self.assertEqual(text, canonical(members(sheet)).encode())
        back = misqafur.Sheet.from_json(text, sheet.names)
        self.assertEqual(kept(back)[:-1], kept(sheet)[:-1])
        self.assertIsNone(back.cancellations)
        self.assertEqual(back.to_json(), text)
        return text

    def test_examples(self):
        one = misqafur.Sheet(2, 1, "lex").add([1]).to_json()
        self.assertEqual(one, b'{"coefficients":[[1]],"counts":[1],"leads":[[1]],"modulus":2,"order":0,"points":[[1]],"standard":[[0]],'
                              b'"variables":1,"weights":[]}')
        none = misqafur.Sheet(5, 2, "grlex").to_json()
        self.assertEqual(none, b'{"coefficients":[[]],"counts":[],"leads":[[0,0]],"modulus":5,"order":1,"points":[],"standard":[],"variables":2,'
                               b'"weights":[]}')
        self.assertEqual(json.loads(misqafur.Sheet(5, 2, weights=[9, 1]).to_json())["weights"], [9, 1])

    def test_stored_sheets(self):
        count = 0
        for file in [*ROOT.glob("tests/texts/*/*.csv"), *ROOT.glob("examples/*.csv"), *ROOT.glob("examples/*/*.csv")]:
            try:
                sheet, _ = misqafur.read(file)
            except misqafur.Refusal:
                continue
            count += 1
            self.there_and_back(sheet)
        self.assertGreater(count, 200)

    def test_random_sheets(self):
        chance = random.Random(112)
        for i in range(150):
            self.there_and_back(any_sheet(chance, 65 if i % 15 == 0 else 12))

    def test_a_sheet_goes_on(self):
        """What was read back is a sheet like any other: states are added and withdrawn, and it is its own."""
        sheet, values = misqafur.read(THREE)
        back = misqafur.Sheet.from_json(sheet.to_json())
        other = misqafur.Sheet.from_json(sheet.to_json())
        back.add((4, 0))
        self.assertEqual((len(back), len(other), str(other.interpolate(values))), (4, 3, "1 + 2*g2"))
        self.assertEqual(kept(back.withdraw((-1, 0)))[:-1], kept(sheet)[:-1])

    def test_equal_texts_are_equal_sheets(self):
        """Another count, sequence of states, order, weight, modulus or gene is another text; the sequence changes the lists of states alone."""
        chance = random.Random(8785)
        pots, seen = [(0, 0), (1, 2), (2, 1)], set()
        sheets = [misqafur.Sheet(5, 2, "grlex").draw_up(chance.sample(pots, 3) + pots[:k]) for _ in range(20) for k in range(4)]
        sheets += [misqafur.Sheet(p, 2, **order).draw_up(pots) for p in (5, 7) for order in (
            {"order": "lex"}, {"order": "grevlex"}, {"weights": [1, 1]}, {"weights": [2, 2]}, {"weights": [1, 2]})]
        sheets += [misqafur.Sheet(5, 3, "grlex").draw_up([(*pot, 0) for pot in pots])]
        for sheet in sheets:
            told = (sheet.modulus, len(sheet.names), sheet.order, sheet.weights, tuple(sheet.states), tuple(sheet.counts))
            seen.add((told, sheet.to_json()))
        self.assertEqual(len(seen), len({told for told, _ in seen}))
        self.assertEqual(len(seen), len({text for _, text in seen}))
        first, turned = (json.loads(misqafur.Sheet(5, 2, "grlex").draw_up(each).to_json()) for each in (pots, pots[::-1]))
        self.assertEqual([name for name in MEMBERS if first[name] != turned[name]], ["points"])


class OtherPrograms(unittest.TestCase):
    """What other writers of JSON make of the texts: the canonical ones the same bytes, and any other form is refused with 19."""

    def setUp(self):
        chance = random.Random(19)
        self.texts = [misqafur.read(THREE)[0].to_json(), misqafur.Sheet(5, 2).to_json()] + [any_sheet(chance).to_json() for _ in range(20)]

    def by(self, *command):
        return [subprocess.run(command, input=text, capture_output=True, check=True).stdout for text in self.texts]

    def test_json_of_python(self):
        for text in self.texts:
            said = json.loads(text)
            self.assertEqual(list(said), MEMBERS)
            self.assertEqual(json.dumps(said, sort_keys=True, separators=(",", ":")).encode(), text)
            self.assertEqual(canonical(said).encode(), text)
            turned = {name: said[name] for name in reversed(MEMBERS)}
            for other in (json.dumps(said), json.dumps(said, indent=1), json.dumps(turned, separators=(",", ":")), json.dumps(said, separators=(", ", ":")),
                          json.dumps({**said, "name": 1}, separators=(",", ":")), text.decode() + "\n", "\ufeff" + text.decode()):
                self.assertEqual(refusal_of(other.encode()).number, 19)
            self.assertEqual(refusal_of(text.decode().encode("utf-16")).number, 19)

    @unittest.skipUnless(shutil.which("jq"), "jq is not installed")
    def test_jq(self):
        self.assertEqual(self.by("jq", "-cS", "."), [text + b"\n" for text in self.texts])
        self.assertEqual(self.by("jq", "-cSj", "."), self.texts)
        self.assertTrue(all(refusal_of(text).number == 19 for text in self.by("jq", ".") + self.by("jq", "-cS", ".")))

    @unittest.skipUnless(shutil.which("node"), "node is not installed")
    def test_node(self):
        """RFC 8785 is what JSON.stringify writes, with the members sorted."""
        script = ("const t = JSON.parse(require('fs').readFileSync(0, 'utf8')); "
                  "process.stdout.write(JSON.stringify(Object.fromEntries(Object.keys(t).sort().map(k => [k, t[k]]))))")
        self.assertEqual(self.by("node", "-e", script), self.texts)


class Stored(unittest.TestCase):
    @staticmethod
    def bytes_of(words):
        """Bytes as they are stored: hexadecimal, some of them so many times, or none."""
        parts = [word.partition("*")[::2] for word in words.split() if word != "-"]
        return b"".join(bytes.fromhex(part) * int(times or 1) for part, times in parts)

    def calls(self):
        """The stored readings of tests/c, but those that lend too little, which Python never does."""
        for block in (ROOT / "tests/c/data/changes/M-112.txt").read_text().split("\nend\n"):
            lines = dict(line.partition(" ")[::2] for line in block.split("\n"))
            if lines.get("call") == "read_json" and lines["number"] != "6":
                yield self.bytes_of(lines["text"]), tuple(map(int, lines["number"].split()))

    def test_answers(self):
        count = 0
        for text, due in self.calls():
            count += 1
            if due[0]:
                self.assertEqual((refusal_of(text).number, refusal_of(text).record), (due[0], None))
                continue
            sheet = misqafur.Sheet.from_json(text)
            self.assertEqual((0, len(sheet), sheet.modulus, len(sheet.names), misqafur.ORDERS.index(sheet.order), len(sheet.leads)), due)
            self.assertEqual(sheet.to_json(), text)
            self.assertTrue(sheet.check())
        self.assertGreater(count, 200)


class Refused(unittest.TestCase):
    def test_numbers(self):
        for due, changes in ((3, {"modulus": 4}), (4, {"variables": 0, "points": [[], [], []], "standard": [[], [], []], "leads": [[], [], []]}),
                             (5, {"order": 4}), (15, {"order": 3, "weights": [0, 1]}), (10, {"counts": [1, 0, 1]}), (10, {"points": [[0, 0], [1, 2], [1, 2]]}),
                             (10, {"leads": [], "coefficients": []}), (19, {"counts": [1, 1]}), (19, {"weights": [1, 1]}), (19, {"modulus": 256}),
                             (8, {"counts": [1] * 65, "points": [[0, 0]] * 65, "standard": [[0, 0]] * 65, "coefficients": [], "leads": []})):
            self.assertEqual(refusal_of(edited(**changes)).number, due, changes)
        self.assertEqual(refusal_of(b" " * 131073).number, 1)
        self.assertEqual(refusal_of(b" " * 131072).number, 19)
        self.assertEqual(str(refusal_of(b"{}")), "refused with 19: the text is not of the form in which a sheet is written as JSON, byte for byte")
        self.assertEqual(str(refusal_of(b"x" * 131073)), "refused with 1: the text is longer than 16,384 bytes, or as JSON than 131,072")
        self.assertIsNone(refusal_of(edited(counts=[1, 255, 7])))

    def test_every_byte(self):
        """A byte changed, left out or put in makes no text of the same sheet."""
        text, taken = misqafur.Sheet(3, 2, weights=[2, 1]).add((1, 2)).to_json(), 0
        for at in range(len(text)):
            before, behind = text[:at], text[at + 1:]
            for other in (before + behind, before + b" " + text[at:], before + b"1" + text[at:], before + bytes([text[at] ^ 1]) + behind):
                refusal = refusal_of(other)
                taken += not refusal
                if not refusal:
                    self.assertEqual(misqafur.Sheet.from_json(other).to_json(), other)
                self.assertIn(refusal.number if refusal else 0, (0, 19, 3, 5, 15, 10))
        self.assertGreater(taken, 0)

    def test_a_sheet_that_is_none(self):
        sheet = misqafur.read(THREE)[0]
        sheet._tables["coefficients"][0] ^= 1
        with self.assertRaises(misqafur.Refusal) as raised:
            sheet.to_json()
        self.assertEqual(raised.exception.number, 10)

    def test_kinds_of_data(self):
        text = misqafur.read(THREE)[0].to_json()
        with tempfile.NamedTemporaryFile(suffix=".json") as file:
            file.write(text)
            file.flush()
            path = pathlib.Path(file.name)
            for data in (text, bytearray(text), memoryview(text), io.BytesIO(text), path):
                self.assertEqual(misqafur.Sheet.from_json(data).to_json(), text)
            for data in (text.decode(), file.name, io.StringIO(text.decode()), json.loads(text), {"g": [1], "mod 5": [1]}, [text], None, 5):
                with self.assertRaises(TypeError):
                    misqafur.Sheet.from_json(data)

    def test_names(self):
        """They are not in the text: handed over, or g1, g2 and so on; never fewer or more than the genes."""
        named = misqafur.Sheet(5, ["Rb", "E2F"], "grlex").draw_up([(0, 0), (1, 2)])
        self.assertNotIn(b"Rb", named.to_json())
        self.assertEqual(named.to_json(), misqafur.Sheet(5, 2, "grlex").draw_up([(0, 0), (1, 2)]).to_json())
        self.assertEqual(misqafur.Sheet.from_json(named.to_json()).names, ("g1", "g2"))
        back = misqafur.Sheet.from_json(named.to_json(), genes=["Rb", "E2F"])
        self.assertEqual((back.names, [str(p) for p in back.basis]), (named.names, [str(p) for p in named.basis]))
        self.assertEqual(back.add({"E2F": 1, "Rb": 2}).states[2], (2, 1))
        for genes, said in ((["Rb"], "the sheet has 2 genes, and 1 name were given: 'Rb'"), (["a", "b", "c"], "and 3 names were given"), ([], "0 names")):
            with self.assertRaises(ValueError) as raised:
                misqafur.Sheet.from_json(named.to_json(), genes)
            self.assertIn(said, str(raised.exception))
        for genes in ("Rb", {"Rb", "E2F"}):
            with self.assertRaises(TypeError):
                misqafur.Sheet.from_json(named.to_json(), genes)


class CommandLine(unittest.TestCase):
    def setUp(self):
        self.folder = tempfile.TemporaryDirectory()
        self.addCleanup(self.folder.cleanup)

    def run_json(self, text, *words):
        run = subprocess.run([sys.executable, "-m", "misqafur", "json", *words], input=text, capture_output=True, check=False)
        return run.returncode, run.stdout, " ".join(run.stderr.decode().split())

    def checked(self, text):
        status, out, err = self.run_json(text, "--check", "-")
        self.assertEqual(err, "")
        return status, " ".join(out.decode().split())

    def test_writing(self):
        """Standard output is the text and no byte more; what is not in it is said beside it."""
        status, out, err = self.run_json(THREE, "-")
        self.assertEqual((status, out), (0, misqafur.read(THREE)[0].to_json()))
        self.assertIn("the genes' names ('g1', 'g2') and the target's values are not in the JSON", err)
        status, out, err = self.run_json(b"Rb,mod 4\n1,1\n", "-")
        self.assertEqual((status, out), (1, b""))
        self.assertIn("Refused with 3, record 1", err)
        self.assertEqual(self.run_json(THREE, "-", "-")[0], 1)
        self.assertEqual(self.run_json(THREE, self.folder.name + "/none.csv")[0], 2)
        self.assertEqual(self.run_json(THREE)[0], 2)

    def test_checking(self):
        text = misqafur.read(THREE)[0].to_json()
        self.assertEqual(self.checked(text), (0, "== - The text of a sheet, byte for byte: 3 states of 2 genes, modulo 5, grlex; 3 polynomials."))
        weighed = misqafur.Sheet(7, 2, weights=[1, 9]).draw_up([(1, 1)] * 3).to_json()
        self.assertIn("1 state in 3 pots of 2 genes, modulo 7, by weight (g1 1, g2 9); 2 polynomials.", self.checked(weighed)[1])
        for other, hint in ((text + b"\n", "There is a line break at its end"), (b"\xef\xbb\xbf" + text, "It begins with a byte-order mark"),
                            (text.decode().encode("utf-16"), "It is in UTF-16"), (text[:-1], "It is no JSON at all."), (b"", "It is empty."),
                            (json.dumps(json.loads(text), indent=2).encode(), f"in {len(text)} bytes, it is the sheet's text"),
                            (b"[" * 100000, "It is no JSON at all.")):
            status, said = self.checked(other)
            self.assertEqual(status, 1)
            self.assertIn("Refused with 19: the text is not of the form in which a sheet is written as JSON, byte for byte.", said)
            self.assertIn(hint, said)
        self.assertNotIn("other words", self.checked(b"{}")[1])
        self.assertNotIn("other words", self.checked(edited(counts=[1]))[1])
        self.assertIn("Refused with 10", self.checked(edited(counts=[1, 0, 1]))[1])
        self.assertNotIn("no JSON", self.checked(edited(counts=[1, 0, 1]))[1])
        self.assertIn("No sheet's text is so long", self.checked(b" " * 131073)[1])

    def test_several_files(self):
        paths = [pathlib.Path(self.folder.name) / name for name in ("a.json", "b.json")]
        paths[0].write_bytes(misqafur.read(THREE)[0].to_json())
        paths[1].write_bytes(b"{}")
        status, out, _ = self.run_json(b"", "--check", *map(str, paths))
        self.assertEqual((status, out.count(b"== "), out.count(b"Refused with")), (1, 2, 1))
        status, out, _ = self.run_json(b"", "--check", str(paths[0]))
        self.assertEqual((status, out.count(b"byte for byte: 3 states")), (0, 1))


if __name__ == "__main__":
    sys.exit(not unittest.main(exit=False).result.wasSuccessful())
