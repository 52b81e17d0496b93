"""What people see of the Python module: polynomials, reports, advice, pictures, the command line, other packages."""
import importlib.util
import os
import pathlib
import random
import shutil
import subprocess
import sys
import tempfile
import unittest
import xml.etree.ElementTree as xml

import misqafur

ROOT = pathlib.Path(__file__).resolve().parents[2]
A = [(0, 0), (1, 2), (2, 1)]
THREE = b"g1,g2,mod 5 grlex\n0,0,1\n1,2,0\n2,1,3\n"


def sheet_of(names=2, order="grlex", weights=None):
    return misqafur.Sheet(5, names, order, weights=weights).draw_up(A)


def has(module):
    return importlib.util.find_spec(module) is not None


class Polynomials(unittest.TestCase):
    def test_printed(self):
        sheet = sheet_of()
        self.assertEqual([str(p) for p in sheet.basis], ["g2^2 + g2 + 4*g1", "g1*g2 + g2 + g1", "g1^2 + 4*g2 + g1"])
        self.assertEqual(str(sheet.interpolate([1, 0, 3])), "1 + 2*g2")
        self.assertEqual(str(sheet.interpolate([0, 0, 0])), "0")
        self.assertEqual(str(sheet_of(["Nkx2-5", "p27.kip"]).basis[1]), "Nkx2-5*p27.kip + p27.kip + Nkx2-5")
        self.assertEqual(str(sheet_of(["a", "a"]).basis[0]), "x2^2 + x2 + 4*x1")
        self.assertEqual(str(sheet_of(["a b", ""]).basis[0]), "x2^2 + x2 + 4*x1")

    def test_compared_and_evaluated(self):
        first, second, third = sheet_of().basis
        self.assertEqual(first, sheet_of().polynomial("g2 + g2^2 - g1"))
        self.assertEqual(hash(first), hash(sheet_of().polynomial("4*g1 + g2 + g2**2")))
        self.assertNotEqual(first, second)
        self.assertNotEqual(first, sheet_of(["a", "b"]).basis[0])
        self.assertNotEqual(first, str(first))
        self.assertEqual([[p(s) for s in A] for p in (first, second, third)], [[0] * 3] * 3)
        self.assertEqual((first((3, 4)), first((-2, -1))), (2, 2))
        with self.assertRaises(misqafur.Refusal):
            first((1,))

    def test_parsed(self):
        chance = random.Random(3)
        for names in (["g1", "g10", "g1x"], ["Nkx2-5", "p", "p27"], ["a b", "", "c"]):
            for _ in range(50):
                terms = [(chance.randrange(7), [chance.randrange(4) for _ in names]) for _ in range(chance.randrange(1, 6))]
                polynomial = misqafur.Polynomial(7, names, terms)
                self.assertEqual(misqafur.Polynomial.parse(7, names, str(polynomial)), polynomial)
        for wrong in ("", "g3", "g1 g2", "g1 +", "g1^", "1.5*g1", "g1^-1", "(g1)", "g1++g2", "2*"):
            with self.subTest(wrong), self.assertRaises(ValueError):
                sheet_of().polynomial(wrong)
        self.assertEqual(str(sheet_of().remainder("g1^2*g2")), "2*g1")
        self.assertEqual(str(sheet_of().remainder("-3")), "2")


class Exports(unittest.TestCase):
    def test_syntax(self):
        sheet = sheet_of()
        self.assertIn("ring sheet = 5, (g1, g2), Dp;\nideal basis = g2^2 + g2 + 4*g1, ", sheet.export("singular"))
        self.assertIn("sheet = ZZ/5[g1, g2, MonomialOrder => GLex];\n", sheet.export("macaulay2"))
        self.assertIn("Poly(g2**2 + g2 + 4*g1, *genes, modulus=5)", sheet.export("sympy"))
        for names in (["a b", "c"], ["ring", "x"], ["if", "x"], ["a", "a"], ["b_1", "b_2"]):
            self.assertIn("(x1, x2), dp;", sheet_of(names, "grevlex").export("singular"))

    def test_by_weight(self):
        """Two packages have an order by weight; sympy has none, and its script names no other."""
        sheet = sheet_of(2, "weight", [2, 1])
        self.assertIn("ring sheet = 5, (g1, g2), (a(2,1),lp);\n", sheet.export("singular"))
        self.assertIn("sheet = ZZ/5[g1, g2, MonomialOrder => {Weights => {2,1}, Lex}];\n", sheet.export("macaulay2"))
        self.assertIn("; order by weight (g1 2, g2 1), which sympy does not have: what it says of leading terms is of another order\n",
                      sheet.export("sympy"))

    @unittest.skipUnless(shutil.which("Singular"), "Singular is not installed")
    def test_singular(self):
        for order in (("lex",), ("grlex",), ("grevlex",), ("weight", [2, 1]), ("weight", [1, 99])):
            sheet = sheet_of(2, *order)
            script = sheet.export("singular") + "ideal s = std(basis); vdim(s); size(s); size(reduce(s, basis));\nquit;\n"
            said = subprocess.run(["Singular", "-q"], input=script, capture_output=True, text=True, timeout=3600).stdout
            self.assertEqual([line for line in said.split("\n") if line.isdigit()], ["3", str(len(sheet.basis)), "0"])

    @unittest.skipUnless(shutil.which("M2"), "Macaulay2 is not installed")
    def test_macaulay2(self):
        for order in (("grlex",), ("weight", [2, 1])):
            script = sheet_of(2, *order).export("macaulay2") + 'print("degree " | toString degree basis\');\n'
            said = subprocess.run(["M2", "--stop", "--silent", "-e", script + "exit 0"], capture_output=True, text=True, timeout=3600).stdout
            self.assertIn("degree 3", said)

    @unittest.skipUnless(has("sympy"), "sympy is not installed")
    def test_sympy(self):
        for order in (("grlex",), ("weight", [2, 1])):
            space = {}
            exec(sheet_of(2, *order).export("sympy"), space)
            self.assertEqual([[p.eval(dict(zip(space["genes"], s))) % 5 for s in A] for p in space["basis"]],
                             [[0] * 3 for _ in sheet_of(2, *order).basis])

    @unittest.skipUnless(has("numpy"), "numpy is not installed")
    def test_numpy(self):
        import numpy
        for kind in ("int8", "int64", "float64"):
            sheet = misqafur.Sheet(numpy.int64(5), numpy.int64(2), "grlex").draw_up(numpy.array(A, dtype=kind))
            self.assertEqual(sheet.basis, sheet_of().basis)
            self.assertEqual(str(sheet.interpolate(numpy.array([1, 0, 3], dtype=kind))), "1 + 2*g2")
            self.assertEqual(sheet.add(numpy.array([4, 4], dtype=kind)).states[-1], (4, 4))

    @unittest.skipUnless(has("pandas"), "pandas is not installed")
    def test_pandas(self):
        import pandas
        frame = pandas.DataFrame(A, columns=["a", "b"])
        self.assertEqual(misqafur.Sheet(5, frame.columns, "grlex").draw_up(frame).basis, sheet_of(["a", "b"]).basis)
        told = frame.assign(**{"mod 5 grlex": [1, 0, 3]})
        self.assertEqual(misqafur.read(told.to_csv(index=False).encode())[0].basis, sheet_of(["a", "b"]).basis)
        self.assertIn("index=False in pandas", "".join(misqafur._habits(told.to_csv().encode())))


class Reports(unittest.TestCase):
    def advice(self, text):
        try:
            misqafur.read(text)
        except misqafur.Refusal as refusal:
            return " ".join(misqafur.refusal_report(text, refusal).split())
        return self.fail(f"{text!r} is taken")

    def test_report(self):
        said = misqafur.report(*misqafur.read(THREE))
        for part in ("3 states of 2 genes (g1, g2), levels modulo 5, order grlex", "    1 + 2*g2\n", "1. g2^2 + g2 + 4*g1", "3. g1^2 + 4*g2 + g1",
                     "    1, g2, g1", "\nWiring: " + (", ".join(f"g{k}" for k in sheet_of().wiring([1, 0, 3])) or "none")):
            self.assertIn(part, said)
        self.assertNotIn("replicates", said)
        twice = misqafur.report(*misqafur.read(THREE + b"-4,2,0\n2,1,-2\n2,1,3\n"))
        self.assertIn("\n  replicates: (1, 2) 2 times, (2, 1) 3 times\n", twice)
        larger = (ROOT / "tests/texts/vectors/026-random-p7-m3-n27-lex.csv").read_bytes()
        self.assertLessEqual(max(map(len, misqafur.report(*misqafur.read(larger)).split("\n"))), 100)
        self.assertIn("0 states of 1 gene (a)", misqafur.report(*misqafur.read(b"a,mod 5")))
        self.assertIn("x1 is ''", misqafur.report(*misqafur.read(b',b,mod 5\n0,1,2')))

    def test_advice(self):
        for text, part in ((b"g1;g2;mod 5\n0;0;1\n", "divided by semicolons"), (b"g1\tmod 5\n0\t0\n", "divided by tabs"),
                           (b'\xef\xbb\xbf"g1",mod 5\n0,1\n', "byte-order mark"), (THREE + b"\n", "blank line at its end"),
                           ("g1,mod 5\n0,1\n".encode("utf-16"), "UTF-16"), (b"g1,g2\n0,0\n", "last field has to be `mod P`"),
                           (THREE + b"1,1\n", "Record 5 has 2 fields, the header 3."), (THREE + b"1,1.0,1\n", "`1.0` is no level"),
                           (THREE + b"1, 1,1\n", "` 1` is no level"), (THREE + b"1,7,1\n", "Record 5, field 2 (g2): 7 is not from -4 to 4."),
                           (THREE + b"1,1,-9\n", "Record 5, field 3 (the value): -9"),
                           (THREE + b"-4,2,1\n", "Record 5 repeats the state of record 3, with the value 1 in place of 0."),
                           (THREE + b"2,-4,3\n" * 255, "Record 259 repeats the state of record 4."),
                           (b'"","g1","mod 5"\n"1",0,1\n"2",1,1\n"3",1,1\n"4",1,1\n"5",0,0\n', "row.names=FALSE in R"),
                           (b",g1,mod 2\n0,0,1\n1,1,1\n2,1,1\n", "index=False in pandas"), (b"g1,mod 4\n", "Take 2, 3, 5"),
                           (b"a,b,c,d,e,f,g,h,i,mod 5\n", "at most 8 genes"), (b"a,mod 5" + b"x" * 20000, "Leave out states"),
                           (b"", "last field has to be `mod P`"), (b'a,"mod 5\n0,0\n', "Refused with 2, record 1"),
                           (b"a,b,mod 61\n" + b"".join(b"%d,%d,0\n" % (i % 61, i // 61) for i in range(65)), "64 states that matter most")):
            with self.subTest(part):
                self.assertIn(part, self.advice(text))
        for text in (b'"","g1","mod 5"\n"1",0,1\n"2",1,1\n', b"\xef\xbb\xbfg1,mod 5\n0,1\n"):
            self.assertIn("  ! It", misqafur.report(*misqafur.read(text), misqafur._habits(text)))
        self.assertEqual(misqafur.read(b"\xef\xbb\xbfg1,mod 5\n0,1\n")[0].names, ("g1",))

    def test_advice_for_all_stored(self):
        for text in (ROOT / "tests/texts").glob("*/*.csv"):
            if text.with_suffix(".txt").read_text().startswith("refused"):
                self.assertTrue(self.advice(text.read_bytes()).startswith("Refused with "))


class Pictures(unittest.TestCase):
    def drawn(self, sheet, genes=(1, 2)):
        picture = xml.fromstring(misqafur.staircase(sheet, genes))
        space = "{http://www.w3.org/2000/svg}"
        kinds = [rect.get("class") for rect in picture.iter(space + "rect") if rect.get("class")]
        self.assertEqual(len(picture.findall(space + "polyline")), 1)
        for part in picture.iter(space + "rect"):
            self.assertLessEqual(float(part.get("x", 0)) + float(part.get("width")), float(picture.get("width")))
            self.assertLessEqual(float(part.get("y", 0)) + float(part.get("height")), float(picture.get("height")))
        return [kinds.count(kind) - 1 for kind in ("standard", "lead", "multiple")]

    def test_staircase(self):
        self.assertEqual(self.drawn(sheet_of()), [3, 3, 3])
        self.assertEqual(self.drawn(sheet_of(2, "lex"), (2, 1)), [3, 2, 3])
        self.assertEqual(self.drawn(misqafur.Sheet(5, 2)), [0, 1, 0])
        self.assertEqual(self.drawn(misqafur.Sheet(61, 1).draw_up([[i] for i in range(61)])), [61, 1, 0])
        for names in (["a<b>&c", "d]]>"], ["a\x01", "b"], ["\ud800", "b"], ["", '"']):
            self.assertEqual(self.drawn(misqafur.Sheet(5, names).draw_up(A))[0], 3)

    def test_the_page_shows_it(self):
        sheet, _ = misqafur.read((ROOT / "examples/three.csv").read_bytes())
        self.assertEqual(misqafur.staircase(sheet), (ROOT / "docs/readers/stairs.svg").read_text(encoding="utf-8"))

    def test_stored(self):
        for text in sorted((ROOT / "tests/texts/vectors").glob("*.csv"))[::5]:
            sheet, _ = misqafur.read(text.read_bytes())
            genes = (len(sheet.names), max(1, len(sheet.names) - 1))
            rest = [k for k in range(len(sheet.names)) if k + 1 not in genes]
            due = [sum(not any(e[k] for k in rest) for e in rows) for rows in (sheet.standard, sheet.leads)]
            self.assertEqual(self.drawn(sheet, genes)[:2] if len(sheet.names) > 1 else due, due, text.name)


class CommandLine(unittest.TestCase):
    def setUp(self):
        self.folder = tempfile.TemporaryDirectory()
        self.addCleanup(self.folder.cleanup)

    def file(self, data, name="a.csv"):
        path = pathlib.Path(self.folder.name) / name
        path.write_bytes(data)
        return str(path)

    def run_module(self, *words, **more):
        surroundings = {**os.environ, **more.pop("env", {})}
        return subprocess.run([sys.executable, "-m", "misqafur", *words], capture_output=True, timeout=3600, env=surroundings, **more)

    def test_report(self):
        good = self.run_module("report", self.file(THREE), "--svg", self.folder.name + "/a.svg", "--genes", "g2,g1")
        self.assertEqual((good.returncode, good.stderr), (0, b""))
        self.assertIn(b"1. g2^2 + g2 + 4*g1", good.stdout)
        self.assertIn("Monomials in g2 and g1", "".join(xml.parse(self.folder.name + "/a.svg").getroot().itertext()))
        bad = self.run_module("report", self.file(THREE + b"\n"))
        self.assertEqual((bad.returncode, bad.stderr), (1, b""))
        self.assertIn(b"What to do:", bad.stdout)
        self.assertEqual(self.run_module("report", "-", input=THREE).returncode, 0)
        self.assertEqual(self.run_module("report", self.file("gène,mod 5\n0,1\n".encode()), env={"PYTHONIOENCODING": "ascii"}).returncode, 0)

    def test_many(self):
        many = self.run_module("report", "--many", "--progress", self.file(b"\n\n".join([THREE, b"a;mod 5", THREE.replace(b"\n", b"\r\n")]) + b"\n\n"))
        self.assertEqual((many.returncode, many.stdout.count(b"\n== ") + 1), (1, 3))
        self.assertTrue(many.stderr.endswith(b"\r3 of 3 texts, 1 refused\n"), many.stderr)
        self.assertEqual(self.run_module("report", self.file(THREE), self.file(THREE, "b.csv")).returncode, 0)

    def test_faults_of_use(self):
        for words in ((), ("report",), ("report", self.folder.name + "/none.csv"), ("report", self.folder.name), ("export", "maple", self.file(THREE))):
            said = self.run_module(*words)
            self.assertEqual((said.returncode, said.stdout), (2, b""), words)
        for words in (("--svg", "x.svg", self.file(THREE), self.file(THREE)), ("--svg", self.folder.name + "/x", "--genes", "g1,g9", self.file(THREE))):
            self.assertEqual(self.run_module("report", *words).returncode, 1)
        lost = self.run_module("report", self.file(THREE), env={"MISQAFUR_LIBRARY": "/nowhere/lib.so"})
        self.assertEqual((lost.returncode, b"MISQAFUR_LIBRARY" in lost.stderr), (2, True))

    def test_export(self):
        self.assertEqual(self.run_module("export", "sympy", self.file(THREE)).stdout.decode(), sheet_of().export("sympy"))
        self.assertEqual(self.run_module("export", "sympy", self.file(b"x")).returncode, 1)


if __name__ == "__main__":
    sys.exit(not unittest.main(exit=False).result.wasSuccessful())
