"""The cell cycle example: the data set is what the published rules give, the rules come back as their own polynomials, and time courses
run forward as the rules do."""
import itertools
import pathlib
import subprocess
import sys
import unittest

import misqafur

FOLDER = pathlib.Path(__file__).resolve().parents[2] / "examples/cellcycle"
sys.path.insert(0, str(FOLDER))
import rules  # noqa: E402


def anf(values, genes):
    """The one polynomial without squares that a Boolean function is modulo 2: a coefficient is the sum over the states below."""
    return {e for e in itertools.product((0, 1), repeat=genes) if sum(v for s, v in values.items() if all(x <= y for x, y in zip(s, e))) % 2}


class CellCycle(unittest.TestCase):
    def said(self, *words):
        return subprocess.run([sys.executable, *words], capture_output=True, text=True, check=True, timeout=3600).stdout

    def test_data_set(self):
        self.assertEqual(self.said(str(FOLDER / "rules.py"), "--check"), "")

    def test_recovered(self):
        self.assertEqual(self.said(str(FOLDER / "recover.py")), (FOLDER / "recovered.expected").read_text())

    def test_rules(self):
        states = [tuple(state.values()) for state in rules.states()]
        for order in ({"order": "lex"}, {"order": "grlex"}, {"order": "grevlex"}, {"weights": range(1, len(rules.GENES) + 1)}):
            sheet = misqafur.Sheet(2, rules.GENES, **order).draw_up(states)
            for target in rules.TARGETS:
                values = {s: rules.step(dict(zip(rules.GENES, s)))[target] for s in states}
                self.assertEqual({e for _, e in sheet.interpolate(values.values()).terms}, anf(values, len(rules.GENES)))

    def test_wiring_is_the_regulators(self):
        states = [tuple(state.values()) for state in rules.states()]
        sheet = misqafur.Sheet(2, rules.GENES).draw_up(states)
        for target in rules.TARGETS:
            values = {s: rules.step(dict(zip(rules.GENES, s)))[target] for s in states}
            due = [k + 1 for k in range(len(rules.GENES)) if any(values[s] != values[s[:k] + (1 - s[k],) + s[k + 1:]] for s in states)]
            self.assertEqual(sheet.wiring(values.values()), due)

    def test_forward(self):
        self.assertEqual(self.said(str(FOLDER / "forward.py")), (FOLDER / "forward.expected").read_text())

    def test_courses(self):
        """From every course the run is that of the rules, and it reaches the cycle of seven states."""
        text, found = (FOLDER / "courses.csv").read_bytes(), rules.courses()
        self.assertEqual({state for states in found for state in states[:-1]}, {tuple(state.values()) for state in rules.states()})
        for number, states in enumerate(found, 1):
            course = misqafur.course(text, number)
            self.assertEqual((course.states[0], course.measured, course.back, len(course.sheet), course.unmeasured), (states[0], len(states), 7, 64, None))
            for state, after in zip(course.states, course.states[1:]):
                self.assertEqual(dict(zip(rules.GENES, after)), {gene: rules.step(dict(zip(rules.GENES, state)))[gene] for gene in rules.GENES})

    def test_report(self):
        self.assertIn("6 genes (E2F, CycA, Cdc20, Cdh1, UbcH10, CycB)", self.said("-m", "misqafur", "report", str(FOLDER / "CycA.csv")))


if __name__ == "__main__":
    sys.exit(not unittest.main(exit=False).result.wasSuccessful())
