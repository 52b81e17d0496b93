"""Time courses run forward: the points, the model and the run against their definitions, worked out here from the records; the stored
calls; every kind of text; names; what is refused, at which record and in which words; reports, pictures, the command line."""
import copy
import importlib.util
import io
import pathlib
import pickle
import random
import subprocess
import sys
import tempfile
import unittest
import xml.etree.ElementTree as xml

import exact
import misqafur
from test_names import kept

ROOT = pathlib.Path(__file__).resolve().parents[2]
EXAMPLE = (ROOT / "examples/course.csv").read_bytes()


def has(module):
    return importlib.util.find_spec(module) is not None


def written(header, records):
    """A text of records, each its levels and its course number."""
    return (header + "\n" + "".join(",".join(map(str, [*state, number])) + "\n" for state, number in records)).encode()


def moves(modulus, records):
    """The records with a successor: each its place in the list, its state and its successor's, by residues."""
    residues = [tuple(level % modulus for level in state) for state, _ in records]
    return [(i, residues[i], residues[i + 1]) for i in range(len(records) - 1) if records[i][1] == records[i + 1][1]]


def refused_with(modulus, records, number):
    """The refusal of a well-formed list of records with levels in range, and its record; 0 and 0 if there is none."""
    found = moves(modulus, records)
    for at, (i, state, after) in enumerate(found):
        if any(earlier == state and then != after for _, earlier, then in found[:at]):
            return 17, i + 2
    for refusal, due in ((8, lambda states: len(set(states)) > 64), (13, lambda states: states.count(states[-1]) > 255)):
        for at, (i, _, _) in enumerate(found):
            if due([state for _, state, _ in found[:at + 1]]):
                return refusal, i + 2
    return (0, 0) if any(number == each for _, each in records) else (18, 0)


def returned(sheet, rules, first):
    """The states of a run by the rules' terms, in plain arithmetic, with the least step that meets an earlier one and its distance."""
    met = [first]
    for k in range(1, 257):
        met.append(tuple(sum(c * exact.value(sheet.modulus, e, met[-1]) for c, e in rule.terms) % sheet.modulus for rule in rules))
        if met[-1] in met[:-1]:
            return met, k, k - met.index(met[-1])
    return met, 0, 0


def refusal_of(data, number):
    try:
        misqafur.course(data, number)
    except misqafur.Refusal as refusal:
        return refusal
    raise AssertionError("the text is taken")


class Definitions(unittest.TestCase):
    def agrees(self, header, modulus, records, number):
        """Everything that a course has, from the records."""
        course = misqafur.course(written(header, records), number)
        sheet, found = course.sheet, moves(modulus, records)
        points = dict.fromkeys(state for _, state, _ in found)
        after = {state: then for _, state, then in found}
        drawn = misqafur.Sheet(modulus, sheet.names, sheet.order, weights=sheet.weights or None).draw_up([state for _, state, _ in found])
        drawn.cancellations = None
        self.assertEqual(kept(sheet), kept(drawn))
        self.assertEqual(list(exact.faults(sheet)), [])
        for gene, rule in enumerate(course.rules):
            self.assertEqual(list(exact.solution_faults(sheet, rule, [after[state][gene] for state in points])), [])
            self.assertEqual(rule, sheet.interpolate([after[state][gene] for state in points]))
        named = [tuple(level % modulus for level in state) for state, each in records if each == number]
        states, step, back = returned(sheet, course.rules, named[0])
        self.assertEqual((course.states, course.step, course.back, course.measured), (states, step, back, len(named)))
        self.assertEqual(course.cycle, states[step - back:step] if step else [])
        for each in course.courses:
            rows = [tuple(level % modulus for level in state) for state, other in records if other == each]
            run = misqafur.course(written(header, records), each)
            self.assertEqual(run.states[:len(rows)], rows[:len(run.states)])
        return course

    def test_random(self):
        chance, seen = random.Random(111), set()
        for _ in range(200):
            modulus, genes = chance.choice((2, 3, 5, 61)), chance.randrange(1, 9)
            most = min(modulus, chance.choice((2, 3, 61)))
            after = {}
            records, numbers = [], chance.sample(range(1, 100), chance.randrange(1, 5))
            for number in numbers:
                state = tuple(chance.randrange(most) for _ in range(genes))
                for _ in range(chance.choice((1, 2, 5, 20))):
                    records.append(([level - modulus * (level > 0 and chance.random() < 0.3) for level in state], number))
                    state = after.setdefault(state, tuple(chance.randrange(most) for _ in range(genes)))
                    if chance.random() < 0.01:
                        state = tuple(chance.randrange(most) for _ in range(genes))
            order = exact.any_order(chance, genes)
            word = order.get("order") or "weight " + " ".join(map(str, order["weights"]))
            header = ",".join([f"g{k}" for k in range(genes)] + [f"mod {modulus} {word}"])
            number = chance.choice([*numbers, numbers[0] % 99 + 1])
            due = refused_with(modulus, records, number)
            seen.add(due[0])
            if due[0]:
                refusal = refusal_of(written(header, records), number)
                self.assertEqual((refusal.number, refusal.record), due)
            else:
                self.agrees(header, modulus, records, number)
        self.assertEqual(seen & {0, 17, 18}, {0, 17, 18})

    def test_example(self):
        course = misqafur.course(EXAMPLE, 3)
        self.assertEqual((course.number, course.step, course.back, course.measured, course.courses), (3, 7, 3, 5, [3, 5]))
        self.assertEqual(course.cycle, [(2, 2, 1), (1, 2, 2), (2, 1, 2)])
        self.assertEqual(course.trajectory, {"FT": [0, 1, 2, 2, 2, 1, 2, 2], "LFY": [0, 0, 0, 1, 2, 2, 1, 2], "AP1": [0, 0, 0, 0, 1, 2, 2, 1]})
        self.assertEqual((list(course.model), str(course.model["AP1"])), (["FT", "LFY", "AP1"], "LFY"))
        self.assertIsNone(course.unmeasured)
        self.assertEqual(repr(course), "<course 3 of FT, LFY, AP1 modulo 3, it repeats every 3 steps from step 4>")

    def test_course_numbers(self):
        """Points 50 and 51: a number is not its digits; courses come in any order, and none comes back."""
        for number in (b"7", b"07", b"007", b'"7"'):
            self.assertEqual(misqafur.course(b"a,mod 5\n1,8\n0,7\n1," + number + b"\n", 7).states, [(0,), (1,), (1,)])
        for number in (b"0", b"-0", b"-7", b"100"):
            self.assertEqual((refusal_of(b"a,mod 5\n1,7\n0," + number + b"\n1,x\n", 7).number, refusal_of(b"a,mod 5\n1,7\n0," + number, 7).record), (2, 3))
        back = refusal_of(b"a,mod 4\n1,7\n0,8\n1,7\n", 7)
        self.assertEqual((back.number, back.record), (2, 4))
        self.assertEqual(misqafur.course(b"a,mod 2\n1,99\n", 99).measured, 1)

    def test_points(self):
        """Points 53 to 55: the last record of a course makes no point; counts are of records with a successor; 64 points."""
        course = misqafur.course(b"a,mod 5\n1,1\n2,1\n-4,2\n2,2\n3,2\n-1,3\n", 2)
        self.assertEqual((course.sheet.states, course.sheet.counts, course.measured), ([(1,), (2,)], [2, 1], 3))
        many = [((i % 61, i // 61), 1) for i in range(66)]
        self.assertEqual(len(misqafur.course(written("a,b,mod 61", many[:65]), 1).sheet), 64)
        refusal = refusal_of(written("a,b,mod 61", many), 1)
        self.assertEqual((refusal.number, refusal.record), (8, 66))
        self.assertEqual(misqafur.course(written("a,mod 5", [([1], 1)] * 256), 1).sheet.counts, [255])
        refusal = refusal_of(written("a,mod 5", [([1], 1)] * 257), 1)
        self.assertEqual((refusal.number, refusal.record), (13, 257))

    def test_no_moves(self):
        """Point 58: the model is 0 everywhere."""
        course = misqafur.course(b"a,b,mod 5\n1,0,1\n0,0,2\n", 1)
        self.assertEqual((course.states, course.step, course.back, len(course.sheet), course.unmeasured), ([(1, 0), (0, 0), (0, 0)], 2, 1, 0, 0))
        zero = misqafur.course(b"a,b,mod 5\n1,0,1\n0,0,2\n", 2)
        self.assertEqual((zero.states, zero.step, zero.back, list(map(str, zero.rules))), ([(0, 0), (0, 0)], 1, 1, ["0", "0"]))

    def test_longest_runs(self):
        """Point 59: step 256 counts, and 288 does not: a shift of eight levels modulo 31, and of two modulo 17, learned from few records."""
        for header, modulus, state, following, count, due in (
                ("a,b,c,d,e,f,g,h,mod 31", 31, (0,) * 7 + (1,), lambda s: (*s[1:], (3 * s[4] + s[0]) % 31), 10, (256, 256)),
                ("a,b,mod 17", 17, (0, 1), lambda s: (s[1], (s[1] + 7 * s[0]) % 17), 4, (0, 0))):
            records = [(state, 4)]
            while len(records) < count:
                records.append((following(records[-1][0]), 4))
            course = self.agrees(header, modulus, records, 4)
            self.assertEqual((course.step, course.back, len(course.states)), (*due, 257))
            self.assertEqual([following(state) for state in course.states[:-1]], course.states[1:])
            self.assertEqual(course.unmeasured, count - 1)

    def test_settings(self):
        self.assertEqual(misqafur.course(b"a,mod 5\n1,1\n", 1).sheet.order, "grevlex")
        sheet = misqafur.course(b"a,b,mod 5 weight 2 09\n1,0,1\n", 1).sheet
        self.assertEqual((sheet.modulus, sheet.names, sheet.order, sheet.weights), (5, ("a", "b"), "weight", (2, 9)))


class Stored(unittest.TestCase):
    @staticmethod
    def bytes_of(words):
        """Bytes as they are stored: hexadecimal, some of them so many times, or none."""
        parts = [word.partition("*")[::2] for word in words.split() if word != "-"]
        return b"".join(bytes.fromhex(part) * int(times or 1) for part, times in parts)

    def calls(self):
        """The stored calls of tests/c: a text, the course named, and the answer's parts; but those that lend too little, which Python never does."""
        for block in (ROOT / "tests/c/data/changes/M-111.txt").read_text().split("\nend\n"):
            lines = dict(line.partition(" ")[::2] for line in block.split("\n"))
            if lines.get("call") == "time_course" and lines["number"] != "6 0":
                yield self.bytes_of(lines["text"]), int(lines["course"]), tuple(map(int, lines["number"].split()))

    def test_answers(self):
        count = 0
        for text, number, due in self.calls():
            count += 1
            if due[0]:
                refusal = refusal_of(text, number)
                self.assertEqual((refusal.number, refusal.record), due)
                self.assertTrue(misqafur.refusal_report(text, refusal).strip().startswith(f"Refused with {due[0]}"))
                continue
            course = misqafur.course(text, number)
            sheet = course.sheet
            order = misqafur.ORDERS.index(sheet.order)
            self.assertEqual((0, len(sheet), sheet.modulus, len(sheet.names), order, len(sheet.leads), course.step, course.back), due)
            states, step, back = returned(sheet, course.rules, course.states[0])
            self.assertEqual((course.states, course.step, course.back), (states, step, back))
        self.assertGreater(count, 150)


class Data(unittest.TestCase):
    def same(self, data):
        course, due = misqafur.course(data, 3), misqafur.course(EXAMPLE, 3)
        self.assertEqual((kept(course.sheet), course.rules, course.states), (kept(due.sheet), due.rules, due.states))

    def test_texts_and_files(self):
        self.same(bytearray(EXAMPLE))
        self.same(memoryview(EXAMPLE))
        self.same(ROOT / "examples/course.csv")
        self.same(io.BytesIO(EXAMPLE))
        self.assertEqual(misqafur.read(ROOT / "examples/three.csv")[1], [1, 0, 3])
        for wrong in (EXAMPLE.decode(), "examples/course.csv", io.StringIO(EXAMPLE.decode()), 5, None, [(0, 1)]):
            with self.subTest(wrong), self.assertRaises(TypeError):
                misqafur.course(wrong, 3)
        for wrong in ("3", None, 1.5):
            with self.subTest(wrong), self.assertRaises(TypeError):
                misqafur.course(EXAMPLE, wrong)

    def columns(self):
        header, *rows = (line.split(",") for line in EXAMPLE.decode().split("\n")[:-1])
        return {name: [int(row[place]) for row in rows] for place, name in enumerate(header)}

    def test_tables(self):
        columns = self.columns()
        self.same(columns)
        odd = {'a,"b': [0, 1], "": [1, 2], "mod 5": [1, 1]}
        self.assertEqual(misqafur.course(odd, 1).names, ('a,"b', ""))
        with self.assertRaises(TypeError):
            misqafur.course({**columns, "FT": [0.5] * 9}, 3)
        with self.assertRaises(ValueError):
            misqafur.course({0: [1], 1: [1]}, 1)
        swapped = dict(reversed(columns.items()))
        self.assertEqual((refusal_of(swapped, 3).number, refusal_of(swapped, 3).record), (2, 1))

    @unittest.skipUnless(has("numpy"), "numpy is not installed")
    def test_numpy(self):
        import numpy
        columns = self.columns()
        self.same(numpy.array(list(zip(*columns.values())), dtype=[(name, "i8") for name in columns]))
        with self.assertRaises(TypeError):
            misqafur.course(numpy.array([[0, 1]]), 1)

    @unittest.skipUnless(has("pandas"), "pandas is not installed")
    def test_pandas(self):
        import pandas
        frame = pandas.DataFrame(self.columns())
        for each in (frame, frame.astype("float64"), frame.set_axis(range(7, 16))):
            self.same(each)
        self.assertEqual(pandas.DataFrame(misqafur.course(frame, 3).trajectory).iloc[5].to_dict(), {"FT": 1, "LFY": 2, "AP1": 2})
        with self.assertRaises(TypeError):
            misqafur.course(frame.mask(frame == 1), 3)
        self.assertEqual(misqafur.course(frame.rename(columns={"FT": "read", "LFY": "columns"}), 3).names, ("read", "columns", "AP1"))

    def test_names(self):
        for names in (["gène", "p27-kip"], ["a b", ""], ["a<b>", '"&']):
            text = (",".join('"' + name.replace('"', '""') + '"' for name in names) + ",mod 5\n0,1,1\n1,1,1\n").encode()
            course = misqafur.course(text, 1)
            self.assertEqual((course.names, list(course.model), list(course.trajectory)), (tuple(names), names, names))
        twice = misqafur.course(b"a,a,mod 5\n0,1,1\n1,1,1\n", 1)
        self.assertEqual((len(twice.rules), twice.states[:2]), (2, [(0, 1), (1, 1)]))
        for by_name in (lambda: twice.model, lambda: twice.trajectory):
            with self.assertRaises(ValueError) as caught:
                by_name()
            self.assertIn("they are 'a', 'a'", str(caught.exception))

    def test_copies(self):
        course = misqafur.course(EXAMPLE, 3)
        for made in (copy.deepcopy(course), pickle.loads(pickle.dumps(course))):
            self.assertEqual((kept(made.sheet), made.rules, made.states, made.cycle), (kept(course.sheet), course.rules, course.states, course.cycle))
        self.assertTrue(course.sheet.check())
        self.assertEqual(len(course.sheet.add((0, 0, 2))), 8)


class Refused(unittest.TestCase):
    def test_words(self):
        one = b"a,b,mod 5\n1,0,1\n2,0,1\n"
        for text, number, due, record, said in (
                (b"a,mod 5\n" + b"0,1\n" * 4096, 1, 1, 0, ""),
                (one + b"1,0,0\n", 1, 2, 4, "Record 4: the course number 0 is not from 1 to 99"),
                (one + b"1,0,-1\n", 1, 2, 4, "Record 4: the course number -1 is not from 1 to 99"),
                (one + b"1,0,\n", 1, 2, 4, "Record 4: `` is no course number: an optional minus sign and one to three digits, no blank, no point"),
                (one + b"x,0,1\n", 1, 2, 4, "Record 4: `x` is no level: an optional minus sign and one to three digits, no blank, no point"),
                (one + b"0,0,2\n0,0,1\n", 1, 2, 5, "Record 5: course 1 comes back after course 2. The records of a course stand together, in the order "
                 "of time: put them together, or give the later ones a number of their own"),
                (one + b"1,0\n", 1, 2, 4, "Record 4 has 2 fields, the header 3"),
                (b"a,mod 4\n1,1\n", 1, 3, 1, ""), (b"a,b,mod 5 weight 1 0\n1,1,1\n", 1, 15, 1, "The weight is 0 of b"),
                (one + b"5,0,99\n", 1, 9, 4, "Record 4, field 1 (a): 5 is not from -4 to 4"),
                (one + b"-4,0,2\n2,1,2\n", 1, 17, 4,
                 "Record 4 has the state of record 2 (a 1, b 0), which is followed by a 2, b 0 there, and here by a 2, b 1"),
                (one + b"1,0,1\n3,3,1\n", 1, 17, 4, "Record 4 has the state of record 2 (a 1, b 0), which is followed by a 2, b 0 there, and here by a 3, b 3"),
                (written("a,b,mod 61", [((i % 61, i // 61), 1) for i in range(66)]), 1, 8, 66, "Record 66 brings the 65th different state that has a next one"),
                (b"a,mod 5\n" + b"0,1\n" * 257, 1, 13, 257, "Record 257 is the 256th of its state that has a next one"),
                (one, 2, 18, 0, "The text has the course 1, and 2 was to be run"),
                (one + b"0,0,9\n", -1, 18, 0, "The text has the courses 1, 9, and -1 was to be run"),
                (one, 257, 18, 0, "The text has the course 1, and 257 was to be run"),
                (one, 2**64 + 1, 18, 0, f"The text has the course 1, and {2**64 + 1} was to be run"),
                (b"a,mod 5", 1, 18, 0, "The text has no course, and 1 was to be run")):
            with self.subTest(said):
                refusal = refusal_of(text, number)
                self.assertEqual((refusal.number, refusal.record, refusal.more or ""), (due, record, said))
                self.assertTrue(str(refusal).endswith(said))
                told = " ".join(misqafur.refusal_report(text, refusal).split())
                self.assertTrue(told.startswith(f"Refused with {due}"))
                self.assertIn(said, told)

    def test_a_state_that_is_no_point(self):
        """17 compares records that have a next one, and no others."""
        refusal = refusal_of(b"a,mod 5\n1,1\n1,2\n2,2\n1,3\n3,3\n", 1)
        self.assertEqual((refusal.record, refusal.more), (5, "Record 5 has the state of record 3 (a 1), which is followed by a 2 there, and here by a 3"))

    def test_order(self):
        """Faults of form before 3, 9 before 17, 17 before 8 and 13, 18 last."""
        many = [((i % 61, i // 61), 1) for i in range(70)]
        for text, number, due in ((b"a,mod 4\n1,1\n1,x\n", 1, (2, 3)), (b"a,mod 5\n1,1\n2,1\n1,2\n3,2\n9,3\n", 1, (9, 6)),
                                  (written("a,b,mod 61", many + [((0, 0), 2), ((0, 0), 2)]), 1, (17, 72)),
                                  (written("a,b,mod 61", [((60, 60), 2)] * 257 + many), 1, (8, 322)), (written("a,b,mod 61", many), 9, (8, 66)),
                                  (b"a,mod 5\n" + b"0,1\n" * 257, 9, (13, 257))):
            refusal = refusal_of(text, number)
            self.assertEqual((refusal.number, refusal.record), due)


class Pictures(unittest.TestCase):
    SPACE = "{http://www.w3.org/2000/svg}"

    def drawn(self, course):
        """The picture, whose parts lie within it; levels and dots are as many as there should be."""
        picture = xml.fromstring(misqafur.timeline(course))
        wide, high = float(picture.get("width")), float(picture.get("height"))
        for part in picture.iter(self.SPACE + "rect"):
            self.assertLessEqual(float(part.get("x", 0)) + float(part.get("width")), wide)
            self.assertLessEqual(float(part.get("y", 0)) + float(part.get("height")), high)
        for part in picture.iter(self.SPACE + "text"):
            length = 0.5 * float(part.get("font-size")) * len(part.text or "")
            start = float(part.get("x")) - {"start": 0, "middle": length / 2, "end": length}[part.get("text-anchor")]
            self.assertTrue(0 <= start and start + length <= wide and float(part.get("y")) <= high, part.text)
        parts = [part.get("class") for part in picture.iter() if part.get("class")]
        self.assertEqual(parts.count("level"), len(course.states) * len(course.names))
        self.assertEqual(parts.count("measured"), min(course.measured, len(course.states)))
        self.assertEqual(parts.count("cycle"), course.step > 0)
        return picture

    def test_the_page_shows_it(self):
        course = misqafur.course(EXAMPLE, 3)
        self.drawn(course)
        self.assertEqual(misqafur.timeline(course), (ROOT / "docs/readers/course.svg").read_text(encoding="utf-8"))

    def test_plain_words(self):
        for text, number, said in ((EXAMPLE, 3, "repeats every 3 steps from step 4"), (EXAMPLE, 5, "repeats every 3 steps from step 0"),
                                   (b"a,mod 5\n3,1\n", 1, "stays as it is from step 1")):
            picture = self.drawn(misqafur.course(text, number))
            words = ["".join(part.itertext()) for part in picture.iter(self.SPACE + "text")]
            self.assertIn(said, words)
            self.assertIn(f"Course {number}, run forward: it {said}", words)

    def test_levels_stand_in_their_places(self):
        """Each gene's row, from its name on, has its levels in the order of time; the frame has the cycle's columns."""
        course = misqafur.course(EXAMPLE, 3)
        picture = self.drawn(course)
        words = [(float(part.get("x")), float(part.get("y")), part.text) for part in picture.iter(self.SPACE + "text")]
        for name, levels in course.trajectory.items():
            height = next(y for _, y, text in words if text == name)
            self.assertEqual([text for x, y, text in sorted(words) if y == height], [name, *map(str, levels)])
        frame = next(part for part in picture.iter() if part.get("class") == "cycle")
        left, right = float(frame.get("x")), float(frame.get("x")) + float(frame.get("width"))
        height = max(y for _, y, text in words if text == "7")
        self.assertEqual([text for x, y, text in sorted(words) if y == height and left < x < right], ["4", "5", "6"])

    def test_names_are_escaped(self):
        for names in (["a<b>&c", "d]]>"], ["a\x01", "b"], ["gène", "基因"], ["", '"'], ["same", "same"], ["x" * 300, "y"]):
            text = (",".join('"' + name.replace('"', '""') + '"' for name in names) + ",mod 5\n0,1,1\n1,1,1\n").encode()
            picture = self.drawn(misqafur.course(text, 1))
            words = [part.text for part in picture.iter(self.SPACE + "text")]
            for name in names:
                self.assertIn(name.replace("\x01", "\ufffd") or "(no name)", words)

    def test_sizes(self):
        for genes in range(1, 9):
            header = ",".join([f"gene{k}" for k in range(genes)] + ["mod 61"])
            chance = random.Random(genes)
            states = [tuple(chance.randrange(61) for _ in range(genes)) for _ in range(12)]
            course = misqafur.course(written(header, [(state, 1) for state in dict.fromkeys(states)]), 1)
            self.drawn(course)
        self.assertEqual(len(course.states), 257)


class Reports(unittest.TestCase):
    def setUp(self):
        self.folder = tempfile.TemporaryDirectory()
        self.addCleanup(self.folder.cleanup)

    def said(self, text, *words):
        run = subprocess.run([sys.executable, "-m", "misqafur", "course", *words], input=text, capture_output=True, check=False)
        return run.returncode, " ".join((run.stdout + run.stderr).decode().split())

    def test_report(self):
        picture = self.folder.name + "/a.svg"
        status, said = self.said(EXAMPLE, "-", "--course", "3", "--svg", picture)
        self.assertEqual(status, 0)
        for part in ("Course 3 of 3 genes (FT, LFY, AP1), levels modulo 3, order grlex",
                     "The text has the courses 3, 5, and in them 7 records with a next one, at 7 different states.",
                     "next AP1 = LFY", "Course 3 has 5 records. Run forward from the first, it repeats every 3 steps from step 4.",
                     "step FT LFY AP1 0 0 0 0 measured 1 1 0 0 measured", "4 2 2 1 measured 5 1 2 2 6 2 1 2 7 2 2 1 as at step 4"):
            self.assertIn(part, said)
        self.assertNotIn("!", said)
        self.assertEqual(pathlib.Path(picture).read_text(encoding="utf-8"), misqafur.timeline(misqafur.course(EXAMPLE, 3)))

    def test_beyond_what_was_measured(self):
        _, said = self.said(b"a b,mod 5\n0,1\n1,1\n", "-", "--course", "1")
        self.assertIn("x1 is 'a b'", said)
        self.assertIn("! What comes after the state of step 1 was not measured in any course: from step 2 on the run is the model's", said)
        self.assertIn("it stays as it is from step 1.", said)
        _, said = self.said(b"\xef\xbb\xbfa,mod 5\n0,1\n0,1\n", "-", "--course", "1")
        self.assertIn("! It begins with a byte-order mark", said)
        self.assertNotIn("What comes after", said)

    def test_none_within_256(self):
        records, state = [], (0, 1)
        for _ in range(4):
            records.append((state, 1))
            state = (state[1], (state[1] + 7 * state[0]) % 17)
        status, said = self.said(written("a,b,mod 17", records), "-", "--course", "1")
        self.assertEqual(status, 0)
        self.assertIn("Course 1 has 4 records. Run forward from the first, no state came again within 256 steps.", said)
        self.assertNotIn("as at step", said)

    def test_refused(self):
        status, said = self.said(EXAMPLE, "-", "--course", "4")
        self.assertEqual(status, 1)
        for part in ("Refused with 18: the time course to be run is not in the text.", "- The text has the courses 3, 5, and 4 was to be run.",
                     "- Name one of the text's courses."):
            self.assertIn(part, said)
        status, said = self.said(b"a;mod 5\n1;1\n", "-", "--course", "1")
        self.assertEqual((status, "divided by semicolons" in said), (1, True))
        for words in (("-",), ("--course", "3"), ("-", "--course", "three"), (self.folder.name + "/none.csv", "--course", "3")):
            self.assertEqual(self.said(EXAMPLE, *words)[0], 2)


if __name__ == "__main__":
    sys.exit(not unittest.main(exit=False).result.wasSuccessful())
