#!/usr/bin/env python3
"""Give the word `lex` to the stored texts that relied on it, and hold what is stored to that.

usage: tools/lex_word.py [PROGRAM]
Until M-104 a header without an order word meant lex, and since then it means grevlex. With PROGRAM, the program since
M-104, it changes the stored texts once: of each accepted text without the word in the folders of tests/texts the text
with ` lex` behind the digits, inside the quotes where the last header field is quoted, goes to tests/texts/lex-word
under the same name, together with the print that was stored before; the text without the word stays where it is, and
what PROGRAM prints of it is stored with it. In tests/c/data/fuzz.txt each such line gets the word, with its answer as it
was, and the text without the word goes to the end, with order 2.

Without PROGRAM it checks: each text of tests/texts/lex-word is one of tests/texts with the word put in, and each accepted
text without the word has its text with the word beside it, in the folders and in fuzz.txt. What the texts print is held
to the stored prints by tests/texts/run.
"""
import csv, io, os, re, subprocess, sys

TESTS = os.path.join(os.path.dirname(os.path.abspath(__file__)), "..", "tests")
TEXTS = os.path.join(TESTS, "texts")
FUZZ = os.path.join(TESTS, "c", "data", "fuzz.txt")
FOLDERS = ("vectors", "refusals", "edges")
WITH = os.path.join(TEXTS, "lex-word")
MOST = 16384


def load(path):
    with open(path, "rb") as file:
        return file.read()


def header_end(text):
    """Where the first record ends: at the first break outside quotes."""
    quoted = False
    for i, byte in enumerate(text):
        if byte == 34:
            quoted = not quoted
        elif byte in (10, 13) and not quoted:
            return i
    return len(text)


def without_word(text):
    """Whether the last header field is `mod` and digits alone."""
    header = text[: header_end(text)].decode("latin-1")
    rows = list(csv.reader(io.StringIO(header, newline=""), strict=True))
    return bool(rows and rows[0] and re.fullmatch("mod [0-9]{1,3}", rows[0][-1]))


def with_word(text):
    """The text with the word, inside the quotes where the field is quoted."""
    end = header_end(text)
    at = end - 1 if text[end - 1 : end] == b'"' else end
    return text[:at] + b" lex" + text[at:]


def relying():
    """The accepted texts without the word, as folder and name."""
    for folder in FOLDERS:
        for name in sorted(os.listdir(os.path.join(TEXTS, folder))):
            base = os.path.join(TEXTS, folder, name[:-4])
            if name.endswith(".csv") and not load(base + ".txt").startswith(b"refused") and without_word(load(base + ".csv")):
                yield base, name[:-4]


def fuzz_lines():
    """The lines of fuzz.txt: the text, and what is told of it."""
    with open(FUZZ) as file:
        for line in file:
            text, told = line.rstrip("\n").split("-> ")
            yield bytes.fromhex(text), told


def change(program):
    os.makedirs(WITH)
    for base, name in list(relying()):
        text = load(base + ".csv")
        with open(os.path.join(WITH, name + ".csv"), "wb") as file:
            file.write(with_word(text))
        os.rename(base + ".txt", os.path.join(WITH, name + ".txt"))
        with open(base + ".txt", "wb") as file:
            file.write(subprocess.run([program], input=text, stdout=subprocess.PIPE, check=True).stdout)
    lines, behind = [], []
    for text, told in fuzz_lines():
        if told.startswith("read") and without_word(text):
            p, m, order, n = told.split()[1:]
            assert order == "0"
            behind.append((text, "read %s %s 2 %s" % (p, m, n)))
            text = with_word(text)
        lines.append((text, told))
    with open(FUZZ, "w") as file:
        for text, told in lines + behind:
            file.write("%s%s-> %s\n" % (text.hex(), " " if text else "", told))


def check():
    due = {name: with_word(load(base + ".csv")) for base, name in relying()}
    stored = {name[:-4]: load(os.path.join(WITH, name)) for name in os.listdir(WITH) if name.endswith(".csv")}
    wrong = ["tests/texts/lex-word/%s.csv" % name for name in sorted(due.keys() | stored.keys()) if due.get(name) != stored.get(name)]
    wrong += ["%s.csv: longer than %d bytes" % (name, MOST) for name in sorted(stored) if len(stored[name]) > MOST]
    told = dict(fuzz_lines())
    lines = [text for text in told if told[text].startswith("read") and without_word(text)]
    for text in lines:
        p, m, order, n = told[text].split()[1:]
        if order != "2" or told.get(with_word(text)) != "read %s %s 0 %s" % (p, m, n):
            wrong.append("fuzz.txt: " + text.hex())
    for text in wrong:
        print("lex word: not as it must be: " + text)
    print("lex word: %d texts and %d lines, %d wrong" % (len(stored), len(lines), len(wrong)))
    return 1 if wrong or not stored or not lines else 0


if __name__ == "__main__":
    sys.exit(change(sys.argv[1]) if len(sys.argv) > 1 else check())
