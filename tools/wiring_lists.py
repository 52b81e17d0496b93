#!/usr/bin/env python3
"""Hold each stored wiring list to the definition of M-107, and change those that were stored before it.

usage: tools/wiring_lists.py [change | carry CALLS TEXTS]
Until M-107 the list was of the variables that occur in the interpolant. Since then a variable is listed where two points
agree in all other variables, differ in this one and have different values, as residues. The list is worked out here from
the points and values of each text and each call whose number is 0, by this definition alone, and held to what is stored:
the last line of a print (folders of tests/texts, misqafur_cli's stdout, examples/three.expected), and the number and the
answer of a wiring call (tests/c/data: calls.txt in full, changes/*.txt by its hash).

With `change` the lists are written into these files. Each new list has to be part of the old one, which `wiring_occurs`
proves of any; how many changed is printed.

With `carry` the calls and texts that a folder of vectors has for M-107 go to tests/c/data/changes/M-107.txt and
tests/texts/M-107, as they are.
"""
import glob, os, sys

sys.dont_write_bytecode = True
from stored import FILLING, ROOT, TEXTS, blocks, call_files, carried, fnv, load, run, store
from text_cases import levels_in


def needed(p, m, points, values):
    """The list: for each variable, whether a pair of points calls for it."""
    pairs = [(a, b) for i, (a, v) in enumerate(zip(points, values)) for b, w in list(zip(points, values))[:i] if (v - w) % p]
    differences = [[k for k in range(m) if (a[k] - b[k]) % p] for a, b in pairs]
    return [k + 1 for k in range(m) if [k] in differences]


def prints():
    """The stored prints with the texts that they are of."""
    for text in sorted(glob.glob(os.path.join(TEXTS, "*", "*.csv"))):
        yield text, text[:-4] + ".txt"
    yield os.path.join(ROOT, "crates", "misqafur_cli", "stdin"), os.path.join(ROOT, "crates", "misqafur_cli", "stdout")
    yield os.path.join(ROOT, "examples", "three.csv"), os.path.join(ROOT, "examples", "three.expected")


def print_due(text, print_):
    """What is due in place of a print, and the lists before and after."""
    lines = load(print_).decode().split("\n")
    if lines[0].startswith("refused"):
        return load(print_), [], []
    (p, m, *_), records = levels_in(load(text))
    due = needed(p, m, [record[:m] for record in records], [record[m] for record in records])
    assert lines[-2].split()[0] == "wiring" and lines[-1] == ""
    old = [int(word) for word in lines[-2].split()[1:]]
    lines[-2] = " ".join(["wiring"] + [str(k) for k in due])
    return "\n".join(lines).encode(), old, due


def call_due(block):
    """The lines of a block with the list that is due, and the lists before and after (the old one only where it is shown)."""
    said = {line.split()[0]: [word for word in line.split()[1:]] for line in block}
    if said["call"] != ["wiring"] or said["number"][0] != "0":
        return block, [], []
    p, m = (int(word) for word in said["settings"][:2])
    points = [[int(word) for word in line.split()[1:]] for line in block if line.startswith("state ")]
    due = needed(p, m, points, [int(word) for word in said["values"][1:]])
    answer = due + [0] * (8 - len(due))
    length = int((said.get("buffer") or said["buffers"])[0])
    whole = bytes(answer + [FILLING] * (length - 8))
    new = {
        "number": "0 %d" % len(due),
        "returned": "%d" % (256 * len(due)),
        "answer": " ".join(str(byte) for byte in whole),
        "answers": "%016x" % fnv(whole),
        "shown": " ".join(str(byte) for byte in answer),
    }
    old = [int(word) for word in (said.get("answer") or said["shown"])[:8] if word != "0"]
    return [" ".join([word, new[word]]) if (word := line.split()[0]) in new else line for line in block], old, due


def calls_due(path):
    lines, lists = [], []
    for block in blocks(path):
        if block[0].startswith("landed"):
            lines += block
            continue
        due, old, new = call_due(block[:-1])
        lines += due + ["end"]
        lists.append((old, new))
    return "".join(line + "\n" for line in lines).encode(), lists


def all_due():
    """Each stored file, what is due in it, and its lists before and after."""
    for text, print_ in prints():
        due, old, new = print_due(text, print_)
        yield print_, due, [(old, new)]
    for path in call_files():
        due, lists = calls_due(path)
        yield path, due, lists


def change():
    changed, lists = 0, 0
    for path, due, pairs in all_due():
        for old, new in pairs:
            assert set(new) <= set(old), path
        changed += due != load(path)
        lists += sum(old != new for old, new in pairs)
        store(path, due)
    print("wiring lists: %d changed, in %d files" % (lists, changed))
    return 0


def carry(calls, texts):
    print("wiring lists: " + carried("M-107", calls, texts))
    return 0


def check():
    wrong, lists = [], 0
    for path, due, pairs in all_due():
        lists += len(pairs)
        if due != load(path):
            wrong.append(os.path.relpath(path, ROOT))
    for path in wrong:
        print("wiring lists: not as it must be: " + path)
    print("wiring lists: %d prints and calls, %d files wrong" % (lists, len(wrong)))
    return 1 if wrong or not lists else 0


if __name__ == "__main__":
    run(change, carry, check)
