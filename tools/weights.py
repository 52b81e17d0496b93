#!/usr/bin/env python3
"""Hold the stored calls and texts to the weights of M-109, and carry those over that were stored before it.

usage: tools/weights.py [change | carry CALLS TEXTS]
Since M-109 every call with settings is handed weights and the reader of text a buffer for them, order 3 is by weight, 5 is for an
order above that, and 15 for wrong weights, directly after 5. Which of 3, 4, 5 and 15 each stored call is refused with, if any, is
worked out here from its settings, by the definition alone, and what the reader leaves in the buffer of weights from the text; of
each text by weight also what is printed (tools/plain_basis.py), or with which of these it is refused. Without a word that is
compared with tests/c/data (calls.txt, changes/*.txt) and with the prints of tests/texts.

With `change`, once, what was stored before is carried over. The calls have no weights: calls.txt has no place for them, and in
changes/*.txt their number stood as 0 already. So a call changes only where its order is 3, which was refused with 5 and is with 15,
for want of weights; and a reading gets a fourth buffer, of 8 bytes, which are 0 where the text is taken.

With `carry` the calls and texts that a folder of vectors has for M-109 go to tests/c/data/changes/M-109.txt and
tests/texts/M-109, as they are.
"""
import glob, json, os, sys

sys.dont_write_bytecode = True
from replicates import calls_due, numbers, print_of, text_of, words
from stored import FILLING, ROOT, TEXTS, call_files, carried, fnv, load, run, store
from text_cases import records_in

PRIMES = [p for p in range(2, 62) if all(p % d for d in range(2, p))]
SIZE = 8
BY_SETTINGS = ("3", "4", "5", "15")
FORM = ("1", "2", "19")  # what a text is refused with before its settings are known


def right(m, order, weights):
    """Whether eight weights are such for m variables and an order."""
    weighed = m if order == 3 else 0
    return all(0 < weight < 100 for weight in weights[:weighed]) and not any(weights[weighed:])


def settings_refusal(moduli, p, m, order, weights):
    """The refusal of settings, 0 for none."""
    return 3 if p not in moduli else 4 if not 1 <= m <= 8 else 5 if order > 3 else 0 if right(m, order, weights) else 15


def padded(weights):
    return [*weights, *[0] * SIZE][:SIZE]


def told(text):
    """The refusal of the settings of a text without faults of form, and its weights."""
    p, m, order, weights = records_in(text)[0]
    return settings_refusal(PRIMES, p, m, order, padded(weights)), padded(weights)


def reading_due(block):
    """A reading with the fourth buffer that is due by its text, and its number."""
    said = words(block)
    lengths = (numbers(said, "buffers") + [SIZE])[:4]
    left = [FILLING] * lengths[3]
    if said["number"][0] not in FORM:
        refusal, weights = told(text_of(said))
        assert (said["number"][0] if said["number"][0] in BY_SETTINGS else "0") == str(refusal), block
        left[:SIZE] = weights if said["number"][0] == "0" else left[:SIZE]
    new = {"buffers": lengths, "answers": said["answers"][:3] + ["%016x" % fnv(bytes(left))]}
    return [" ".join([word, *(str(x) for x in new[word])]) if (word := line.split()[0]) in new else line for line in block]


def json_due(block):
    """A reading of JSON, of which the settings ask for its refusal, with the buffer of weights that is due by its text (M-112)."""
    said = words(block)
    left = [FILLING] * numbers(said, "buffers")[0]
    if said["number"][0] not in FORM:
        text = json.loads(text_of(said))
        refusal = settings_refusal(PRIMES, text["modulus"], text["variables"], text["order"], padded(text["weights"]))
        assert (said["number"][0] if said["number"][0] in BY_SETTINGS else "0") == str(refusal), block
        left[:SIZE] = padded(text["weights"]) if said["number"][0] == "0" else left[:SIZE]
    return ["answers %016x" % fnv(bytes(left)) if line.startswith("answers ") else line for line in block]


def due(block):
    """A block with the refusal that its settings ask for."""
    said = words(block)
    if said["call"] == ["read_text"]:
        return reading_due(block)
    if said["call"] == ["time_course"]:
        number = said["number"][0]
        assert number in FORM or (number if number in BY_SETTINGS else "0") == str(told(text_of(said))[0]), block
        return block
    if said["call"] == ["read_json"]:
        return json_due(block)
    p, m, order, packed = (numbers(said, "settings") + [0])[:4]
    refusal = settings_refusal([2] if said["call"] == ["draw_up_packed"] else PRIMES, p, m, order, packed.to_bytes(SIZE, "little"))
    if said["call"] == ["run"] or not refusal:
        assert not refusal and said.get("number", ["0"])[0] not in BY_SETTINGS, block
        return block
    return ["%s %d" % (line.split()[0], refusal) if line.startswith(("number ", "returned ")) else line for line in block]


def change():
    changed = 0
    for path in call_files():
        after = calls_due(path, due)
        changed += sum(a != b for a, b in zip(after.split(b"\nend\n"), load(path).split(b"\nend\n")))
        store(path, after)
    print("weights: %d calls changed" % changed)
    return 0


def carry(calls, texts):
    print("weights: " + carried("M-109", calls, texts))
    return 0


def texts_wrong():
    """The stored texts that are refused with another number than their settings ask for, or of which by weight another sheet is
    printed; how many are by weight."""
    wrong, weighed = [], 0
    for path in sorted(glob.glob(os.path.join(TEXTS, "*", "*.txt"))):
        text, said = load(path[:-4] + ".csv"), load(path).decode()
        number = said.split()[1] if said.startswith("refused") else "0"
        if number in FORM:
            continue
        refusal, weights = told(text)
        by_weight = not refusal and any(weights)
        weighed += by_weight
        if (number if number in BY_SETTINGS else "0") != str(refusal) or (by_weight and print_of(text) != said):
            wrong.append(path)
    return wrong, weighed


def check():
    texts, weighed = texts_wrong()
    wrong = [path for path in call_files() if calls_due(path, due) != load(path)] + texts
    for path in wrong:
        print("weights: not as it must be: " + os.path.relpath(path, ROOT))
    print("weights: %d files of calls, %d texts by weight, %d wrong" % (len(call_files()), weighed, len(wrong)))
    return 1 if wrong or not weighed else 0


if __name__ == "__main__":
    run(change, carry, check)
