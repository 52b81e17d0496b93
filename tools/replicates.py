#!/usr/bin/env python3
"""Hold the stored calls and texts to the counts of M-106, and carry those over that were stored before it.

usage: tools/replicates.py [change | carry CALLS TEXTS]
Since M-106 a basis has a fifth table, of counts, and a point that is there already is a replicate. What each stored call
leaves in that table, and each stored text in the buffer of counts, is worked out here, by the definition alone, from the
points, levels or records and the number that is stored; no call and no text has the number 11. Without a word that is
compared with tests/c/data (calls.txt, changes/*.txt and, of fuzz.txt, n) and with the prints of tests/texts.

With `change`, once, the calls and texts of before get counts: calls a fifth table of 64 bytes with a count of 1 for each
point, readings a third buffer. What was refused with 8 or 11 is worked out anew, with the bases of
tools/plain_basis.py; of tests/texts/refusals a text that is refused with another number now gets its name by it, and one that
is taken goes to tests/texts/replicates, with its print. A line of fuzz.txt that is taken now and has no order word goes to
the end with the word `lex`, too (tools/lex_word.py).

With `carry` the calls and texts that a folder of vectors has for M-106 go to tests/c/data/changes/M-106.txt and
tests/texts/M-106. They were made for an M-106 that lands before M-107: their wiring lists are changed to those of M-107.
"""
import glob, json, os, re, subprocess, sys

sys.dont_write_bytecode = True
import lex_word
from plain_basis import SIZES, Basis
from stored import DATA, FILLING, ROOT, TEXTS, blocks, call_files, fnv, load, run, store
from text_cases import gathered, records_in, refusal_of
from wiring_lists import call_due, needed, print_due

DRAWING = ("draw_up", "draw_up_packed")
REFUSED_BEFORE = ("8", "11")
LATE = ("8", "9", "11", "13", "14")  # what a text without faults of form, under good settings, can be refused with


# ---- Calls

def words(block):
    return {line.split()[0]: line.split()[1:] for line in block}


def numbers(said, word):
    return [int(x) for x in said.get(word, [])]


def counts_handed(block):
    """The points and counts of a block's base, and the fifth table as it is lent: none without a base."""
    said = words(block)
    length = int(said["lengths"][4])
    if "base" not in said and said["call"] != ["run"]:
        return [], [FILLING] * length
    points = [tuple(int(x) for x in line.split()[1:]) for line in block if line.startswith("state ")]
    counts = numbers(said, "counts") or [1] * len(points)
    table = counts + [0] * (64 - len(counts)) + [FILLING] * max(0, length - 64)
    for line in block:
        if line.startswith("poke 4 "):
            at, byte = (int(x) for x in line.split()[2:])
            table[at:at + 1] = [byte]
    return list(zip(points, table)), table[:length]


def entered(point, held):
    """The list with a point more: its count raised, or put last."""
    if all(point != other for other, _ in held):
        return held + [(point, 1)]
    return [(other, count + (point == other)) for other, count in held]


def lowered(point, held):
    return [(other, count - (point == other)) for other, count in held if (other, count) != (point, 1)]


def residues(said, levels):
    """The points of some levels, or None where they are no points of these settings."""
    p, m = numbers(said, "settings")[:2]
    if len(levels) % m or any(abs(level) >= p for level in levels):
        return None
    return [tuple(level % p for level in levels[i:i + m]) for i in range(0, len(levels), m)]


def counts_left(block):
    """The fifth table after the call, whose number is stored."""
    said = words(block)
    held, table = counts_handed(block)
    if said["call"] == ["read_json"] and said["number"][0] == "0":  # M-112: those of the text
        counts = json.loads(text_of(said))["counts"]
        return counts + [0] * (64 - len(counts)) + table[64:]
    if said["number"][0] != "0" or said["call"][0] not in ("add", "withdraw", *DRAWING):
        return table
    points = residues(said, numbers(said, "levels")[1:])
    if said["call"][0] in DRAWING:
        held = gathered(points)
    else:
        held = (entered if said["call"] == ["add"] else lowered)(points[0], held)
    assert len(held) == int(said["number"][1]) and all(0 < count < 256 for _, count in held), block
    return [count for _, count in held] + [0] * (64 - len(held)) + table[64:]


def run_left(block, basis):
    """The lines of a run's steps, and its tables at the end, by the reference list; r and the tables where basis is given."""
    said, held, steps, n, r = words(block), [], [], 0, 1
    p, m, order = numbers(said, "settings")[:3]
    for line in block:
        if not line.startswith("do "):
            continue
        kind, count, *levels = line.split()[1:-2]
        levels = [int(x) for x in levels]
        points = residues(said, levels) if int(count) == m else None
        times = dict(held).get(points and points[0], 0)
        if int(count) != m:
            refusal = 7
        elif points is None:
            refusal = 9
        elif kind == "add":
            refusal = 8 if len(held) == 64 and not times else 13 if times == 255 else 0
        else:
            refusal = 0 if times else 12
        stored = int(line.split()[-1])
        if refusal == 0:
            held = (entered if kind == "add" else lowered)(points[0], held)
            n, r = len(held), len(basis(p, m, order, [point for point, _ in held]).leads) if basis else stored >> 16
            stored = 256 * n + 65536 * r
        elif not basis:
            assert stored == refusal, line
        steps.append(" ".join(line.split()[:-1] + [str(refusal or stored)]))
    counts = [count for _, count in held]
    return steps, (n, r), held, counts + [0] * (64 - len(counts))


def hashed(tables, lengths):
    return " ".join("%016x" % fnv((bytes(table) + bytes([FILLING]) * length)[:max(length, 0)]) for table, length in zip(tables, lengths))


def with_counts(block):
    """A block with the fifth table, or the reader's third buffer, that is due by its number."""
    said = words(block)
    if said["call"] == ["read_text"]:
        return reading_with_counts(block)
    if said["call"] == ["time_course"]:  # counts of records that have a successor, from M-111 on
        return block
    block = [line + " 64" if line.startswith("lengths") and len(said["lengths"]) == 4 else line for line in block]
    left = counts_left(block) if said["call"] != ["run"] else run_left(block, None)[3] + [FILLING] * (int(words(block)["lengths"][4]) - 64)
    return [" ".join(line.split()[:5] + ["%016x" % fnv(bytes(left))]) if line.startswith("tables") else line for line in block]


def text_of(said):
    found = b""
    for part in said["text"]:
        byte, _, count = part.partition("*")
        found += b"" if part == "-" else bytes.fromhex(byte) * int(count or 1)
    return found


def reading_with_counts(block):
    said = words(block)
    lengths = numbers(said, "buffers")
    lengths += [64] if len(lengths) == 2 else []
    left = [FILLING] * lengths[2]
    if said["number"][0] == "0":
        (p, m, *_), records = records_in(text_of(said))
        counts = [count for _, count in gathered([tuple(x % p for x in record[:m]) for record in records])]
        assert len(counts) == int(said["number"][1]), block
        left = counts + [0] * (64 - len(counts)) + left[64:]
    new = {"buffers": lengths, "answers": said["answers"][:2] + ["%016x" % fnv(bytes(left))] + said["answers"][3:]}
    return [" ".join([word, *(str(x) for x in new[word])]) if (word := line.split()[0]) in new else line for line in block]


# ---- What was refused with 8 or 11

def answered(block):
    """The number of an addition or a drawing up that was refused with 8 or 11, and the tables that it leaves if it is taken."""
    said = words(block)
    p, m, order = numbers(said, "settings")[:3]
    points = residues(said, numbers(said, "levels")[1:])
    if said["call"] == ["draw_up"]:
        if points is None:
            return (9,), None
        held = gathered(points)
        if len(held) > 64 or any(count > 255 for _, count in held):
            return (8 if len(held) > 64 else 13,), None
        basis = Basis(p, m, order, [point for point, _ in held])
        return (0, len(held), len(basis.leads), basis.cancellations), basis.tables()
    n, r = numbers(said, "claim")
    if n > 64:
        return (8,), None
    if points is None:
        return (9,), None
    held, _ = counts_handed(block)
    right = numbers(said, "base")[:3] == [p, m, order] and n == len(held) and not any(inside(line) for line in block)
    basis = Basis(p, m, order, [point for point, _ in held])
    if not right or r != len(basis.leads):
        return (10,), None
    if points[0] not in dict(held):
        assert n == 64
        return (8,), None
    return (0, n, r), basis.tables()


def inside(line):
    """Whether a line changes a byte within a table's size."""
    return line.startswith("poke ") and int(line.split()[2]) < SIZES[int(line.split()[1])]


def again(block):
    """A block that was refused with 8 or 11, as it is due now; but for the counts."""
    said = words(block)
    if said["call"] == ["run"]:
        steps, ends, held, _ = run_left(block, Basis)
        p, m, order = numbers(said, "settings")[:3]
        tables = hashed(Basis(p, m, order, [point for point, _ in held]).tables(), numbers(said, "lengths"))
        new = {"do": iter(steps), "finally": iter(["finally %d %d" % ends]), "tables": iter(["tables " + tables])}
        return [next(new[word]) if (word := line.split()[0]) in new else line for line in block]
    number, tables = answered(block)
    refusal, n, r, cancellations = (*number, 0, 0, 0)[:4]
    new = {"number": " ".join(str(x) for x in number), "returned": str(refusal + 256 * n + 65536 * r + (cancellations << 32))}
    if tables:
        new["tables"] = hashed(tables, numbers(said, "lengths"))
    return [" ".join([word, new[word]]) if (word := line.split()[0]) in new else line for line in block]


def carried(block):
    """A block from before M-106 for the interface since."""
    said = words(block)
    if "lengths" in said and len(said["lengths"]) == 4:
        block = [line + " 64" if line.startswith("lengths") else line for line in block]
        before = said["call"] == ["run"] or (said["number"][0] in REFUSED_BEFORE and said["call"][0] in ("add", "draw_up"))
        block = again(block) if before else block
    return with_counts(block)


# ---- Texts

def print_of(text):
    """What the program prints of a text without faults of form."""
    settings, records = records_in(text)
    refusal = refusal_of(settings, records)
    if refusal:
        return "refused %d %d\n" % refusal
    (p, m, order, weights), held = settings, {}
    for record in records:
        held.setdefault(tuple(x % p for x in record[:m]), record[m] % p)
    points, values = list(held), list(held.values())
    basis = Basis(p, m, order, points, weights)
    lines = [["points", len(points), "standard", len(points), "rows", len(basis.leads)]]
    lines += [["standard", *e] for e in basis.standard]
    lines += [["row", *lead, ":", *row, *[0] * (len(points) - len(row))] for lead, row in zip(basis.leads, basis.rows)]
    lines += [["interpolant", *basis.interpolant(values)], ["wiring", *needed(p, m, points, values)]]
    return "".join(" ".join(str(word) for word in line) + "\n" for line in lines)


def change_texts():
    """The texts of tests/refusals that were refused with 8 or 11; how many changed."""
    changed = 0
    for path in sorted(glob.glob(os.path.join(TEXTS, "refusals", "*.txt"))):
        if load(path).split()[1].decode() not in REFUSED_BEFORE:
            continue
        text, due, name = path[:-4] + ".csv", print_of(load(path[:-4] + ".csv")), os.path.basename(path)[:-4]
        number = due.split()[1] if due.startswith("refused") else ""
        folder = "refusals" if number else "replicates"
        name = re.sub(r"^(\d+)-\d+-", r"\1-%s-" % number if number else r"\1-", name)
        target = os.path.join(TEXTS, folder, name)
        changed += due.encode() != load(path)
        os.makedirs(os.path.dirname(target), exist_ok=True)
        for old, new in ((text, target + ".csv"), (path, target + ".txt")):
            if old != new:
                subprocess.run(["git", "mv", old, new], check=True)
        store(target + ".txt", due.encode())
    return changed


def told_of(text, told):
    """What is due in place of what is told of a line of fuzz.txt."""
    word, *found = told.split()
    if word == "refused" and found[0] not in LATE:
        return told
    settings, records = records_in(text)
    refusal = refusal_of(settings, records)
    if refusal:
        return "refused %d %d" % refusal
    p, m, order = settings[:3]
    return "read %d %d %d %d" % (p, m, order, len(gathered([tuple(x % p for x in record[:m]) for record in records])))


def change_fuzz():
    lines, behind, changed = [], [], 0
    for text, told in lex_word.fuzz_lines():
        due = told_of(text, told)
        lines.append((text, due))
        changed += due != told
        if due != told and due.startswith("read") and lex_word.without_word(text):
            behind.append((lex_word.with_word(text), told_of(lex_word.with_word(text), "read")))
    with open(lex_word.FUZZ, "w") as file:
        for text, told in lines + behind:
            file.write("%s%s-> %s\n" % (text.hex(), " " if text else "", told))
    return changed


# ---- The command

def calls_due(path, due):
    lines = []
    for block in blocks(path):
        lines += block if block[0].startswith("landed") else due(block[:-1]) + ["end"]
    return "".join(line + "\n" for line in lines).encode()


def change():
    for path in call_files():
        store(path, calls_due(path, carried))
    print("replicates: %d texts and %d lines changed" % (change_texts(), change_fuzz()))
    return 0


def carry(calls, texts):
    store(os.path.join(DATA, "changes", "M-106.txt"), calls_due(calls, lambda block: call_due(block)[0]))
    for text in sorted(glob.glob(os.path.join(texts, "*.csv"))):
        place = os.path.join(TEXTS, "M-106", os.path.basename(text))
        store(place, load(text))
        store(place[:-4] + ".txt", print_due(text, text[:-4] + ".txt")[0])
    return 0


def texts_wrong():
    """The stored prints whose first line is not what the replicates of their text ask for."""
    for path in sorted(glob.glob(os.path.join(TEXTS, "*", "*.txt"))):
        first = load(path).split(b"\n")[0].decode().split()
        if first[0] == "refused" and first[1] not in LATE:
            continue
        settings, records = records_in(load(path[:-4] + ".csv"))
        refusal = refusal_of(settings, records)
        n = len(gathered([tuple(x % settings[0] for x in record[:settings[1]]) for record in records]))
        if first[:3] != (["refused", *(str(x) for x in refusal)] if refusal else ["points", str(n), "standard"]):
            yield path


def check():
    wrong = [path for path in call_files() if calls_due(path, with_counts) != load(path)] + list(texts_wrong())
    told = [(text.hex(), said) for text, said in lex_word.fuzz_lines() if told_of(text, said) != said]
    for path in wrong:
        print("replicates: not as it must be: " + os.path.relpath(path, ROOT))
    for text, said in told:
        print("replicates: fuzz.txt: %s is told as %s" % (text, said))
    eleven = [path for path in call_files() if re.search(rb"^(number 11|.* returns 11)$", load(path), re.M)]
    for path in eleven:
        print("replicates: a call is refused with 11: " + os.path.relpath(path, ROOT))
    print("replicates: %d files of calls, %d wrong" % (len(call_files()), len(wrong) + len(told) + len(eleven)))
    return 1 if wrong or told or eleven else 0


if __name__ == "__main__":
    run(change, carry, check)
