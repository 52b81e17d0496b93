"""What tests/c/data and tests/texts hold, for the tools that check it: where it lies, its calls, block by block, and the way in which
the calls and texts of a request are carried over."""
import glob, os, sys

ROOT = os.path.join(os.path.dirname(os.path.abspath(__file__)), "..")
DATA = os.path.join(ROOT, "tests", "c", "data")
TEXTS = os.path.join(ROOT, "tests", "texts")
FILLING = 170


def load(path):
    with open(path, "rb") as file:
        return file.read()


def store(path, data):
    os.makedirs(os.path.dirname(path), exist_ok=True)
    with open(path, "wb") as file:
        file.write(data)


def fnv(data):
    found = 0xCBF29CE484222325
    for byte in data:
        found = (found ^ byte) * 0x100000001B3 % 2**64
    return found


def call_files():
    return sorted([os.path.join(DATA, "calls.txt")] + glob.glob(os.path.join(DATA, "changes", "*.txt")))


def blocks(path):
    """The blocks of a file of calls, each as its lines without the last, `end`; a first line `landed K` is one of its own."""
    block = []
    for line in load(path).decode().splitlines():
        if line == "end" or line.startswith("landed"):
            yield block + [line]
            block = []
        else:
            block.append(line)
    assert block == []


def carried(request, calls, texts):
    """Stores the calls and texts that a folder of vectors has for a request, as they are, and counts them."""
    store(os.path.join(DATA, "changes", request + ".txt"), load(calls))
    found = sorted(glob.glob(os.path.join(texts, "*.csv")) + glob.glob(os.path.join(texts, "*.txt")))
    for path in found:
        store(os.path.join(TEXTS, request, os.path.basename(path)), load(path))
    return "%d calls and %d texts carried over" % (load(calls).count(b"\nend\n"), len(found) // 2)


def run(change, carry, check):
    """Ends the program by what its words ask for: `change`, `carry CALLS TEXTS`, or nothing, which is to check."""
    if sys.argv[1:] == ["change"]:
        sys.exit(change())
    sys.exit(carry(*sys.argv[2:]) if len(sys.argv) == 4 and sys.argv[1] == "carry" else check())
