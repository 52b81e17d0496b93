"""What has to be believed, for tools/check_documents.py: the files of specs/ that the contracts of the operations (README, 'Calls in
Rattle') and of the exports reach, and those that the statements reach besides of the theorems that README names in the line above its
table `| crate | contracts reach | theorems besides |`. A contract or statement reaches the definitions whose names it uses, by the
`use` lines of its file; a definition those that its own text uses. What src/ declares, structs and enums, and what the kit defines
(std, core and the other crates that are none of the repository's) is not followed."""
import os
import re

CALLS, HEAD = "| call | answers |", "| crate | contracts reach | theorems besides |"
THEOREMS = "| theorem | file under proofs/ | it says |"
USE = re.compile(r"^(?:ghost )?use Rattle\.(\w+)\.(specs|proofs)\.([\w.]+?)(?:\.\{([^}]*)\})?(?: as (\w+))?;?$", re.M)
PROMISE = re.compile(r"^    ensures\*?(?: \w+)? \{(.*?)\}$(?=\n(?:    (?:ensures|requires)|\{))", re.S | re.M)
NAME = re.compile(r"(?:(?:abbrev|unfoldable|opaque|pub|record|data) +)*([^\s:({]+)")
WORD = re.compile(r"[^\s(){},;⌜⌝]+")


class Unclear(Exception):
    """What these scripts cannot read, or do not find."""


class Tree:
    """Files by path, with their text where it is read; the paths of folders; the crates; how many names and paths were looked up, and files missed."""

    def __init__(self, files):
        self.files = files
        self.paths = {"/".join(path.split("/")[:k]) for path in files for k in range(1, path.count("/") + 2)}
        self.crates = {path.split("/")[1] for path in files if path.startswith("crates/")}
        self.read = 0
        self.missing = []

    def file(self, crate, kind, name):
        path = f"crates/{crate}/{kind}/{name}.antt"
        if path not in self.files:
            self.missing.append(f"crate {crate} has no {kind}/{name}")
        return path

    def table(self, page, head):
        """The rows of a table, cell by cell."""
        if head not in self.files.get(page, ""):
            raise Unclear(f"{page} has no table `{head}`")
        rows = self.files[page].split(head, 1)[1].split("\n\n", 1)[0].strip("\n").split("\n")[1:]
        cells = [[cell.strip() for cell in row.strip("|").split("|")] for row in rows]
        if {len(row) for row in cells} != {head.count("|") - 1}:
            raise Unclear(f"{page}: the table `{head}` has a row of another number of cells")
        return cells

    def places(self, cell, kind):
        """The files that a cell names: F, G/H, I, where I is one of G or of the top; CRATE: F; without a crate of specification."""
        found = []
        for part in cell.split(";"):
            crate, _, names = part.strip().rpartition(": ")
            folder = ""
            for name in names.split(", "):
                folder = name.rpartition("/")[0] or folder
                inner = f"{folder}/{name.rpartition('/')[2]}"
                here = f"crates/{crate or 'specification'}/{kind}/{inner}.antt" in self.files
                found.append(self.file(crate or "specification", kind, inner if here else name))
        return found


def loaded(root):
    files = {}
    for folder, folders, names in os.walk(root):
        folders[:] = [name for name in folders if name not in (".git", "target", "out", "__pycache__")]
        for name in names:
            text, path = "", os.path.join(folder, name)
            if name.endswith((".rt", ".antt", ".md", ".h")):
                with open(path, encoding="utf-8") as file:
                    text = file.read()
            files[os.path.relpath(path, root)] = text
    return Tree(files)


def ticked(text):
    """The first word of each part in backticks."""
    return [re.split(r"[\s(]", word)[0] for word in re.findall(r"`([^`\n]+)`", text)]


def used(text):
    """The names that a text imports, each with where it stands, crate, specs or proofs, module, and its name there."""
    found = {}
    for crate, kind, module, names, alias in USE.findall(text):
        for name in [alias + "."] if alias else names.split(","):
            own, _, here = name.strip().partition(" as ")
            found[here or own] = ((crate, kind, module.replace(".", "/")), own)
    return found


def definitions(text):
    """The definitions of a file, each with its lines; those in a `module _` stand two spaces in."""
    found, name, depth = {}, None, 0
    for line in re.sub(r"--.*", "", text).split("\n"):
        if line[:1].strip():
            depth = 2 if line.startswith("module ") else 0
        line = line[depth:] if line.startswith(" ") else line
        if line[:1].strip() and not re.match(r"(use|open|module|infix\w*|unfolding) ", line):
            name = NAME.match(line)[1]
        if name:
            found[name] = found.get(name, "") + "\n" + line
    return found


def cited(text, imports):
    """The imported names of a text: as they are, or behind the name of their file."""
    for word in WORD.findall(text):
        front, dot, back = word.partition(".")
        if word.strip(".") in imports:
            yield imports[word.strip(".")]
        elif dot and front + "." in imports:
            yield imports[front + "."][0], back


def reached(tree, names):
    """The files that names reach, as pairs of crate and module."""
    seen, left, parts = set(), list(names), {}
    while left:
        at, name = left.pop()
        path = "crates/{}/{}/{}.antt".format(*at)
        if (at, name) in seen or "/declared/" in path or at[0] not in tree.crates:
            continue
        seen.add((at, name))
        if at[1] == "proofs" or path not in tree.files:
            raise Unclear(f"what has to be believed cites {name} of crate {at[0]}, {at[1]}/{at[2]}")
        if path not in parts:
            parts[path] = definitions(tree.files[path]), used(tree.files[path])
        own, imports = parts[path]
        bodies = [own[name]] if name in own else [body for body in own.values() if re.search(rf"^ +{re.escape(name)} :", body, re.M)]
        if not bodies:
            raise Unclear(f"{name} is not found in {path}")
        for body in bodies:
            left += cited(body, imports | {other: (at, other) for other in own if other != name})
    return {(crate, module) for (crate, _, module), _ in seen}


def promised(tree):
    """The names that the contracts of the operations and of the exports use."""
    calls = []
    for call, _ in tree.table("README.md", CALLS):
        told = re.match(r"`(\w+)::([\w:]+)::(\w+)\(", call)
        if not told:
            raise Unclear(f"README.md: the call {call} cannot be read")
        calls.append((f"crates/{told[1]}/src/{told[2].replace('::', '/')}.rt", told[3]))
    for path, text in tree.files.items():
        if path.startswith("crates/misqafur/src/"):
            calls += [(path, name) for name in re.findall(r'#\[unsafe\(no_mangle\)\]\s+pub extern "C" fn (\w+)', text)]
    for path, name in calls:
        told = re.search(rf"^pub (?:extern \"C\" )?fn {name}\(.*?^\{{$", tree.files.get(path, ""), re.S | re.M)
        promise = told and "\n".join(PROMISE.findall(told[0]))
        if not promise:
            raise Unclear(f"no contract of {name} is found in {path}")
        yield from cited(promise, used(tree.files[path]))


def stated(tree, names):
    """The names that the statements of theorems use."""
    rows = tree.table("docs/THEORY.md", THEOREMS)
    for name in names:
        files = [path for told, cell, _ in rows if name in ticked(told) for path in tree.places(cell, "proofs")]
        found = [(re.search(rf"^( *)(?:pub )?{name} :(.*(?:\n\1 +.*)*)", tree.files.get(path, ""), re.M), path) for path in files]
        if not any(told for told, _ in found):
            raise Unclear(f"theorem {name} is not found")
        for told, path in found:
            yield from cited(told[2], used(tree.files[path])) if told else ()


def believed(tree):
    """What README's table has and should not have, or the other way about."""
    given = [set(), set()]
    for crate, *cells in tree.table("README.md", HEAD):
        for names, cell in zip(given, cells):
            names |= {(crate, name) for name in re.sub(r" \([^)]*\)", "", cell).split(", ") if name}
    first = reached(tree, promised(tree))
    above = tree.files["README.md"].split(HEAD)[0].rstrip("\n").split("\n")[-1]
    second = reached(tree, stated(tree, [name for name in ticked(above) if "/" not in name])) - first
    for due, names, column in ((first, given[0], "contracts reach"), (second, given[1], "theorems besides")):
        tree.read += len(due)
        for crate, name in sorted(due ^ names):
            yield f"README.md, `{column}`: {crate}, {name} " + ("is missing" if (crate, name) in due else "is not reached")
