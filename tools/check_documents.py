#!/usr/bin/env python3
"""Holds what README.md, docs/ (but docs/changes, docs/PORT.md and docs/DESIGN-PASS.md, which tell of what was) and include/misqafur.h say of the tree to the tree. Read are, in all of them:
  `crate::module::item`  the module, or the item in it; `module::item`: in that module of some crate
  PATH                   from the root (docs/X, crates/X, …) or CRATE/src, /specs, /proofs or /must-fail on: it is there. * is any
                         name, and so is one in capitals; specs/F and proofs/F alone are crate specification's;
                         what rt makes in out/ is passed over
  `name …` (F)           what the names before it begin with is declared in F: CRATE, FILE or a PATH of specs/ or proofs/;
                         so is (`name`, PATH) and (`name`: PATH)
  misqafur_x, MISQAFUR_X the header declares it
In these tables whatever cannot be read is a fault; F, G/H, I are files, I one of G or of the top, of specification or of CRATE: before:
  THEORY, theorems       each name is declared in a file of its row, and each file declares one of the row's names
  REVIEW, operations     those of README; the definition that a contract cites is declared in a file of its row
  REVIEW, substitutes    CRATE: F, G (`name`), where it stands: the files, and the names in them
  REVIEW, forms          files, further ones of the same folder, and names in the file before them
  README, repository     a row for every crate; its words in backticks are modules of it, or crates
  README, believed       tools/believed.py: what contracts and theorems reach
Besides, neither contracts nor definitions cite proofs/, and a note in docs/changes is as it landed. Each run first tries itself:
every edit of a small tree that tools/documents_tried.py has must be noticed.
Says `documents: N names and paths stand in the tree`, or each fault, and then ends with status 1."""
import fnmatch
import hashlib
import os
import re
import sys

sys.dont_write_bytecode = True
from believed import CALLS, THEOREMS, Tree, Unclear, believed, loaded, ticked
from documents_tried import SMALL, TRIES

ROOT = os.path.join(os.path.dirname(os.path.abspath(__file__)), "..")
# Modules of the kit and of R, a class of conditions in R, and a crate that begins as C's names do.
FOREIGN = {"check", "thread", "io", "mpoly", "misqafur_refusal", "misqafur_cli"}
TOP = r"(?:crates|docs|tests|tools|bench|include|examples|man|python|r|\.ci)"
PATH = re.compile(r"(?<![\w/.:$`-])`?(%s/[\w./*-]+|(?:\w+/)?(?:specs|proofs)/\w[\w/-]*|(?:\w+/)?(?:src|must-fail)/\w[\w./-]*)" % TOP)
ITEM = re.compile(r"`(\w+(?:::\w+)+)[^`]*`")
BEFORE = re.compile(r"((?:`[^`\n]+`(?:, | and )?)+) \(`?([^()`\n]+)`?\)")
INSIDE = re.compile(r"\(((?:`[^`/\n]+`, )*`[^`/\n]+`)(?:, |: )`?((?:\w+/)?(?:specs|proofs)/[\w/]+)`?\)")
PLACES = re.compile(r"(\w+): (\w+(?:/\w+)*(?:, \w+(?:/\w+)*)*)(?: \((.*)\))?")
OPERATIONS, SUBSTITUTES = "| operation | contract | the definition |", "| substitute | edit | what bars it |"
FORMS, REPOSITORY = "| place | form | where |", "| place | what it holds |"
# The notes that have landed, and the first 16 digits of their SHA-256: one that lands gets its line with its merge.
NOTES = {
    "docs/changes/M-100.md": "ab29f61fe6b93d62",
    "docs/changes/M-102.md": "6a3f3683503eb767",
    "docs/changes/M-103.md": "164efe303faa8a85",
    "docs/changes/M-104.md": "c0ff581efb85c053",
    "docs/changes/M-105.md": "0f368a709635106c",
    "docs/changes/M-106.md": "85185652235a4dc1",
    "docs/changes/M-107.md": "0df02fce05dbb056",
    "docs/changes/M-108.md": "876c4f539434b89c",
    "docs/changes/M-109.md": "ecc1fcc14764251f",
    "docs/changes/M-110.md": "fd5c75e3115ca256",
    "docs/changes/M-111.md": "1a0103299564292c",
    "docs/changes/M-112.md": "7c4e240cbfbd6d94",
    "docs/changes/M-113.md": "8e5cc943c7f6a5ec",
}


def declares(text, name):
    due = re.escape(name)
    return re.search(rf"^ *(?:(?:abbrev|unfoldable|opaque|pub) +)*(?:{due} :|(?:record|data) {due}[ :])"
                     rf"|^ *(?:pub(?:\(crate\))? |extern \"C\" )*(?:fn|struct|enum|const|mod) {due}\b", text, re.M)


def undeclared(tree, names, paths, where):
    """Those of the names that no file of these declares."""
    tree.read += len(names)
    return [f"{where}: {name} is not declared in {', '.join(paths)}" for name in names
            if not any(declares(tree.files.get(path, ""), name) for path in paths)]


def items(tree, page, text):
    for path in ITEM.findall(text):
        parts = path.split("::")
        whole = parts[0] in tree.crates
        root = f"crates/{parts.pop(0)}/src/" if whole else "/"
        module, item = root + ("/".join(parts[:-1]) or "lib") + ".rt", root + "/".join(parts) + ".rt"
        stands = parts[0] in FOREIGN
        for file in tree.files:
            if file in (module, item) if whole else file.endswith((module, item)):
                stands = stands or not file.endswith(module) or declares(tree.files[file], parts[-1])
        tree.read += 1
        if not stands:
            yield f"{page}: `{path}` does not stand in the tree"


def paths(tree, page, text):
    for path in PATH.findall(text):
        path = re.sub(r"(?<=/)[A-Z]{3,}(?=/|$)", "*", path.rstrip("./-"))
        top = path.split("/")[0]
        if re.match(r"crates/\w+/out/", path):
            continue
        if top in ("specs", "proofs"):
            path = "crates/specification/" + path
        elif top in ("src", "must-fail"):
            path = "*/" + path
        elif top in tree.crates:
            path = "crates/" + path
        elif not re.fullmatch(TOP, top):
            yield f"{page}: {path} begins with no folder and no crate"
            continue
        tree.read += 1
        if not any(fnmatch.filter(tree.paths, path + end) for end in ("", ".antt")):
            yield f"{page}: {path} is not there"


def placed(tree, page, text):
    """The names with their file in parentheses."""
    for names, place in BEFORE.findall(text) + INSIDE.findall(text):
        told = re.fullmatch(r"(?:(\w+)/)?(specs|proofs)/([\w/]+)", place)
        short = re.fullmatch(r"(\w+), ([A-Z][\w/]*)", place)
        if told:
            yield from undeclared(tree, ticked(names), [tree.file(told[1] or "specification", told[2], told[3])], page)
        elif short and short[1] in tree.crates:
            files = [f"crates/{short[1]}/{kind}/{short[2]}.antt" for kind in ("specs", "proofs")]
            yield from undeclared(tree, ticked(names), [file for file in files if file in tree.files], page)
        elif place.startswith("crate "):
            yield from items(tree, page, " ".join(f"`{place[6:]}::{name}`" for name in ticked(names)))
        elif re.match(r"\w+[,:/]", place) and re.match(r"\w+", place)[0] in tree.crates:
            yield f"{page}: ({place}) cannot be read"


def header(tree, page, text):
    """The calls, sizes and helpers; a name that ends in _ stands for all that begin so."""
    code = re.sub(r"/\*.*?\*/", "", tree.files["include/misqafur.h"], flags=re.S)
    code += "".join(f"misqafur_abi_{number} " for number in re.findall(r"^#define MISQAFUR_ABI (\d+)$", code, re.M))
    for name in sorted(set(re.findall(r"(?<![\w/.$-])(?:misqafur|MISQAFUR)_\w+(?![\w/-]|\.\w)", text)) - FOREIGN):
        tree.read += 1
        if not re.search(rf"\b{name}" + ("" if name.endswith("_") else r"\b"), code):
            yield f"{page}: the header does not declare {name}"


def theorems(tree):
    for names, cell, _ in tree.table("docs/THEORY.md", THEOREMS):
        if re.sub(r"`[^`]+`", "", names).strip(" ,;"):
            yield f"docs/THEORY.md: the theorems {names} cannot be read"
        files = tree.places(cell, "proofs")
        yield from undeclared(tree, ticked(names), files, "docs/THEORY.md")
        for path in files:
            if not any(declares(tree.files.get(path, ""), name) for name in ticked(names)):
                yield f"docs/THEORY.md: {path} has none of {names}"


def review(tree, page="docs/REVIEW.md"):
    rows = tree.table(page, OPERATIONS)
    calls = {word for call, _ in tree.table("README.md", CALLS) for word in ITEM.findall(call)}
    calls ^= {word for row in rows for word in ITEM.findall(row[0])}
    yield from (f"{call} is an operation in README.md or {page} alone" for call in sorted(calls))
    for _, contract, cell in rows:
        yield from undeclared(tree, ticked(contract), tree.places(cell, "specs"), page)
    for _, _, bar in tree.table(page, SUBSTITUTES):
        for part in re.split(r"; (?=\w+: )", bar) if re.match(r"\w+: ", bar) else []:
            told = PLACES.fullmatch(part)
            if not told:
                raise Unclear(f"{page}: `{part}` cannot be read")
            yield from undeclared(tree, ticked(told[3] or ""), tree.places(f"{told[1]}: {told[2]}", "specs"), page)
    for _, _, cell in tree.table(page, FORMS):
        last = ""
        for part in re.split(r"[,;] ", cell) if cell != "not yet" else []:
            if part.startswith("`"):
                yield from undeclared(tree, ticked(part), [last], page)
                continue
            last = f"crates/{part}" if part.split("/")[0] in tree.crates else os.path.dirname(last) + "/" + part
            if last not in tree.paths:
                yield f"{page}: {part} is not there"


def repository(tree):
    told = set()
    for place, holds in tree.table("README.md", REPOSITORY):
        for path in place.split(", "):
            crate = path.split("/")[1] if path.startswith("crates/") else ""
            told.add(crate)
            if path not in tree.paths:
                yield f"README.md: {path} is not there"
            for word in re.findall(r"`(\w+)`", holds) if crate else []:
                if f"crates/{crate}/src/{word}.rt" not in tree.files and word not in tree.crates:
                    yield f"README.md: {path} has no module {word}"
    yield from (f"README.md: crate {crate} has no row" for crate in sorted(tree.crates - told))


def citing(tree):
    for path, text in tree.files.items():
        if re.match(r"crates/\w+/(src|specs)/", path) and any(
                crate in tree.crates for crate in re.findall(r"^(?:ghost )?use Rattle\.(\w+)\.proofs\.", text, re.M)):
            yield f"{path} cites proofs/: what contracts and definitions say stands in specs/"


def frozen(tree, sums):
    notes = {path: text for path, text in tree.files.items() if path.startswith("docs/changes/")}
    for path in sorted(set(notes) | set(sums)):
        if hashlib.sha256(notes.get(path, "").encode()).hexdigest()[:16] != sums.get(path):
            yield f"{path} is not as it landed (NOTES in tools/check_documents.py); later measurements go to docs/PERFORMANCE.md"


def faults(tree, sums):
    pages = [path for path in tree.files if re.fullmatch(r"README\.md|docs/(?!changes/|PORT\.md$|DESIGN-PASS\.md$).*\.md|include/.*\.h", path)]
    checks = [check(tree, page, tree.files[page]) for page in pages for check in (items, paths, placed, header)]
    checks += [check(tree) for check in (theorems, review, repository, believed, citing)] + [frozen(tree, sums)]
    found = []
    for check in checks:
        try:
            found += check
        except Unclear as unclear:
            found.append(str(unclear))
    return found + tree.missing


def unnoticed():
    """The edits of the small tree that are not noticed, or that change nothing."""
    sums = {"docs/changes/M-1.md": hashlib.sha256(b"landed\n").hexdigest()[:16]}
    missed = [f"the small tree: {fault}" for fault in faults(Tree(SMALL), sums)]
    for path, old, new in TRIES:
        edited = SMALL[path].replace(old, new, 1)
        if edited == SMALL[path] or not faults(Tree(SMALL | {path: edited}), sums):
            missed.append(f"`{old}` as `{new}` in {path} would not be noticed")
    return missed


def main():
    tree = loaded(ROOT)
    found = unnoticed() + faults(tree, NOTES)
    for text in found or [f"{tree.read} names and paths stand in the tree"]:
        print(f"documents: {text}")
    return 1 if found else 0


if __name__ == "__main__":
    sys.exit(main())
