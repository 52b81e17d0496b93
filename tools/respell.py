#!/usr/bin/env python3
"""Respells the repository's own definitions and lemmas, once, directly after the kit's port.py: camelCase and dashes become snake_case, types UpperCamelCase.

usage: tools/respell.py [CHECKOUT]

A name is the repository's if a file of specs/ or proofs/ declares it. Names of the kit, names that a check makes for the places of a function,
functions, strings and inputs keep their spelling. A lemma that would fall together with a definition gets '_lem' behind its name. The crates that are
named as libraries of the kit get names of their own.
"""
import re
import sys
from pathlib import Path

CRATES = {"csv": "comma_text", "json": "json_text"}
# Lemmas, spelled in snake case already, that fall together with a definition which was in camel case.
LEMMAS = ["is_among", "is_digit", "moved_on", "product_at", "read_at", "row_count", "rows_in", "sorted_of", "taken_out", "too_many", "too_short", "with_first"]
DECLARED = re.compile(r"^(\s*)(?:(?:pub|unfoldable|abbrev|private|opaque)\s+)*((?:data|record|ruleset)\s+)?([^\s(){}\[\];,.:@λ→]+)\s*(:(?![:=])|\(|\{|where\b|$|=)")
TOKEN = re.compile(r"[^\s(){}\[\];,.:@\"`⌜⌝|]+")
NAME = re.compile(r"^[A-Za-z][\w'′₀-₉-]*$")


def snake(name):
    """A name in snake case: dashes to underscores, and an underscore before each capital behind a small letter or a digit."""
    return re.sub(r"(?<=[a-z0-9])([A-Z])", lambda m: "_" + m.group(1).lower(), name.replace("-", "_"))


def camel(name):
    return "".join(w[:1].upper() + w[1:] for w in re.split(r"[-_]", name))


def files(root, *endings):
    return [p for p in sorted((root / "crates").rglob("*")) if p.suffix in endings and "out" not in p.relative_to(root).parts]


def declared(text):
    """The names that a file declares: each with its line and whether it stands inside a record or a section."""
    for line in text.splitlines():
        if line.lstrip().startswith("--"):
            continue
        found = DECLARED.match(line)
        if found and (found.group(2) or found.group(4) == ":"):
            yield found.group(3), line, bool(found.group(1))
        for more in re.finditer(r"[;|]\s*([a-z][\w'-]*[\w'])\s+:(?![:=])", line):
            yield more.group(1), line, True


def fields(text):
    """The fields of the records that a file declares."""
    inside = False
    for line in text.splitlines():
        if re.match(r"^\s*(?:(?:pub|abbrev|unfoldable)\s+)*record\b", line):
            inside = True
        elif line.strip() and not line.startswith(" "):
            inside = False
        if inside:
            for name in re.findall(r"(?:^|[;{])\s*(?:pub\s+)?([a-z][\w'-]*)\s*:(?![:=])", line):
                yield name


def taken(text, own):
    """The names that a file takes from the kit's libraries, and those that it takes from proofs of the repository."""
    kit, proofs = set(), set()
    for path, items in re.findall(r"^(?:pub )?(?:ghost )?use ([^\s;]+?)\.\{([^}]*)\}", text, re.M):
        parts = path.split(".")
        names = {i.strip().split(" as ")[-1] for i in items.split(",")}
        if parts[0] == "Rattle" and len(parts) > 1 and parts[1] in own:
            if "proofs" in parts:
                proofs |= names
        else:
            kit |= {i.strip().split(" as ")[0] for i in items.split(",")}
    return kit, proofs


def known(root):
    """The names to be turned, with their new spelling; the fields of records; the functions of src/ in the spelling of an old place."""
    own = {line.split(":")[0].split()[0] for line in (root / "crates.txt").read_text().splitlines() if line.strip() and not line.startswith("#")}
    texts = {p: p.read_text() for p in files(root, ".antt", ".rt")}
    names, held, functions = {}, set(), set()
    for path, text in texts.items():
        if path.suffix == ".rt":
            functions |= {f.replace("_", "-") for f in re.findall(r"\bfn (\w+)", text)}
            continue
        if path.name != "Proof.antt":
            held |= set(fields(text))
        for name, line, inner in declared(text):
            if path.name == "Proof.antt" and re.search(r":\s*(tie\.(Need|invariant|decreases)|\{M : )", line):
                continue
            if NAME.match(name) and re.search(r"-|[a-z0-9][A-Z]", name):
                if name[0].islower():
                    names[name] = snake(name)
                elif "-" in name:
                    names[name] = camel(name)
    names = {a: b for a, b in names.items() if a != b}
    together = set()
    for text in texts.values():
        by_new = {}
        for word in set(TOKEN.findall(text)):
            by_new.setdefault(names.get(word, word), set()).add(word)
        for new, words in by_new.items():
            if len(words) > 1:
                together |= {w for w in words if "-" in w}
    for word in together:
        if word in names:
            names[word] += "_lem"
    return own, texts, names, held, functions


def respelled(path, text, own, names, held, functions):
    """The text of a file with the names turned."""
    kit, proofs = taken(text, own)
    here = {n for n, line, inner in declared(text) if not inner or path.name in ("AllGathered.antt", "Words.antt", "DrawnTables.antt", "ProductValues.antt", "InsertionLaws.antt", "FirstFault.antt", "SheetRead.antt")}
    lemmas = {l for l in LEMMAS if path.suffix == ".antt" and (l in proofs or l in here and "specs" not in path.parts)}
    proof = path.name == "Proof.antt"

    def turn(m):
        word = m.group(0)
        before = text[m.start() - 1 : m.start()]
        if word in lemmas and before != "." and text[m.end() : m.end() + 1] != ".":
            return word + "_lem"
        if word not in names or word in kit:
            return word
        if proof and before == ".":
            if word not in held or word in functions:
                return word
        return names[word]

    return TOKEN.sub(turn, text)


def renamed_crates(root):
    for path in files(root, ".antt", ".rt"):
        text = path.read_text()
        for old, new in CRATES.items():
            text = re.sub(r"\bRattle\.%s\." % old, "Rattle.%s." % new, text)
            if path.suffix == ".rt":
                text = re.sub(r"\b%s::" % old, new + "::", text)
        path.write_text(text)
    listed = root / "crates.txt"
    lines = []
    for line in listed.read_text().splitlines():
        if not line.startswith("#"):
            for old, new in CRATES.items():
                line = re.sub(r"(?<![\w])%s(?![\w])" % old, new, line)
        lines.append(line)
    listed.write_text("\n".join(lines) + "\n")
    for old, new in CRATES.items():
        if (root / "crates" / old).is_dir():
            (root / "crates" / old).rename(root / "crates" / new)


def main(where):
    root = Path(where)
    own, texts, names, held, functions = known(root)
    changed = 0
    for path, text in texts.items():
        new = respelled(path, text, own, names, held, functions)
        if new != text:
            path.write_text(new)
            changed += 1
    for path in sorted((root / "crates").glob("*/must-fail/*.edit")):
        text = path.read_text()
        path.write_text("".join(TOKEN.sub(lambda m: names.get(m.group(0), m.group(0)), l) if re.match("(old|new):", l) else l for l in text.splitlines(True)))
    renamed_crates(root)
    print(f"{len(names)} names, {changed} files")
    return names


if __name__ == "__main__":
    if "--names" in sys.argv:
        for old, new in sorted(known(Path("."))[2].items()):
            print(old, new)
    else:
        main(sys.argv[1] if len(sys.argv) > 1 else ".")
