#!/usr/bin/env python3
"""Hold docs/REVIEW.md to the must-fail edits: each stands once in its table and once in its list of kinds, and no other.

usage: tools/check_edits.py
An edit is crates/CRATE/must-fail/NAME.edit. The table names it CRATE/NAME; a name without a crate, behind a comma, is of
the crate named before it. The list of kinds names it NAME. Each text that an edit replaces has to be one line of its file.
"""
import collections
import os
import re
import sys

ROOT = os.path.join(os.path.dirname(os.path.abspath(__file__)), "..")


def folders():
    """The edits, as CRATE/NAME."""
    found = []
    for crate in sorted(os.listdir(os.path.join(ROOT, "crates"))):
        folder = os.path.join(ROOT, "crates", crate, "must-fail")
        if os.path.isdir(folder):
            found += [f"{crate}/{name[:-5]}" for name in sorted(os.listdir(folder)) if name.endswith(".edit")]
    return found


def section(text):
    """The part of the review that is about substitutes: the lists of kinds, and the table."""
    part = text.split("## 3. Substitutes", 1)[1].split("\n## ", 1)[0]
    head, table = part.split("| substitute |", 1)
    return head, [row for row in table.split("\n") if row.startswith("|")][1:]


def tabled(rows):
    found = []
    for row in rows:
        crate = ""
        for name in row.split("|")[2].split(","):
            crate = name.strip().rpartition("/")[0] or crate
            found.append(f"{crate}/{name.strip().rpartition('/')[2]}")
    return found


def unique_line(edit):
    """Whether each text that the edit replaces is one line of its file."""
    crate, name = edit.split("/")
    base, lines = os.path.join(ROOT, "crates", crate), []
    with open(os.path.join(base, "must-fail", name + ".edit"), encoding="utf-8") as file:
        for line in file.read().split("\n"):
            if line.startswith("file: "):
                path = os.path.join(base, line[6:])
                if not os.path.isfile(path):
                    return False
                with open(path, encoding="utf-8") as edited:
                    lines = edited.read().split("\n")
            elif line.startswith("old: ") and lines.count(line[5:]) != 1:
                return False
    return bool(lines)


def differences(edits, text):
    head, rows = section(text)
    counted = collections.Counter(tabled(rows))
    words = collections.Counter(re.findall(r"\b[a-z][a-z0-9]*(?:_[a-z0-9]+)+\b", head))
    for edit in edits:
        if counted[edit] != 1:
            yield f"{edit} stands {counted[edit]} times in the table of docs/REVIEW.md"
        if words[edit.split("/")[1]] != 1:
            yield f"{edit} stands {words[edit.split('/')[1]]} times in the kinds of docs/REVIEW.md"
        if not unique_line(edit):
            yield f"{edit}: its text is not one line of its file"
    for name in sorted(set(counted) - set(edits)):
        yield f"{name} stands in the table of docs/REVIEW.md and is no edit"


def main():
    edits = folders()
    with open(os.path.join(ROOT, "docs", "REVIEW.md"), encoding="utf-8") as file:
        wrong = list(differences(edits, file.read()))
    for line in wrong:
        print(line)
    if wrong or not edits:
        sys.exit(1)
    print(f"edits: {len(edits)}, each in the review")


if __name__ == "__main__":
    main()
