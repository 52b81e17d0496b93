#!/usr/bin/env python3
"""Hold the must-fail edits to what the checker said first of each: a fact that fails, not a proof that no longer fits.

usage: tools/check_bars.py LOG
LOG is what `rt ci` or `rt must-fail` printed, which has for each edit crates/CRATE/must-fail/NAME.edit a line `rt: must-fail
CRATE/NAME.edit: refused, as it must be: ERROR`; errors in proof files that only miss a name which the edit took away are passed
over there. An edit that has no such line or more than one, that is refused for no other error than these or by a limit of the
checker, or whose error is one of those below bars nothing: the checker had not come to a fact about the edited code or
definition, and would say the same of a right program that is written in another way.
"""
import re
import sys

sys.dont_write_bytecode = True
from check_edits import folders

TRIED = re.compile(r"^rt: must-fail (\S+)\.edit: (.*)")
REFUSED = "refused, as it must be: "
SHOW_NOTHING = (
    "that can be named",  # the proof names a goal that the edited code does not have
    "no occurrence",  # the proof rewrites a term that the edited definition does not have
    "so this cannot be checked",  # it only follows from another error
    "was not checked",  # nor does a declaration whose ground was refused show more than that ground
    "were not checked",
)


def verdicts(path):
    """What a log says of each edit."""
    found = {}
    with open(path, encoding="utf-8", errors="replace") as file:
        for said in filter(None, map(TRIED.match, file)):
            found.setdefault(said[1], []).append(said[2])
    return found


def fault(said):
    """Why an edit of which this was said bars nothing; None if it bars something."""
    if len(said) != 1:
        return f"the log speaks of it {len(said)} times"
    if not said[0].startswith(REFUSED):
        return said[0][:200]
    error = said[0][len(REFUSED):]
    return f"its first error shows nothing: {error[:200]}" if any(phrase in error for phrase in SHOW_NOTHING) else None


def main():
    if len(sys.argv) != 2:
        sys.exit("usage: tools/check_bars.py LOG")
    edits, said = folders(), verdicts(sys.argv[1])
    faults = {edit: fault(said.get(edit, [])) for edit in edits}
    for edit, why in faults.items():
        if why:
            print(f"{edit}: {why}")
    if any(faults.values()) or not edits:
        sys.exit(1)
    print(f"bars: {len(edits)}, and of none the first error shows nothing")


if __name__ == "__main__":
    main()
