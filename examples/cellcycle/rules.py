#!/usr/bin/env python3
"""The data set of this folder, made from published rules: states.csv, CycA.csv and courses.csv. With --check the stored files are compared.

The rules are those of A. Faure, A. Naldi, C. Chaouiya and D. Thieffry, "Dynamical analysis of a generic Boolean model for the
control of the mammalian cell cycle", Bioinformatics 22(14), 2006, e124-e131, Table 1: ten genes, on or off.

With CycD on, as in a dividing cell, Rb and p27 are off from the next step on and stay so; CycE acts on those two alone. So
the next levels of all genes follow from six of them, and these have 64 states, as many as a sheet takes."""
import itertools
import pathlib
import sys

GENES = ("E2F", "CycA", "Cdc20", "Cdh1", "UbcH10", "CycB")
TARGETS = ("E2F", "CycE", "CycA", "Cdc20", "Cdh1", "UbcH10", "CycB")
DIVIDING = {"CycD": 1, "Rb": 0, "p27": 0, "CycE": 0}


def next_levels(level):
    """One step of the published network: all ten genes at once."""
    CycD, Rb, E2F, CycE, CycA, p27, Cdc20, Cdh1, UbcH10, CycB = (bool(level[name]) for name in (
        "CycD", "Rb", "E2F", "CycE", "CycA", "p27", "Cdc20", "Cdh1", "UbcH10", "CycB"))
    return {
        "CycD": CycD,
        "Rb": (not CycD and not CycE and not CycA and not CycB) or (p27 and not CycD and not CycB),
        "E2F": (not Rb and not CycA and not CycB) or (p27 and not Rb and not CycB),
        "CycE": E2F and not Rb,
        "CycA": (E2F or CycA) and not Rb and not Cdc20 and not (Cdh1 and UbcH10),
        "p27": (not CycD and not CycE and not CycA and not CycB) or (p27 and not (CycE and CycA) and not CycB and not CycD),
        "Cdc20": CycB,
        "Cdh1": (not CycA and not CycB) or Cdc20 or (p27 and not CycB),
        "UbcH10": not Cdh1 or (UbcH10 and (Cdc20 or CycA or CycB)),
        "CycB": not Cdc20 and not Cdh1,
    }


def states():
    return [dict(zip(GENES, levels)) for levels in itertools.product((0, 1), repeat=len(GENES))]


def step(state):
    """The next level of each target in a dividing cell."""
    after = next_levels({**DIVIDING, **state})
    return {name: int(after[name]) for name in TARGETS}


def courses():
    """Time courses of the network that show what follows on each state: from the first state that none has shown yet, until a state
    comes that one has shown."""
    shown, found = set(), []
    for state in states():
        if tuple(state.values()) not in shown:
            found.append([tuple(state.values())])
            while found[-1][-1] not in shown:
                shown.add(found[-1][-1])
                after = step(dict(zip(GENES, found[-1][-1])))
                found[-1].append(tuple(after[gene] for gene in GENES))
    return found


def texts():
    """Each file of the data set: all states with all next levels, a text for one target, and a text of time courses."""
    table = [",".join([*GENES, *(f"next.{name}" for name in TARGETS)])]
    text = [",".join([*GENES, "mod 2"])]
    for state in states():
        after = step(state)
        table.append(",".join(str(level) for level in [*state.values(), *after.values()]))
        text.append(",".join(str(level) for level in [*state.values(), after["CycA"]]))
    course = [text[0], *(",".join(map(str, [*state, number])) for number, states_met in enumerate(courses(), 1) for state in states_met)]
    return {name: "\n".join(lines) + "\n" for name, lines in (("states.csv", table), ("CycA.csv", text), ("courses.csv", course))}


def settled():
    """Rb and p27 are off after any step with CycD on, and CycE acts on nothing else: what the docstring says."""
    for state in states():
        for Rb, p27, CycE in itertools.product((0, 1), repeat=3):
            after = next_levels({**DIVIDING, **state, "Rb": Rb, "p27": p27, "CycE": CycE})
            if after["Rb"] or after["p27"] or (not Rb and not p27 and any(bool(after[name]) != bool(step(state)[name]) for name in TARGETS)):
                return False
    return True


def main():
    here = pathlib.Path(__file__).resolve().parent
    for name, text in texts().items():
        if "--check" not in sys.argv:
            (here / name).write_text(text)
        elif (here / name).read_text() != text:
            sys.exit(f"cellcycle: {name} is not what the rules give")
    if not settled():
        sys.exit("cellcycle: the six genes do not tell all next levels")


if __name__ == "__main__":
    main()
