#!/usr/bin/env python3
"""From states to rules: the rule of each gene as a polynomial modulo 2, worked out from the 64 states of states.csv; then from
the seven states of the cell cycle alone. recover.R does the same in R and prints the same."""
import csv
import pathlib

import misqafur

with open(pathlib.Path(__file__).resolve().parent / "states.csv", newline="") as file:
    header, *rows = csv.reader(file)
genes, targets = header[:6], [name[len("next."):] for name in header[6:]]
states = [[int(level) for level in row[:6]] for row in rows]
following = {tuple(state): dict(zip(targets, map(int, row[6:]))) for state, row in zip(states, rows)}


def recovered(states):
    """The polynomial of each target over the sheet of some states, and its wiring list."""
    sheet = misqafur.Sheet(2, genes).draw_up(states)
    for target in targets:
        values = [following[tuple(state)][target] for state in states]
        yield target, sheet.interpolate(values), [genes[k - 1] for k in sheet.wiring(values)]


def cycle(state):
    """The states that a state runs into and that come round again."""
    seen = []
    while state not in seen:
        seen.append(state)
        state = tuple(following[state][gene] for gene in genes)
    return seen[seen.index(state):]


print("From all 64 states:")
for target, rule, wiring in recovered(states):
    print(f"  {target} = {rule}")
    print(f"    wiring: {' '.join(wiring)}")

course = cycle(tuple(states[0]))
print(f"From the {len(course)} states of the cycle, and at how many of the 64 states that rule holds:")
for target, rule, _ in recovered(course):
    print(f"  {target} = {rule}  ({sum(rule(state) == following[tuple(state)][target] for state in states)})")
