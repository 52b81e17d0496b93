#!/usr/bin/env python3
"""A time course run forward: the last course of courses.csv has two records, and the model of all courses runs on to the cell cycle,
as the published rules do; then the model of the first course alone. forward.R does the same in R and prints the same."""
import csv
import pathlib

import misqafur

folder = pathlib.Path(__file__).resolve().parent
with open(folder / "states.csv", newline="") as file:
    following = {tuple(int(row[gene]) for gene in list(row)[:6]): row for row in csv.DictReader(file)}
text = (folder / "courses.csv").read_bytes()


def by_the_rules(state, genes):
    """The next state by the published rules."""
    return tuple(int(following[state][f"next.{gene}"]) for gene in genes)


def shown(course):
    print(f"  {' '.join(course.names)}")
    for step, state in enumerate(course.states):
        print(f"  step {step}: {' '.join(map(str, state))}{' (measured)' if step < course.measured else ''}")


last = misqafur.course(text, int(text.split(b",")[-1]))
agree = all(by_the_rules(state, last.names) == after for state, after in zip(last.states, last.states[1:]))
print(f"From all {len(last.courses)} courses, at {len(last.sheet)} states:")
print(f"  course {last.number} repeats every {last.back} steps from step {last.step - last.back}")
shown(last)
print(f"  by the published rules the states are {'the same' if agree else 'others'}")

header, *records = text.splitlines(keepends=True)
first = misqafur.course(header + b"".join(record for record in records if record.endswith(b",1\n")), 1)
good = sum(tuple(rule(state) for rule in first.rules) == by_the_rules(state, first.names) for state in following)
print(f"From course 1 alone, at {len(first.sheet)} states: it repeats every {first.back} steps from step {first.step - first.back},")
print(f"  and its model gives the next state by the published rules at {good} of the 64 states")
