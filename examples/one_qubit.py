#!/usr/bin/env python3
"""Writes examples/one_qubit.json: a fit of the gates Gi, Gx and Gy of one qubit to counts.

The counts are drawn, always the same ones, from a device that is not quite the one aimed at: its gates turn by a wrong angle and
depolarize, its preparation and its measurement are imperfect. The model on the card is where the fit starts: the gates aimed at, each
shrunk a little, so that no outcome that was counted has probability 0 (refusal 8)."""

import math
import os
import random
import sys

sys.path.insert(0, os.path.join(os.path.dirname(os.path.abspath(__file__)), "..", "tools"))
from cards.describe import text_of  # noqa: E402

SHOTS = 1000
FIDUCIALS = ([], ["Gx"], ["Gy"], ["Gx", "Gx"])
GERMS = (["Gi"], ["Gx"], ["Gy"], ["Gx", "Gy"])
TIMES = (1, 2, 4)


def gate(axis, angle, shrink):
    """The transfer matrix, in the order I, X, Y, Z, of a turn about axis 1, 2 or 3 that shrinks the Bloch vector."""
    matrix = [[float(i == j) for j in range(4)] for i in range(4)]
    u, v = axis % 3 + 1, (axis + 1) % 3 + 1
    matrix[u][u] = matrix[v][v] = math.cos(angle)
    matrix[v][u], matrix[u][v] = math.sin(angle), -math.sin(angle)
    return [matrix[0]] + [[shrink * x for x in row] for row in matrix[1:]]


def rounded(matrix):
    return [[round(x, 6) + 0.0 for x in row] for row in matrix]


QUARTER = math.pi / 2
DEVICE = {"Gi": gate(3, 0.010, 0.999), "Gx": gate(1, QUARTER + 0.030, 0.995), "Gy": gate(2, QUARTER - 0.020, 0.993)}
DEVICE_STATE = [1.0, 0.0, 0.0, 0.98]
AIMED_AT = {"Gi": gate(3, 0.0, 0.98), "Gx": gate(1, QUARTER, 0.98), "Gy": gate(2, QUARTER, 0.98)}
EFFECTS = [[0.5, 0.0, 0.0, 0.49], [0.5, 0.0, 0.0, -0.49]]


def design():
    """Preparation, a germ repeated, measurement; each sequence once."""
    sequences = []
    for before in FIDUCIALS:
        for after in FIDUCIALS:
            for body in [[]] + [germ * times for germ in GERMS for times in TIMES]:
                if before + body + after not in sequences:
                    sequences.append(before + body + after)
    return sequences


def counts(sequence, draw):
    vector = DEVICE_STATE
    for name in sequence:
        vector = [sum(a * x for a, x in zip(row, vector)) for row in DEVICE[name]]
    zero = sum(e * x for e, x in zip(EFFECTS[0], vector))
    seen = sum(draw.random() < zero for _ in range(SHOTS))
    return [seen, SHOTS - seen]


def turning_entries(name, u, v, w):
    """The entries by which a turn about axis u, and its shrinking, can differ from the one aimed at."""
    return [{"gate": name, "row": i, "column": j} for i, j in ((u, u), (v, v), (v, w), (w, v), (w, w))]


def main():
    draw = random.Random(2026)
    job = {
        "kind": "fit",
        "note": "written by examples/one_qubit.py",
        "controls": {"max_iterations": 200, "objective_tolerance": 1e-4},
        "model": {"state": [1.0, 0.0, 0.0, 0.96], "effects": EFFECTS,
                  "gates": [{"name": name, "matrix": rounded(matrix)} for name, matrix in AIMED_AT.items()]},
        "records": [{"sequence": sequence, "counts": counts(sequence, draw)} for sequence in design()],
        "coordinates": [{"state": 3}] + turning_entries("Gi", 3, 1, 2) + turning_entries("Gx", 1, 2, 3) + turning_entries("Gy", 2, 3, 1),
    }
    print(text_of(job))


if __name__ == "__main__":
    main()
