"""Refusals in words; with the card, which of its words it was."""

import math
import re

from .describe import DEFAULTS
from .layout import (CONTROLS, KINDS, MODEL_START, NUMBERS_START, Refusal, coordinate_of, coordinate_text, head_of, lowest_fault, nibbles,
                     qubits_fault, read, roles)
from .numbers import Fault, name_text, number, words

REASONS = {1: "a control is not finite and positive (anchor_strength may be 0)", 2: "there are no records", 3: "there are no coordinates",
           4: "a coordinate stands twice", 5: "the gradient is not finite", 6: "a gate's name is zero or that of an earlier gate"}


def parse(line):
    """The refusal of a line `refused N A B`."""
    match = re.fullmatch(r"refused (\d{1,2}) ([0-9a-fA-F]{16}) ([0-9a-fA-F]{16})", " ".join(line.split()))
    if not match:
        raise Fault(f"{line.strip()[:60]!r} is no line `refused N A B` with a decimal number and two words of 16 hexadecimal digits")
    refusal = Refusal(int(match[1]), int(match[2], 16), int(match[3], 16))
    if not 1 <= refusal.number <= 16:
        raise Fault(f"refusal {refusal.number} does not exist: there are 1 to 16")
    return refusal


def without_card(refusal):
    """What is known of a refusal from its line alone."""
    n, a, b = refusal
    if n == 2 and b == 0:
        return f"the model, of dimension {a}, has no effects"
    return {
        1: "the number of qubits is not from 1 to the limit of its kind",
        2: f"a length is wrong: {a} are wanted, and there are {b} (of a card: its words)",
        3: "a number is not finite (NaN or infinity), or a model's dimension is 0",
        4: f"the expectation of the identity is {number(a)!r}, farther from 1 than the tolerance",
        5: "the tolerance is not finite and positive",
        6: "a part of the resulting matrix is not finite",
        7: f"a sequence uses gate {a}, which does not exist",
        8: "a record's probabilities are not finite, not within the tolerance of 0 to 1 or do not add up to 1; or its counts are all 0; or an "
           "outcome of probability 0 was counted",
        9: "the counts of a record add up to 2^64 or more",
        10: "the gauge transform is singular, or too near to it",
        11: "the input vectors of the process are not independent enough for the tolerance",
        12: "the rotations are used up before the matrix is diagonal within the tolerance",
        13: REASONS.get(a, f"reason {a} is unknown"),
        14: f"coordinate {a} names an entry that does not exist",
        15: f"place {a}: a kind that does not exist, a field or whole number above its limit, a bit set where zero belongs, or a card that is "
            f"empty, too long or cut there (of a measurement setting: the index {a} is 3^n or more)",
        16: "the result slice has fewer than 4,096 words, or the work slice fewer than 8,192 (of the C interface also: the answer fewer than 5); "
            "the card was not looked at",
    }[n]


class _Card:
    """What the explanations ask of a card that the reader accepts."""

    def __init__(self, data):
        self.words = words(data)
        self.head = head_of(self.words[0])
        self.roles = roles(self.head)
        self.start = MODEL_START.get(self.head.kind, 0)

    def control(self, name):
        return self.words[1 + CONTROLS.index(name)]

    def names(self):
        return [w for w, role in zip(self.words, self.roles) if role.form == "name"]

    def gate_list(self):
        names = [f"{i} ({name_text(name) or name})" for i, name in enumerate(self.names())]
        return "the model has gates " + ", ".join(names) if names else "the model has no gates"

    def numbers(self, at, count):
        return [number(w) for w in self.words[at:at + count]]

    def records(self):
        """Sequence and counts of each record."""
        at = self.start + self.head.model
        for _ in range(self.head.records):
            gates = [index for w in self.words[at + 1:at + 5] for index in nibbles(w)]
            yield gates[:self.words[at] >> 56], self.words[at + 5:at + 5 + self.head.effects]
            at += 5 + self.head.effects

    def coordinates(self):
        return [w for w, role in zip(self.words, self.roles) if role.form == "coordinate"]

    def probabilities(self, sequence):
        """Each effect times the state put through the gates, added up in the order of the library's sums."""
        d, effects = self.head.d, self.head.effects
        vector = self.numbers(self.start, d)
        first = self.start + d + effects * d
        for gate in sequence:
            at = first + gate * (1 + d * d) + 1
            vector = [_dot(self.numbers(at + d * i, d), vector) for i in range(d)]
        return [_dot(self.numbers(self.start + d + k * d, d), vector) for k in range(effects)]


def _dot(a, b):
    total = -0.0
    for x, y in zip(a, b):
        total += x * y
    return total


def _not_finite(card):
    kind, head = card.head.kind, card.head
    if kind in (5, 6, 7) and head.d == 0:
        return "the model's dimension is 0"
    # Controls and a tolerance that are not finite have refusals of their own.
    for place in range(NUMBERS_START[kind], len(card.words)):
        role = card.roles[place]
        if role.form == "number" and not math.isfinite(number(card.words[place])):
            return f"{role.name} (place {place}) is {number(card.words[place])!r}"
    return {3: "the numbers on the card are finite, and the transfer matrix that they give is not",
            6: "the numbers on the card are finite, and the new model is not",
            5: "the numbers on the card are finite, and a coordinate that the fit tried is not: its steps are too large"}.get(kind)


def _normalization(card, a):
    tolerance = number(card.words[1])
    for place, role in enumerate(card.roles):
        name, _, string = role.name.rpartition(" ")
        if place > 1 and set(string) == {"I"} and abs(number(card.words[place]) - 1.0) > tolerance:
            which = "" if card.head.kind == 1 else " of " + name.rstrip(",")
            return (f"the expectation of the identity{which} (place {place}) is {number(a)!r}, farther from 1 than the tolerance {tolerance!r}")


def _absent_gate(card, a):
    for r, (sequence, _) in enumerate(card.records()):
        for k, gate in enumerate(sequence):
            if gate >= card.head.gates:
                return f"record {r} uses gate {a} as gate {k} of its sequence, and {card.gate_list()}" if gate == a else None


def _probabilities(card):
    tolerance = number(card.words[1] if card.head.kind == 7 else card.control("probability_tolerance"))
    for r, (sequence, counts) in enumerate(card.records()):
        if any(gate >= card.head.gates for gate in sequence):
            return None
        found = card.probabilities(sequence)
        for k, p in enumerate(found):
            if not math.isfinite(p) or p < -tolerance or p > 1.0 + tolerance:
                return f"record {r}: the probability of outcome {k} is {p!r}, not within the tolerance {tolerance!r} of 0 to 1"
        total = -0.0
        for p in found:
            total += p
        if abs(total - 1.0) > tolerance:
            return f"record {r}: the probabilities add up to {total!r}, farther from 1 than the tolerance {tolerance!r}"
        if sum(counts) == 0:
            return f"record {r}: all counts are 0"
        for k, (p, count) in enumerate(zip(found, counts)):
            if count and p <= 0.0:
                return f"record {r}: outcome {k} was counted {count} times, and the model gives it probability 0"


def _overflow(card):
    for r, (_, counts) in enumerate(card.records()):
        if sum(counts) >= 1 << 64:
            return f"the counts of record {r} add up to {sum(counts)}, 2^64 or more"


def _optimization(card, reason):
    if reason == 1 and card.head.kind == 5:
        bad = []
        for name in CONTROLS:
            bits = card.control(name)
            value = bits if isinstance(DEFAULTS[name], int) else number(bits)
            if not math.isfinite(value) or value < 0 or value == 0 and name != "anchor_strength":
                bad.append(f"{name} is {value!r}")
        return f"{' and '.join(bad)}; controls are finite and positive (anchor_strength may be 0)" if bad else None
    if reason == 4:
        found = card.coordinates()
        for i, w in enumerate(found):
            if w in found[:i]:
                return f"coordinate {i} is the same as coordinate {found.index(w)}: {coordinate_text(coordinate_of(w))}"
    if reason == 6:
        names = card.names()
        for i, name in enumerate(names):
            if name == 0:
                return f"the name of gate {i} is zero"
            if name in names[:i]:
                return f"gates {names.index(name)} and {i} have the same name, {name_text(name) or name}"
    return None


def _coordinate(card, a):
    found = card.coordinates()
    if a >= len(found):
        return None
    c, head = coordinate_of(found[a]), card.head
    there = {1: f"the state has {head.d} numbers", 2: f"there are {head.effects} effects of {head.d} numbers",
             3: f"{card.gate_list()}, of {head.d} rows and columns"}[c.kind]
    return f"coordinate {a} names {coordinate_text(c)}, which does not exist: {there}"


def with_card(refusal, data):
    """What the card tells beyond the line; None where the card has no such fault."""
    n, a, b = refusal
    if n == 16:
        return without_card(refusal)
    unread = read(data)
    if n == 15:
        fault = lowest_fault(data)
        return f"place {a}: {fault[1]}" if unread == refusal else None
    if unread and unread != refusal:
        return None
    head = head_of(words(data)[0])
    if n == 1:
        return qubits_fault(head)
    if unread:
        return f"the card has {b} words, and the layout of its kind {head.kind} ({KINDS[head.kind]}) has {a}"
    card = _Card(data)
    kind = head.kind
    if n == 2:
        return without_card(refusal) if kind in (5, 6, 7) and head.effects == 0 else None
    if n == 3:
        return _not_finite(card)
    if n == 4 and kind in (1, 3):
        return _normalization(card, a)
    if n == 5 and kind in (1, 2, 3, 4, 7):
        return f"the tolerance is {number(card.words[1])!r}; it has to be finite and positive"
    if n == 7 and kind in (5, 7):
        return _absent_gate(card, a)
    if n == 8 and kind in (5, 7):
        return _probabilities(card)
    if n == 9 and kind in (5, 7):
        return _overflow(card)
    if n == 12 and kind in (2, 4):
        return f"{card.words[2]} rotations are not enough for the tolerance {number(card.words[1])!r}; the card may allow up to {head.rotations}"
    if n == 13 and kind in (5, 6, 7):
        own = _optimization(card, a)
        empty = {2: head.records == 0, 3: head.coordinates == 0, 5: True}.get(a, False)
        return own or (REASONS.get(a) if kind == 5 and empty else None)
    if n == 14 and kind == 5:
        return _coordinate(card, a)
    if (n, kind) in ((6, 1), (6, 2), (6, 4), (10, 6), (11, 3)):
        return without_card(refusal)
    return None


def explain(refusal, data=None):
    """One or two lines."""
    lines = []
    told = None if data is None else with_card(refusal, data)
    lines.append(f"refusal {refusal.number}: {told or without_card(refusal)}")
    if data is not None and told is None:
        lines.append("The card that was given has no such fault: was it another card that was refused?")
    return lines
