"""The layout of a card: the fields of word 0, what each word is, and the reader's refusals 15, 1 and 2."""

from functools import lru_cache
from itertools import product
from typing import NamedTuple

from .numbers import name_text, number, words

KINDS = {1: "density", 2: "projection", 3: "process", 4: "physical", 5: "fit", 6: "gauge", 7: "diagnostics"}
MOST_WORDS = 8192
MOST_QUBITS = {1: 3, 3: 2, 4: 2}
# dimension, effects, gates, records, coordinates
MOST = {1: (0, 0, 0, 0, 0), 2: (16, 0, 0, 0, 0), 3: (0, 0, 0, 0, 0), 4: (0, 0, 0, 0, 0),
        5: (16, 16, 8, 200, 64), 6: (16, 16, 8, 0, 0), 7: (16, 16, 8, 200, 0)}
MOST_LENGTH = 64
# The place of the model's first word, and of the numbers that refusal 3 looks at first.
MODEL_START = {5: 9, 6: 1, 7: 2}
NUMBERS_START = {1: 2, 2: 3, 3: 2, 4: 3, **MODEL_START}
CONTROLS = ("max_iterations", "initial_step", "finite_difference_step", "gradient_tolerance", "objective_tolerance",
            "probability_tolerance", "max_backtracks", "anchor_strength")
MOST_CONTROL = {"max_iterations": 65535, "max_backtracks": 255}


class Refusal(NamedTuple):
    number: int
    a: int
    b: int


class Head(NamedTuple):
    """Word 0, field by field."""
    kind: int
    n: int
    d: int
    effects: int
    gates: int
    records: int
    coordinates: int
    rest: int = 0

    @property
    def four(self):
        """4^n, how many Pauli strings there are."""
        return 4 ** self.n

    @property
    def model(self):
        """How many words a model has."""
        return self.d + self.effects * self.d + self.gates * (1 + self.d * self.d)

    @property
    def rotations(self):
        """The limit of the rotations: 64 m², m the size of the matrix that is turned."""
        return 64 * (self.d if self.kind == 2 else self.four) ** 2

    def word(self):
        return (self.kind << 60 | self.n << 56 | self.d << 48 | self.effects << 40 | self.gates << 32 | self.records << 16
                | self.coordinates << 8 | self.rest)


def head_of(word):
    return Head(word >> 60, word >> 56 & 15, word >> 48 & 255, word >> 40 & 255, word >> 32 & 255, word >> 16 & 65535,
                word >> 8 & 255, word & 255)


def qubits_fault(head):
    """Refusal 1, in words."""
    most = MOST_QUBITS.get(head.kind)
    if most and not 1 <= head.n <= most:
        return f"n is {head.n}, and kind {head.kind} ({KINDS[head.kind]}) takes 1 to {most} qubits"


def head_fault(head):
    """What is wrong with word 0, refusal 15 at place 0, in words. A wrong n of a kind that has qubits is refusal 1 instead."""
    if head.kind not in KINDS:
        return f"kind {head.kind} is unknown"
    if head.kind not in MOST_QUBITS and head.n:
        return f"kind {head.kind} has no qubits, and their field is {head.n}"
    if head.kind == 2 and head.d == 0:
        return "the dimension is 0"
    for name, found, most in zip(("dimension", "effects", "gates", "records", "coordinates"), head[2:7], MOST[head.kind]):
        if found > most:
            return f"the field {name} is {found}, above {most}" if most else f"kind {head.kind} has no {name}, and their field is {found}"
    if head.rest:
        return "the lowest 8 bits are not zero"


class Role(NamedTuple):
    """What a word is. `form` is head, number, whole, name, length, indices, count or coordinate; `most` is the limit of a whole
    number, and of a word of gate indices which of the four it is."""
    form: str
    name: str
    most: int = 0


def strings(n):
    """The Pauli strings of n qubits in their order."""
    return ["".join(letters) for letters in product("IXYZ", repeat=n)]


def model_roles(head):
    d = head.d
    for i in range(d):
        yield Role("number", f"state {i}")
    for k, i in product(range(head.effects), range(d)):
        yield Role("number", f"effect {k}, index {i}")
    for g in range(head.gates):
        yield Role("name", f"name of gate {g}")
        for i, j in product(range(d), repeat=2):
            yield Role("number", f"gate {g}, row {i}, column {j}")


def _record_roles(head):
    for r in range(head.records):
        yield Role("length", f"record {r}, length")
        for k in range(4):
            yield Role("indices", f"record {r}, gates {16 * k} to {16 * k + 15}", k)
        for k in range(head.effects):
            yield Role("count", f"record {r}, count {k}")


@lru_cache
def roles(head):
    """The role of each word of the card, word 0 included. The head must have no fault."""
    found = [Role("head", "word 0")]
    if head.kind in (1, 2, 3, 4, 7):
        found.append(Role("number", "tolerance"))
    if head.kind in (2, 4):
        found.append(Role("whole", "rotations", head.rotations))
    if head.kind == 1:
        found += [Role("number", f"expectation of {s}") for s in strings(head.n)]
    if head.kind == 2:
        for i, j in product(range(head.d), repeat=2):
            found += [Role("number", f"row {i}, column {j}, {part}") for part in ("real", "imaginary")]
    if head.kind == 3:
        for part, v, s in product(("input", "output"), range(head.four), strings(head.n)):
            found.append(Role("number", f"{part} {v}, {s}"))
    if head.kind == 4:
        found += [Role("number", f"row {i}, column {j}") for i, j in product(range(head.four), repeat=2)]
    if head.kind == 5:
        found += [Role("whole", c, MOST_CONTROL[c]) if c in MOST_CONTROL else Role("number", c) for c in CONTROLS]
    if head.kind in (5, 6, 7):
        found += model_roles(head)
        found += _record_roles(head)
    if head.kind == 5:
        found += [Role("coordinate", f"coordinate {c}") for c in range(head.coordinates)]
    if head.kind == 6:
        found += [Role("number", f"transform, row {i}, column {j}") for i, j in product(range(head.d), repeat=2)]
    return found


class Coordinate(NamedTuple):
    kind: int
    which: int
    row: int
    index: int

    def word(self):
        return self.kind << 60 | self.which << 48 | self.row << 24 | self.index


def coordinate_of(word):
    return Coordinate(word >> 60, word >> 48 & 0xfff, word >> 24 & 0xffffff, word & 0xffffff)


def coordinate_text(c):
    if c.kind == 1:
        return f"state {c.index}"
    if c.kind == 2:
        return f"effect {c.which}, index {c.index}"
    return f"gate {c.which}, row {c.row}, column {c.index}"


def nibbles(word):
    return [word >> shift & 15 for shift in range(60, -4, -4)]


def _length_before(found, place, role):
    return found[place - 1 - role.most] >> 56


def word_fault(found, place, role):
    """What is wrong with the word at `place`, in words, or None. No number's value is ever a fault of the layout."""
    word = found[place]
    if role.form == "head":
        return head_fault(head_of(word))
    if role.form == "whole" and word > role.most:
        return f"{role.name} is {word}, above {role.most}"
    if role.form == "length":
        if word >> 56 > MOST_LENGTH:
            return f"the sequence's length is {word >> 56}, above {MOST_LENGTH}"
        if word << 8 & (1 << 64) - 1:
            return "a bit below the length is not zero"
    if role.form == "indices":
        used = min(max(_length_before(found, place, role) - 16 * role.most, 0), 16)
        if any(nibbles(word)[used:]):
            return "a gate index beyond the sequence's length is not zero"
    if role.form == "coordinate":
        c = coordinate_of(word)
        if c.kind not in (1, 2, 3):
            return f"coordinate kind {c.kind} is unknown"
        if c.kind == 1 and (c.which or c.row):
            return "a state coordinate has an index only, and another field is not zero"
        if c.kind == 2 and c.row:
            return "an effect coordinate has no row, and that field is not zero"


def lowest_fault(data):
    """Refusal 15: the lowest place at fault, of the size and of the words that have a place in the layout, and why; or None."""
    faults = []
    if not data:
        faults.append((0, "the card is empty"))
    if len(data) > 8 * MOST_WORDS:
        faults.append((MOST_WORDS, f"the card is longer than {MOST_WORDS} words"))
    if len(data) % 8:
        faults.append((len(data) // 8, f"the last word is cut: {len(data) % 8} of its 8 bytes are there"))
    found = words(data)
    if found:
        head = head_of(found[0])
        layout = [Role("head", "word 0")] if head_fault(head) or qubits_fault(head) else roles(head)
        for place, role in enumerate(layout[:len(found)]):
            why = word_fault(found, place, role)
            if why:
                faults.append((place, why))
                break
    return min(faults, default=None)


def read(data):
    """The reader's refusal of a card, or None where it accepts it."""
    fault = lowest_fault(data)
    if fault:
        return Refusal(15, fault[0], 0)
    head = head_of(words(data)[0])
    if qubits_fault(head):
        return Refusal(1, 0, 0)
    wanted = len(roles(head))
    if len(data) != 8 * wanted:
        return Refusal(2, wanted, len(data) // 8)
    return None


def _word_text(found, place, role):
    word = found[place]
    if role.form == "head":
        head = head_of(word)
        fields = [f"{name} {value}" for name, value in zip(head._fields[1:], head[1:]) if value]
        return ", ".join([f"kind {head.kind} ({KINDS.get(head.kind, 'unknown')})"] + fields)
    if role.form == "number":
        return f"{role.name}: {number(word)!r}"
    if role.form == "name":
        return f"{role.name}: {name_text(word) or word}"
    if role.form == "length":
        return f"{role.name}: {word >> 56}"
    if role.form == "indices":
        used = min(max(_length_before(found, place, role) - 16 * role.most, 0), 16)
        return f"{role.name}: {' '.join(map(str, nibbles(word)[:used])) or 'none'}"
    if role.form == "coordinate":
        return f"{role.name}: {coordinate_text(coordinate_of(word))}"
    return f"{role.name}: {word}"


def listing(data):
    """Each word of a card, damaged or not, with its place and what it is."""
    found = words(data)
    head = head_of(found[0]) if found else None
    known = bool(head) and not head_fault(head) and not qubits_fault(head)
    layout = roles(head) if known else [Role("head", "word 0")]
    fault = lowest_fault(data)
    for place, word in enumerate(found):
        if place < len(layout):
            text = _word_text(found, place, layout[place])
        else:
            text = "beyond the layout" if known else ""
        if fault and fault[0] == place:
            text += f"   <- refusal 15: {fault[1]}"
        yield f"{place:5}  {word:016x}  {text}".rstrip()
    end = f"{len(found):5}  {data[8 * len(found):].hex():16}  "
    if len(data) % 8 or not data:
        at_fault = fault[0] == len(found)
        yield end + (f"<- refusal 15: {fault[1]}" if at_fault else "a cut word")
    elif not fault and not known:
        yield end + f"<- refusal 1: {qubits_fault(head)}"
    elif not fault and len(found) != len(layout):
        yield end + f"<- refusal 2: the layout has {len(layout)} words, the card {len(found)}"
