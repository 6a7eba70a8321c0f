"""A card as a description that people can read and write, and a description as a card. A description is JSON; `--help` shows one."""

import json

from .layout import (CONTROLS, KINDS, MOST, MOST_CONTROL, MOST_LENGTH, MOST_QUBITS, Coordinate, Head, coordinate_of, head_of, lowest_fault, nibbles,
                     qubits_fault, read, roles, strings)
from .numbers import Fault, name_text, name_word, number_word, whole_word, words, written, written_name, written_whole

# Those of the Rust's `GstOptimizerConfig`.
DEFAULTS = {"max_iterations": 200, "initial_step": 0.1, "finite_difference_step": 1.0e-5, "gradient_tolerance": 1.0e-8,
            "objective_tolerance": 1.0e-12, "probability_tolerance": 1.0e-9, "max_backtracks": 24, "anchor_strength": 0.0}


# From a description to a card. Every maker takes the path of what it makes, for messages.

def _fields(value, where, wanted, optional=()):
    """The object's values of `wanted`, then of `optional` (None where left out); no other field may stand in it."""
    if not isinstance(value, dict):
        raise Fault(f"{where}: an object with {', '.join(wanted + tuple(optional))} is wanted")
    for name in value:
        if name not in wanted and name not in optional:
            raise Fault(f"{where}: the field {name!r} is unknown; there are {', '.join(wanted + tuple(optional))}")
    for name in wanted:
        if name not in value:
            raise Fault(f"{where}: the field {name!r} is missing")
    return [value.get(name) for name in wanted + tuple(optional)]


def _items(value, where, count=None, most=None):
    if not isinstance(value, list):
        raise Fault(f"{where}: a list is wanted")
    if count is not None and len(value) != count:
        raise Fault(f"{where}: {count} items are wanted, and there are {len(value)}")
    if most is not None and len(value) > most:
        raise Fault(f"{where}: there are {len(value)} items, and at most {most} are allowed")
    return [(item, f"{where}[{i}]") for i, item in enumerate(value)]


def _numbers(value, where, count):
    return [number_word(item, at) for item, at in _items(value, where, count)]


def _rows(value, where, rows, columns):
    return [bits for row, at in _items(value, where, rows) for bits in _numbers(row, at, columns)]


def _qubits(value, kind):
    most = MOST_QUBITS[kind]
    if whole_word(value, "qubits") not in range(1, most + 1):
        raise Fault(f"qubits: kind {KINDS[kind]} takes 1 to {most}, not {value}")
    return Head(kind, value, 0, 0, 0, 0, 0)


def _rotations(value, head):
    """As many as the Rust allows, where they are left out."""
    return head.rotations if value is None else whole_word(value, "rotations", head.rotations)


def _density(job):
    qubits, tolerance, expectations = _fields(job, "density", ("qubits", "tolerance", "expectations"))
    head = _qubits(qubits, 1)
    if isinstance(expectations, dict):
        names = strings(head.n)
        for name in expectations:
            if name not in names:
                raise Fault(f"expectations: {name!r} is no string of {head.n} letters I, X, Y, Z")
        # A state's identity has expectation 1; the others are 0 where they are left out.
        expectations = [expectations.get(name, 0 if i else 1) for i, name in enumerate(names)]
    return [head.word(), number_word(tolerance, "tolerance")] + _numbers(expectations, "expectations", head.four)


def _projection(job):
    tolerance, estimate, rotations = _fields(job, "projection", ("tolerance", "estimate"), ("rotations",))
    rows = _items(estimate, "estimate", most=MOST[2][0])
    if not rows:
        raise Fault("estimate: at least one row is wanted")
    head = Head(2, 0, len(rows), 0, 0, 0, 0)
    entries = []
    for row, at in rows:
        for entry, here in _items(row, at, head.d):
            # A number alone is real.
            entries += _numbers(entry, here, 2) if isinstance(entry, list) else [number_word(entry, here), 0]
    return [head.word(), number_word(tolerance, "tolerance"), _rotations(rotations, head)] + entries


def _process(job):
    qubits, tolerance, inputs, outputs = _fields(job, "process", ("qubits", "tolerance", "inputs", "outputs"))
    head = _qubits(qubits, 3)
    return ([head.word(), number_word(tolerance, "tolerance")] + _rows(inputs, "inputs", head.four, head.four)
            + _rows(outputs, "outputs", head.four, head.four))


def _physical(job):
    qubits, tolerance, values, rotations = _fields(job, "physical", ("qubits", "tolerance", "values"), ("rotations",))
    head = _qubits(qubits, 4)
    return [head.word(), number_word(tolerance, "tolerance"), _rotations(rotations, head)] + _rows(values, "values", head.four, head.four)


def _model(model, kind):
    """The head so far, the model's words, and the gates' names as the description has them."""
    most_d, most_effects, most_gates = MOST[kind][:3]
    state, effects, gates = _fields(model, "model", ("state", "effects", "gates"))
    d = len(_items(state, "model.state", most=most_d))
    found = _numbers(state, "model.state", d)
    effects = _items(effects, "model.effects", most=most_effects)
    for effect, at in effects:
        found += _numbers(effect, at, d)
    names = []
    for gate, at in _items(gates, "model.gates", most=most_gates):
        name, matrix = _fields(gate, at, ("name", "matrix"))
        names.append(name_word(name, f"{at}.name"))
        found += [names[-1]] + _rows(matrix, f"{at}.matrix", d, d)
    return Head(kind, 0, d, len(effects), len(names), 0, 0), found, names


def _gate(value, where, names, most):
    """A gate's index, by its name or as a whole number. Numbers may name no gate: such cards have a refusal of their own."""
    if isinstance(value, str):
        bits = name_word(value, where)
        if bits not in names:
            known = ", ".join(str(written_name(name)) for name in names) or "none"
            raise Fault(f"{where}: no gate is named {value!r}; there are {known}")
        return names.index(bits)
    return whole_word(value, where, most)


def _records(value, head, names):
    found = []
    for record, at in _items(value, "records", most=MOST[head.kind][3]):
        sequence, counts = _fields(record, at, ("sequence", "counts"))
        gates = [_gate(gate, here, names, 15) for gate, here in _items(sequence, f"{at}.sequence", most=MOST_LENGTH)]
        packed = 0
        for k in range(MOST_LENGTH):
            packed = packed << 4 | (gates[k] if k < len(gates) else 0)
        found += [len(gates) << 56] + [packed >> shift & (1 << 64) - 1 for shift in (192, 128, 64, 0)]
        found += [whole_word(count, here) for count, here in _items(counts, f"{at}.counts", head.effects)]
    return found


def _coordinate(value, where, names):
    most = (1 << 24) - 1
    if isinstance(value, dict) and "state" in value:
        index, = _fields(value, where, ("state",))
        return Coordinate(1, 0, 0, whole_word(index, f"{where}.state", most)).word()
    if isinstance(value, dict) and "effect" in value:
        effect, index = _fields(value, where, ("effect", "index"))
        return Coordinate(2, whole_word(effect, f"{where}.effect", 4095), 0, whole_word(index, f"{where}.index", most)).word()
    if isinstance(value, dict) and "gate" in value:
        gate, row, column = _fields(value, where, ("gate", "row", "column"))
        return Coordinate(3, _gate(gate, f"{where}.gate", names, 4095), whole_word(row, f"{where}.row", most),
                          whole_word(column, f"{where}.column", most)).word()
    raise Fault(f'{where}: one of {{"state": 0}}, {{"effect": 0, "index": 1}}, {{"gate": "Gx", "row": 1, "column": 2}} is wanted')


def _controls(value):
    given = dict(zip(CONTROLS, _fields({} if value is None else value, "controls", (), CONTROLS)))
    found = []
    for name in CONTROLS:
        control, where = DEFAULTS[name] if given[name] is None else given[name], f"controls.{name}"
        found.append(whole_word(control, where, MOST_CONTROL[name]) if name in MOST_CONTROL else number_word(control, where))
    return found


def _fit(job):
    model, records, coordinates, controls = _fields(job, "fit", ("model", "records", "coordinates"), ("controls",))
    controls = _controls(controls)
    head, found, names = _model(model, 5)
    found += _records(records, head, names)
    found += [_coordinate(c, at, names) for c, at in _items(coordinates, "coordinates", most=MOST[5][4])]
    head = head._replace(records=len(records), coordinates=len(coordinates))
    return [head.word()] + controls + found


def _gauge(job):
    model, transform = _fields(job, "gauge", ("model", "transform"))
    head, found, _ = _model(model, 6)
    return [head.word()] + found + _rows(transform, "transform", head.d, head.d)


def _diagnostics(job):
    tolerance, model, records = _fields(job, "diagnostics", ("tolerance", "model", "records"))
    head, found, names = _model(model, 7)
    records = _records(records, head, names)
    head = head._replace(records=len(job["records"]))
    return [head.word(), number_word(tolerance, "tolerance")] + found + records


MAKERS = {"density": _density, "projection": _projection, "process": _process, "physical": _physical, "fit": _fit, "gauge": _gauge,
          "diagnostics": _diagnostics}


def parse(text):
    """A description's text as objects and lists. What JSON leaves open is refused: a field twice, NaN."""
    def pairs(items):
        for i, (name, _) in enumerate(items):
            if name in [earlier for earlier, _ in items[:i]]:
                raise Fault(f"the field {name!r} stands twice in one object")
        return dict(items)

    def constant(name):
        raise Fault(f'{name} is no JSON number: write its bits, such as "0x7ff8000000000000"')

    try:
        return json.loads(text, object_pairs_hook=pairs, parse_constant=constant)
    except json.JSONDecodeError as error:
        raise Fault(f"line {error.lineno}, column {error.colno}: {error.msg}") from None
    except RecursionError:
        raise Fault("lists or objects are nested too deeply") from None
    except ValueError as error:
        raise Fault(str(error)) from None


def card_of(job):
    """The bytes of the card that a description describes."""
    if not isinstance(job, dict) or "kind" not in job:
        raise Fault(f"a description is an object with the field \"kind\", one of {', '.join(MAKERS)}")
    kind = job["kind"]
    if isinstance(kind, int):
        kind = KINDS.get(kind)
    if not isinstance(kind, str) or kind not in MAKERS:
        raise Fault(f"kind: {job['kind']!r} is unknown; there are {', '.join(MAKERS)}")
    found = MAKERS[kind]({name: value for name, value in job.items() if name not in ("kind", "note")})
    return b"".join(word.to_bytes(8, "big") for word in found)


# From a card to a description.

class _Cursor:
    """The words of an accepted card in their order."""

    def __init__(self, data):
        self.rest = iter(words(data))
        self.head = head_of(next(self.rest))
        self.names = []

    def word(self):
        return next(self.rest)

    def number(self):
        return written(self.word())

    def numbers(self, count):
        return [self.number() for _ in range(count)]

    def rows(self, count, columns):
        return [self.numbers(columns) for _ in range(count)]

    def gate(self, index):
        """A gate by its name where that is a text that no other gate has, else by its index."""
        if index < len(self.names) and name_text(self.names[index]) and self.names.count(self.names[index]) == 1:
            return name_text(self.names[index])
        return index

    def model(self):
        d = self.head.d
        model = {"state": self.numbers(d), "effects": self.rows(self.head.effects, d), "gates": []}
        for _ in range(self.head.gates):
            self.names.append(self.word())
            model["gates"].append({"name": written_name(self.names[-1]), "matrix": self.rows(d, d)})
        return model

    def record(self):
        length = self.word() >> 56
        gates = [index for _ in range(4) for index in nibbles(self.word())]
        return {"sequence": [self.gate(index) for index in gates[:length]],
                "counts": [written_whole(self.word()) for _ in range(self.head.effects)]}

    def records(self):
        return [self.record() for _ in range(self.head.records)]

    def coordinate(self):
        c = coordinate_of(self.word())
        if c.kind == 1:
            return {"state": c.index}
        if c.kind == 2:
            return {"effect": c.which, "index": c.index}
        return {"gate": self.gate(c.which), "row": c.row, "column": c.index}

    def controls(self):
        return {name: written_whole(self.word()) if name in MOST_CONTROL else self.number() for name in CONTROLS}


def refuse_unread(data):
    """Raises what the reader would refuse, in words."""
    refusal = read(data)
    if refusal is None:
        return
    if refusal.number == 15:
        place, why = lowest_fault(data)
        raise Fault(f"the card is refused by its layout, 15 at place {place}: {why} (--words shows its words)")
    head = head_of(words(data)[0])
    if refusal.number == 1:
        raise Fault(f"the card is refused by its layout, 1: {qubits_fault(head)} (--words shows its words)")
    raise Fault(f"the card is refused by its layout, 2: it has {refusal.b} words, and its layout {len(roles(head))} (--words shows its words)")


def describe(data):
    """The description of a card that the reader accepts."""
    refuse_unread(data)
    card = _Cursor(data)
    head = card.head
    job = {"kind": KINDS[head.kind]}
    if head.kind in MOST_QUBITS:
        job["qubits"] = head.n
    if head.kind in (1, 2, 3, 4, 7):
        job["tolerance"] = card.number()
    if head.kind in (2, 4):
        job["rotations"] = card.word()
    if head.kind == 1:
        job["expectations"] = dict(zip(strings(head.n), card.numbers(head.four)))
    elif head.kind == 2:
        job["estimate"] = [card.rows(head.d, 2) for _ in range(head.d)]
    elif head.kind == 3:
        job["inputs"] = card.rows(head.four, head.four)
        job["outputs"] = card.rows(head.four, head.four)
    elif head.kind == 4:
        job["values"] = card.rows(head.four, head.four)
    elif head.kind == 5:
        job["controls"] = card.controls()
    if head.kind in (5, 6, 7):
        job["model"] = card.model()
    if head.kind in (5, 7):
        job["records"] = card.records()
    if head.kind == 5:
        job["coordinates"] = [card.coordinate() for _ in range(head.coordinates)]
    if head.kind == 6:
        job["transform"] = card.rows(head.d, head.d)
    return job


def _depth(value):
    if not isinstance(value, (dict, list)):
        return 0
    return 1 + max(map(_depth, value.values() if isinstance(value, dict) else value), default=0)


def _on_one_line(value, line):
    """A number, a row, a row of complex entries, a coordinate, a record."""
    depth = _depth(value)
    if isinstance(value, dict):
        return depth <= 2 and len(line) <= 120
    return depth <= 1 or depth == 2 and all(isinstance(item, list) and len(item) == 2 for item in value) and len(line) <= 120


def text_of(value, indent=""):
    """A description's JSON, with what is short on one line."""
    line = json.dumps(value)
    if _on_one_line(value, line):
        return line
    inner = indent + "  "
    if isinstance(value, dict):
        body = [f"{inner}{json.dumps(name)}: {text_of(item, inner)}" for name, item in value.items()]
        return "{\n" + ",\n".join(body) + f"\n{indent}}}"
    return "[\n" + ",\n".join(inner + text_of(item, inner) for item in value) + f"\n{indent}]"
