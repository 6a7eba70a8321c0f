"""A printed sheet as decimal numbers with names."""

import re
from itertools import product

from .describe import describe, refuse_unread
from .explain import explain, parse
from .layout import KINDS, MODEL_START, head_of, model_roles, strings
from .numbers import Fault, name_text, number, words

STOPS = {1: "the gradient is within its tolerance", 2: "the last step lowered the objective by no more than its tolerance",
         3: "the iterations are used up", 4: "no trial of the last search lowered the objective"}
FIT_NUMBERS = ("initial log-likelihood", "initial deviance", "final log-likelihood", "final deviance", "objective", "gradient norm")
# How many header numbers a sheet has, and the kind of its card.
HEADERS = {"density": (1, 1), "projected": (1, 2), "process": (1, 3), "physical": (3, 4), "fit": (4, 5), "model": (1, 6), "diagnostics": (0, 7)}


def is_sheet(data):
    """Whether bytes are a sheet's text. No card that the reader accepts begins like one."""
    return re.match(rb"(density|projected|process|physical|fit|model|refused) \d|diagnostics\r?\n", data) is not None


def _lines(text):
    """The header's words, and the words of each line after it."""
    lines = [line.split() for line in text.splitlines() if line.strip()]
    name, header = lines[0][0], lines[0][1:]
    if not all(re.fullmatch(r"\d{1,9}", part) for part in header) or len(header) != HEADERS[name][0]:
        raise Fault(f"the first line of a sheet `{name}` has {HEADERS[name][0]} decimal numbers")
    body = []
    for i, line in enumerate(lines[1:], 2):
        if not all(re.fullmatch(r"[0-9a-fA-F]{16}", part) for part in line):
            raise Fault(f"line {i} of the sheet is not made of words of 16 hexadecimal digits")
        body.append([int(part, 16) for part in line])
    return name, [int(part) for part in header], body


def _expect(name, body, count, parts=1):
    if len(body) != count or any(len(line) != parts for line in body):
        raise Fault(f"a sheet `{name}` of this size has {count} lines of {parts} word{'s' if parts > 1 else ''} after the first")
    return body


def _columns(rows):
    """Rows of text in columns, the last one as it is."""
    width = [max((len(row[i]) for row in rows if len(row) > i + 1), default=0) for i in range(3)]
    return ["  ".join(part.ljust(width[i]) if i + 1 < len(row) else part for i, part in enumerate(row)) for row in rows]


def _matrix(name, size, body):
    rows = []
    for (i, j), (re_, im) in zip(product(range(size), repeat=2), _expect(name, body, size * size, 2)):
        rows.append((f"row {i}, column {j}", repr(number(re_)), f"{number(im)!r} i"))
    return [f"{name}: a matrix of {size} rows, real and imaginary parts"] + _columns(rows)


def _process(size, body):
    names = {4: strings(1), 16: strings(2)}.get(size, [str(i) for i in range(size)])
    values = [number(line[0]) for line in _expect("process", body, size * size)]
    rows = [(f"row {i}, column {j}", f"{names[i]} from {names[j]}", repr(values[size * i + j])) for i, j in product(range(size), repeat=2)]
    return [f"process: a transfer matrix of {size} rows"] + _columns(rows)


def _model(found, head, before):
    """The model's words with the names of its parts; beside a number that differs from the card's what stands there."""
    if head is None:
        rows = [(f"model word {i}", f"{w:016x}", repr(number(w))) for i, w in enumerate(found)]
        return ["(the card, given with --card, names these parts)"] + _columns(rows)
    names = [name_text(w) or str(w) for w, role in zip(before, model_roles(head)) if role.form == "name"]
    rows = []
    for w, old, role in zip(found, before, model_roles(head)):
        if role.form == "name":
            rows.append((role.name, name_text(w) or str(w)))
            continue
        part = re.sub(r"^gate (\d+)", lambda m: f"gate {names[int(m[1])]}", role.name)
        rows.append((part, repr(number(w))) + ((f"(on the card {number(old)!r})",) if w != old else ()))
    return _columns(rows)


def _card_model(name, kind, count, card):
    """The head and the model's words of the card that the sheet was made of."""
    if card is None:
        return None, None
    refuse_unread(card)
    found = words(card)
    head = head_of(found[0])
    if head.kind != kind:
        raise Fault(f"a sheet `{name}` is made of a card of kind {kind} ({KINDS[kind]}), and the card is of kind {head.kind}")
    if head.model != count:
        raise Fault(f"the card's model has {head.model} words, and the sheet's {count}: it is of another card")
    start = MODEL_START[kind]
    return head, found[start:start + count]


def continued(text, card):
    """The description of the card with the sheet's model in place of its own, to go on from there."""
    if not re.match(r"(fit|model) ", text):
        raise Fault("only the sheets `fit` and `model` have a model to go on from")
    name, _, body = _lines(text)
    kind, skip = (5, 6) if name == "fit" else (6, 0)
    found = [line[0] for line in _expect(name, body, max(len(body), skip))][skip:]
    _card_model(name, kind, len(found), card)
    start = 8 * MODEL_START[kind]
    return describe(card[:start] + b"".join(w.to_bytes(8, "big") for w in found) + card[start + 8 * len(found):])


def show(text, card=None):
    """The lines that show a sheet, with its card where there is one."""
    if text.startswith("refused"):
        return explain(parse(text), card)
    name, header, body = _lines(text)
    kind = HEADERS[name][1]
    if name in ("density", "projected"):
        return _matrix(name, header[0], body)
    if name == "process":
        return _process(header[0], body)
    if name == "physical":
        _expect(name, body, 0)
        tests = ("keeps the trace", "keeps the identity", "completely positive")
        return ["physical: tests of a transfer matrix"] + _columns([(test, "yes" if bit else "no") for test, bit in zip(tests, header)])
    if name == "diagnostics":
        values = [repr(number(line[0])) for line in _expect(name, body, 2)]
        return ["diagnostics"] + _columns(list(zip(("log-likelihood", "deviance"), values)))
    found = [line[0] for line in _expect(name, body, header[0] if name == "model" else max(len(body), 6))]
    if name == "model":
        head, before = _card_model(name, kind, len(found), card)
        return [f"model: {header[0]} words"] + _model(found, head, before)
    stop, steps, evaluations, converged = header
    head, before = _card_model(name, kind, len(found) - 6, card)
    rows = [("stop R", f"{stop}: {STOPS.get(stop, 'unknown')}"), ("accepted steps S", str(steps)), ("evaluations E", str(evaluations)),
            ("converged V", f"{converged}: {'yes' if converged else 'no'}")]
    rows += [(label, repr(number(w))) for label, w in zip(FIT_NUMBERS, found)]
    return ["fit"] + _columns(rows) + ["model"] + _model(found[6:], head, before)
