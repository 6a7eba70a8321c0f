#!/usr/bin/env python3
"""Makes cards of readable descriptions, shows cards and sheets, and explains refusals. Needs Python 3.8 and nothing else."""

import argparse
import os
import sys

from cards import describe, explain, layout, sheet
from cards.numbers import Fault

ABOUT = """\
Cards for Mintshuttle, made and read by people. A description (JSON) becomes a
card, the program `sheet` turns the card into a sheet or a refusal, and both
can be shown in words and decimal numbers.

  python3 tools/mintshuttle.py make state.json -o state.card
  crates/sheet/out/sheet < state.card > state.sheet
  python3 tools/mintshuttle.py show state.sheet --card state.card

`COMMAND --help` has the details. docs/CARD.md has the format of cards and
sheets, docs/LABORATORY.md a fit from counts to the sheet.
"""

STATUS = """
Exit status: 0 done, 1 the input is at fault, 2 the command line is.
"""

MAKE = """\
Makes a card of a description: a JSON object with the field "kind", one of
density, projection, process, physical, fit, gauge, diagnostics (or 1 to 7).

  {"kind": "density", "qubits": 1, "tolerance": 1e-12,
   "expectations": {"X": 0.5, "Z": 0.5}}

Fields, by kind (a name in brackets may be left out):

  density      qubits, tolerance, expectations: by strings (left out: 0, the
               identity 1) or a list in the order I, X, Y, Z
  projection   tolerance, [rotations], estimate: rows of [real, imaginary],
               or of a number for a real entry
  process      qubits, tolerance, inputs, outputs: 4^n vectors each
  physical     qubits, tolerance, [rotations], values: the transfer matrix
               by rows
  fit          [controls], model, records, coordinates
  gauge        model, transform: rows
  diagnostics  tolerance, model, records

  model        {"state": [..], "effects": [[..], ..],
                "gates": [{"name": "Gx", "matrix": [[..], ..]}, ..]}
               a name has up to 8 characters, or is a whole number
  records      [{"sequence": ["Gx", "Gy"], "counts": [12, 988]}, ..]
               a gate is named, or given by its index from 0
  coordinates  [{"state": 0}, {"effect": 0, "index": 1},
                {"gate": "Gx", "row": 1, "column": 2}, ..]
  controls     {"max_iterations": 200, "initial_step": 0.1,
                "finite_difference_step": 1e-5, "gradient_tolerance": 1e-8,
                "objective_tolerance": 1e-12, "probability_tolerance": 1e-9,
                "max_backtracks": 24, "anchor_strength": 0.0}
               these are what stands where one is left out
  note         any text; it is not on the card

Rotations left out are the limit, 64 m^2. A number can be given by its bits,
"0x3ff0000000000000"; NaN and infinity are written so. What is made always has
a right layout; its values are judged when its sheet is made.
"""

MAKE_EXAMPLE = """
Example: the fit of docs/LABORATORY.md, cut short after three steps.

  python3 tools/mintshuttle.py make examples/one_qubit.json \\
      --control max_iterations=3 -o three.card
"""

SHOW = """\
Shows a card as a description, from which `make` makes the same bytes again,
or with --words as a list of its words, which works for damaged cards too.
Shows a sheet, the text that the program `sheet` prints, as decimal numbers
with names. A fit's or a gauge's sheet does not say how large its model's parts
are: --card gives the card that it was made of, and then gates are named, and
numbers that differ from the card's are shown beside those. With --continue
the outcome is a description again: that of the card, with the sheet's model in
place of its own, to go on from there.
"""

SHOW_EXAMPLE = """
Example:

  python3 tools/mintshuttle.py show --words crates/sheet/stdin
  crates/sheet/out/sheet < fit.card | python3 tools/mintshuttle.py show --card fit.card
"""

EXPLAIN = """\
Explains a refusal, the line `refused N A B` of a sheet, in words. The line is
given on the command line or read from standard input. With --card the card's
words are looked at: which number is not finite, which record's probabilities
do not add up.
"""

EXPLAIN_EXAMPLE = """
Example:

  python3 tools/mintshuttle.py explain refused 13 0000000000000002 0000000000000000

prints: refusal 13: there are no records
"""


def _name(path):
    return "standard input" if path == "-" else path


def _read(path):
    try:
        if path == "-":
            return sys.stdin.buffer.read()
        with open(path, "rb") as file:
            return file.read()
    except OSError as error:
        raise Fault(f"{path}: {error.strerror}") from None


def _text(data):
    try:
        return data.decode("utf-8")
    except UnicodeDecodeError:
        raise Fault("this is not text") from None


def _control(job, setting):
    """Sets one control of a fit's description."""
    name, equals, value = setting.partition("=")
    if not equals or name not in layout.CONTROLS:
        raise Fault(f"--control {setting}: NAME=VALUE is wanted, NAME one of {', '.join(layout.CONTROLS)}")
    if not isinstance(job, dict) or job.get("kind") not in ("fit", 5):
        raise Fault("--control: only a fit has controls")
    if not isinstance(job.setdefault("controls", {}), dict):
        raise Fault("controls: an object is wanted")
    job["controls"][name] = value if value.startswith("0x") else describe.parse(value)


def make(args):
    data = _read(args.description)
    try:
        job = describe.parse(_text(data))
        for setting in args.control:
            _control(job, setting)
        card = describe.card_of(job)
    except Fault as fault:
        raise Fault(f"{_name(args.description)}: {fault}") from None
    if args.output == "-":
        if sys.stdout.isatty():
            raise Fault("a card is bytes, not text: name a file with -o, or send it to a program")
        sys.stdout.buffer.write(card)
        return
    try:
        with open(args.output, "wb") as file:
            file.write(card)
    except OSError as error:
        raise Fault(f"{args.output}: {error.strerror}") from None


def show(args):
    data = _read(args.file)
    card = _read(args.card) if args.card else None
    if args.go_on:
        if card is None or not sheet.is_sheet(data):
            raise Fault("--continue takes a sheet, and the card that it was made of with --card")
        lines = [describe.text_of(sheet.continued(_text(data), card))]
    elif args.words:
        lines = layout.listing(data)
    elif sheet.is_sheet(data):
        lines = sheet.show(_text(data), card)
    else:
        lines = [describe.text_of(describe.describe(data))]
    for line in lines:
        print(line)


def explain_refusal(args):
    line = " ".join(args.refusal) or _text(_read("-"))
    card = _read(args.card) if args.card else None
    for line in explain.explain(explain.parse(line), card):
        print(line)


def _arguments():
    def parser(add, name, about, example, **more):
        return add(name, description=about, epilog=example + STATUS, formatter_class=argparse.RawDescriptionHelpFormatter, **more)

    top = argparse.ArgumentParser(description=ABOUT, epilog=STATUS, formatter_class=argparse.RawDescriptionHelpFormatter)
    commands = top.add_subparsers(dest="command", metavar="COMMAND", required=True)
    one = parser(commands.add_parser, "make", MAKE, MAKE_EXAMPLE, help="a card of a description")
    one.add_argument("description", nargs="?", default="-", metavar="DESCRIPTION", help="a JSON file; standard input if left out")
    one.add_argument("-o", "--output", default="-", metavar="CARD", help="where the card is written; standard output if left out")
    one.add_argument("--control", action="append", default=[], metavar="NAME=VALUE", help="another value for a control of a fit")
    one.set_defaults(run=make)
    two = parser(commands.add_parser, "show", SHOW, SHOW_EXAMPLE, help="a card or a sheet in words")
    two.add_argument("file", nargs="?", default="-", metavar="FILE", help="a card or a sheet; standard input if left out")
    two.add_argument("--card", metavar="CARD", help="the card that the sheet was made of")
    two.add_argument("--words", action="store_true", help="the file is a card: list its words")
    two.add_argument("--continue", action="store_true", dest="go_on", help="the card's description, with the sheet's model in place of its own")
    two.set_defaults(run=show)
    three = parser(commands.add_parser, "explain", EXPLAIN, EXPLAIN_EXAMPLE, help="a refusal in words")
    three.add_argument("refusal", nargs="*", metavar="refused N A B", help="the line; standard input if left out")
    three.add_argument("--card", metavar="CARD", help="the card that was refused")
    three.set_defaults(run=explain_refusal)
    return top


def main(arguments=None):
    args = _arguments().parse_args(arguments)
    try:
        args.run(args)
        sys.stdout.flush()
    except Fault as fault:
        print(f"mintshuttle: {fault}", file=sys.stderr)
        return 1
    except BrokenPipeError:
        # The reader of the output has left; nothing more can be told.
        os.dup2(os.open(os.devnull, os.O_WRONLY), sys.stdout.fileno())
        return 1
    except KeyboardInterrupt:
        return 1
    return 0


if __name__ == "__main__":
    sys.exit(main())
