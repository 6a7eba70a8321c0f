"""Tests of tools/mintshuttle.py: `tools/test`, or `python3 -m unittest discover tools`."""

import contextlib
import io
import itertools
import json
import os
import subprocess
import sys
import tempfile
import unittest

HERE = os.path.dirname(os.path.abspath(__file__))
ROOT = os.path.dirname(HERE)
sys.path.insert(0, HERE)

import mintshuttle  # noqa: E402
from cards import describe, explain, layout, numbers, sheet  # noqa: E402
from cards.layout import Refusal  # noqa: E402
from cards.numbers import Fault  # noqa: E402

ONE = 0x3ff0000000000000
NAN = 0x7ff8000000000000


def stored(name):
    """The cards of a file of crates/replay/data, each after a word with its length in bytes."""
    with open(os.path.join(ROOT, "crates/replay/data", name), "rb") as file:
        while head := file.read(8):
            yield file.read(int.from_bytes(head, "big"))


def stored_answers():
    """The Rust's sheets of the stored cards, then the readings."""
    with open(os.path.join(ROOT, "crates/replay/stdout")) as file:
        sheets = []
        for line in file:
            if line[0] in "0123456789abcdef" and line[:16].strip().isalnum() and len(line.split()[0]) == 16:
                sheets[-1] += line
            else:
                sheets.append(line)
    return sheets


def card(*found):
    return b"".join(word.to_bytes(8, "big") for word in found)


def spoiled(data, place, word):
    return data[:8 * place] + word.to_bytes(8, "big") + data[8 * place + 8:]


def example(name):
    with open(os.path.join(ROOT, "examples", name)) as file:
        return describe.parse(file.read())


def run(*arguments, stdin=b""):
    """The program as people run it: status, output, messages."""
    done = subprocess.run([sys.executable, os.path.join(HERE, "mintshuttle.py"), *arguments], input=stdin, capture_output=True)
    return done.returncode, done.stdout, done.stderr.decode()


DENSITY = {"kind": "density", "qubits": 1, "tolerance": 1e-6, "expectations": [1, 0, 0, 1]}
MODEL = {"state": [1, 0.5], "effects": [[0.5, 0.5], [0.5, -0.5]],
         "gates": [{"name": "Ga", "matrix": [[1, 0], [0, 1]]}, {"name": 7, "matrix": [[1, 0], [0, -1]]}]}
FIT = {"kind": "fit", "model": MODEL, "records": [{"sequence": ["Ga", 1, "Ga"], "counts": [3, 5]}],
       "coordinates": [{"state": 1}, {"effect": 0, "index": 1}, {"gate": "Ga", "row": 1, "column": 0}]}
DIAGNOSTICS = {"kind": "diagnostics", "tolerance": 1e-9, "model": MODEL, "records": FIT["records"]}
GAUGE = {"kind": "gauge", "model": MODEL, "transform": [[1, 0], [0, 2]]}
PROJECTION = {"kind": "projection", "tolerance": 1e-9, "estimate": [[1, [0, 0.5]], [[0, -0.5], 0]]}
PHYSICAL = {"kind": "physical", "qubits": 1, "tolerance": 1e-9, "values": [[1, 0, 0, 0], [0, 1, 0, 0], [0, 0, 1, 0], [0, 0, 0, 1]]}
PROCESS = {"kind": "process", "qubits": 1, "tolerance": 1e-9, "inputs": [[1, 0, 0, k] for k in range(4)], "outputs": [[1, 0, 0, 0]] * 4}
ALL = [DENSITY, PROJECTION, PROCESS, PHYSICAL, FIT, GAUGE, DIAGNOSTICS]


class Cards(unittest.TestCase):
    def test_words_of_a_density_card(self):
        self.assertEqual(describe.card_of(DENSITY), card(0x11 << 56, numbers.word(1e-6), ONE, 0, 0, ONE))

    def test_words_of_a_fit_card(self):
        found = numbers.words(describe.card_of(FIT))
        self.assertEqual(found[0], 5 << 60 | 2 << 48 | 2 << 40 | 2 << 32 | 1 << 16 | 3 << 8)
        self.assertEqual(found[1:9], [200, *map(numbers.word, (0.1, 1e-5, 1e-8, 1e-12, 1e-9)), 24, 0])
        self.assertEqual(found[15], int.from_bytes(b"Ga\0\0\0\0\0\0", "big"))
        self.assertEqual(found[20], 7)
        self.assertEqual(found[25:32], [3 << 56, 0x0100 << 48, 0, 0, 0, 3, 5])
        self.assertEqual(found[32:], [1 << 60 | 1, 2 << 60 | 1, 3 << 60 | 1 << 24])

    def test_every_kind_is_accepted_by_the_reader(self):
        for kind, job in enumerate(ALL, 1):
            made = describe.card_of(job)
            self.assertIsNone(layout.read(made), job["kind"])
            self.assertEqual(made[0] >> 4, kind)

    def test_stored_cards_go_round(self):
        accepted = 0
        for data in itertools.chain(stored("cards"), stored("readings")):
            if layout.read(data) is None:
                accepted += 1
                shown = describe.text_of(describe.describe(data))
                self.assertEqual(describe.card_of(describe.parse(shown)), data)
            else:
                with self.assertRaises(Fault):
                    describe.describe(data)
        self.assertGreater(accepted, 1000)

    def test_a_wrong_byte_is_seen(self):
        """Each byte of a card reaches its description: with any one changed the description, or the refusal, is another."""
        for job in ALL:
            data = describe.card_of(job)
            for place in range(len(data)):
                wrong = data[:place] + bytes([data[place] ^ 1]) + data[place + 1:]
                if layout.read(wrong) is None:
                    self.assertNotEqual(describe.describe(wrong), describe.describe(data), place)
                    self.assertEqual(describe.card_of(describe.parse(describe.text_of(describe.describe(wrong)))), wrong)

    def test_readings_are_the_stored_ones(self):
        answers = stored_answers()
        cards, readings = list(stored("cards")), list(stored("readings"))
        found = answers[len(cards):len(cards) + len(readings)]
        for data, answer in zip(readings, found):
            refusal = layout.read(data)
            self.assertEqual(f"read {data[0] >> 4}\n" if refusal is None else "refused %d %016x %016x\n" % refusal, answer)

    def test_damaged_cards_are_listed(self):
        for data in itertools.chain(stored("cards"), stored("readings"), (b"", b"\x11", bytes(70000), b"\xff" * 65537)):
            lines = list(layout.listing(data))
            self.assertGreaterEqual(len(lines), len(data) // 8)
            if layout.read(data):
                self.assertTrue(any(f"refusal {layout.read(data).number}:" in line for line in lines))
        good = describe.card_of(FIT)
        for size in range(len(good)):
            list(layout.listing(good[:size]))

    def test_texts_of_numbers(self):
        for bits in (0, 1, ONE, 1 << 63, NAN, NAN + 1, 0x7ff0000000000000, 0xffffffffffffffff, 0x3fb999999999999a):
            self.assertEqual(numbers.number_word(json.loads(json.dumps(numbers.written(bits))), ""), bits)
            self.assertEqual(numbers.name_word(numbers.written_name(bits), ""), bits)
        for text in ("Gx", "G", "abcdefgh", "-", "x\"y"):
            self.assertEqual(numbers.written_name(numbers.name_word(text, "")), text)
        # Texts that look like bits, and spaces within a name, are not shown as text.
        self.assertIsNone(numbers.name_text(int.from_bytes(b"0x12\0\0\0\0", "big")))
        self.assertIsNone(numbers.name_text(int.from_bytes(b"a b\0\0\0\0\0", "big")))
        self.assertIsNone(numbers.name_text(int.from_bytes(b"a\0b\0\0\0\0\0", "big")))


class Descriptions(unittest.TestCase):
    def refused(self, job, *parts):
        with self.assertRaises(Fault) as caught:
            describe.card_of(job)
        for part in parts:
            self.assertIn(part, str(caught.exception))

    def test_messages_name_the_place(self):
        self.refused({**DENSITY, "expectations": [1, 0, 0]}, "expectations", "4 items", "3")
        self.refused({**DENSITY, "expectations": [1, 0, "a", 0]}, "expectations[2]", "number")
        self.refused({**DENSITY, "expectations": {"Q": 1}}, "'Q'")
        self.refused({**DENSITY, "tolerence": 1}, "'tolerence'", "tolerance")
        self.refused({**DENSITY, "qubits": 4}, "1 to 3")
        self.refused({**DENSITY, "qubits": True}, "qubits")
        self.refused({**DENSITY, "tolerance": 10 ** 400}, "tolerance", "too large")
        self.refused({"kind": "fit"}, "'model'", "missing")
        self.refused({**FIT, "records": [{"sequence": ["Gz"], "counts": [1, 2]}]}, "records[0].sequence[0]", "'Gz'", "Ga")
        self.refused({**FIT, "records": [{"sequence": [], "counts": [1]}]}, "records[0].counts")
        self.refused({**FIT, "records": [{"sequence": [], "counts": [1, 0.5]}]}, "records[0].counts[1]", "whole")
        self.refused({**FIT, "records": [{"sequence": [0] * 65, "counts": [1, 1]}]}, "records[0].sequence", "64")
        self.refused({**FIT, "records": [{"sequence": [16], "counts": [1, 1]}]}, "0 to 15")
        self.refused({**FIT, "coordinates": [{"row": 1}]}, "coordinates[0]")
        self.refused({**FIT, "coordinates": [{"state": 1 << 24}]}, "coordinates[0].state")
        self.refused({**FIT, "controls": {"max_iterations": 65536}}, "controls.max_iterations", "65535")
        self.refused({**FIT, "controls": {"steps": 1}}, "'steps'")
        self.refused({"kind": "other"}, "'other'")
        self.refused([], "kind")
        self.refused({**PROJECTION, "estimate": [[1, 2], [3]]}, "estimate[1]")
        self.refused({**PROJECTION, "rotations": 257}, "rotations", "256")
        self.refused({**GAUGE, "transform": [[1, 0]]}, "transform")

    def test_json_that_is_none(self):
        for text in ("{", "NaN", '{"a": 1, "a": 2}', "[" * 100000, "1" * 5000):
            with self.assertRaises(Fault):
                describe.card_of(describe.parse(text))

    def test_defaults(self):
        self.assertEqual(describe.card_of({**FIT, "controls": describe.DEFAULTS}), describe.card_of(FIT))
        self.assertEqual(describe.card_of({**PHYSICAL, "rotations": 1024}), describe.card_of(PHYSICAL))
        self.assertEqual(describe.card_of({**DENSITY, "expectations": {"Z": 1}, "note": "a state"}), describe.card_of(DENSITY))

    def test_equal_names_are_shown_by_index(self):
        gates = [{"name": "G", "matrix": [[1, 0], [0, 1]]}] * 2
        job = {**DIAGNOSTICS, "model": {**MODEL, "gates": gates}, "records": [{"sequence": [1, 0], "counts": [1, 1]}]}
        shown = describe.describe(describe.card_of(job))
        self.assertEqual(shown["records"][0]["sequence"], [1, 0])


class Refusals(unittest.TestCase):
    def told(self, data, n, a=0, b=0):
        lines = explain.explain(Refusal(n, a, b), data)
        self.assertEqual(len(lines), 1, lines)
        return lines[0]

    def test_every_number_has_words(self):
        for n in range(1, 17):
            for a in (0, 1, 6, 7, 1 << 63):
                line, = explain.explain(Refusal(n, a, 0))
                self.assertTrue(line.startswith(f"refusal {n}: "))

    def test_lines(self):
        self.assertEqual(explain.parse("refused 14 0000000000000003 0000000000000000\n"), Refusal(14, 3, 0))
        for line in ("", "refused", "refused 17 " + "0" * 16 + " " + "0" * 16, "refused 0 " + "0" * 16 + " " + "0" * 16, "refused 1 0 0"):
            with self.assertRaises(Fault):
                explain.parse(line)

    def test_with_the_card(self):
        fit = describe.card_of(FIT)
        self.assertEqual(self.told(describe.card_of({**FIT, "coordinates": FIT["coordinates"] + [{"gate": 2, "row": 1, "column": 5}]}), 14, 3),
                         "refusal 14: coordinate 3 names gate 2, row 1, column 5, which does not exist: the model has gates 0 (Ga), 1 (7), of 2 rows "
                         "and columns")
        self.assertIn("initial_step is -1.0", self.told(spoiled(fit, 2, numbers.word(-1.0)), 13, 1))
        self.assertIn("max_backtracks is 0", self.told(spoiled(fit, 7, 0), 13, 1))
        self.assertIn("coordinate 1 is the same as coordinate 0", self.told(spoiled(fit, 33, 1 << 60 | 1), 13, 4))
        self.assertIn("gate 1 is zero", self.told(spoiled(fit, 20, 0), 13, 6))
        self.assertIn("record 0 uses gate 9", self.told(describe.card_of({**FIT, "records": [{"sequence": [0, 9], "counts": [1, 1]}]}), 7, 9))
        self.assertIn("state 1 (place 10) is nan", self.told(spoiled(fit, 10, NAN), 3))
        self.assertIn("add up to 1.25", self.told(describe.card_of({**FIT, "model": {**MODEL, "effects": [[0.75, 0.5], [0.5, -0.5]]}}), 8))
        self.assertIn("all counts are 0", self.told(describe.card_of({**FIT, "records": [{"sequence": [], "counts": [0, 0]}]}), 8))
        self.assertIn("outcome 1 was counted 5 times", self.told(describe.card_of({**FIT, "model": {**MODEL, "state": [1, 1]},
                                                                                   "records": [{"sequence": ["Ga"], "counts": [3, 5]}]}), 8))
        self.assertIn("record 0", self.told(describe.card_of({**FIT, "records": [{"sequence": [], "counts": [1, "0xffffffffffffffff"]}]}), 9))
        self.assertIn("(place 2) is 1.5", self.told(describe.card_of({**DENSITY, "expectations": [1.5, 0, 0, 1]}), 4, numbers.word(1.5)))
        outputs = [[1, 0, 0, 0], [1.5, 0, 0, 0]] + [[1, 0, 0, 0]] * 2
        self.assertIn("of output 1 (place 22)", self.told(describe.card_of({**PROCESS, "outputs": outputs}), 4, numbers.word(1.5)))
        self.assertIn("rotations is 1025, above 1024", self.told(spoiled(describe.card_of(PHYSICAL), 2, 1025), 15, 2))
        self.assertIn("1024 rotations", self.told(describe.card_of(PHYSICAL), 12))
        self.assertIn("cut", self.told(fit[:-3], 15, 34))
        self.assertIn("has 34 words", self.told(fit[:-8], 2, 35, 34))
        self.assertIn("n is 4", self.told(card(0x14 << 56), 1))

    def test_another_card(self):
        lines = explain.explain(Refusal(15, 3, 0), describe.card_of(FIT))
        self.assertIn("no such fault", lines[1])

    def test_stored_refusals_are_found_on_their_cards(self):
        """The Rust refused these cards: each explanation has to find the fault."""
        met = set()
        for data, answer in zip(stored("cards"), stored_answers()):
            if not answer.startswith("refused"):
                continue
            refusal = explain.parse(answer)
            self.assertEqual(len(explain.explain(refusal, data)), 1, (answer, data[:64].hex()))
            met.add(refusal.number)
        self.assertLessEqual(set(range(1, 16)), met)


class Sheets(unittest.TestCase):
    def test_stored_sheets_are_shown(self):
        for data, answer in zip(stored("cards"), stored_answers()):
            self.assertTrue(sheet.is_sheet(answer.encode()))
            self.assertFalse(sheet.is_sheet(data) and layout.read(data) is None)
            if answer.startswith("refused"):
                continue
            alone, named = sheet.show(answer), sheet.show(answer, data)
            self.assertGreaterEqual(len(alone), 2)
            self.assertGreaterEqual(len(named), 2)

    def test_density(self):
        shown = sheet.show("density 2\n" + "3ff0000000000000 0000000000000000\n" * 4)
        self.assertEqual(shown[2], "row 0, column 1  1.0  0.0 i")

    def test_process(self):
        shown = sheet.show("process 4\n" + "".join(f"{numbers.word(float(k)):016x}\n" for k in range(16)))
        self.assertEqual(shown[1 + 6], "row 1, column 2  X from Y  6.0")

    def test_fit(self):
        model = numbers.words(describe.card_of(FIT))[9:25]
        model[1] = numbers.word(0.25)
        text = "fit 2 5 99 1\n" + "".join(f"{w:016x}\n" for w in [*map(numbers.word, (-1.0, 2.0, -3.0, 4.0, 5.0, 6.0)), *model])
        shown = sheet.show(text, describe.card_of(FIT))
        self.assertIn("objective               5.0", shown)
        self.assertIn("state 1                   0.25  (on the card 0.5)", shown)
        self.assertTrue(any(line.startswith("gate Ga, row 1, column 1") for line in shown))
        self.assertTrue(any(line.startswith("stop R") and "lowered the objective" in line for line in shown))
        self.assertTrue(any("model word 15" in line for line in sheet.show(text)))
        with self.assertRaises(Fault):
            sheet.show(text, describe.card_of(GAUGE))
        with self.assertRaises(Fault):
            sheet.show(text + "0" * 16 + "\n", describe.card_of(FIT))

    def test_continued(self):
        card_words = numbers.words(describe.card_of(FIT))
        model = [word + 1 for word in card_words[9:25]]
        text = "fit 3 1 9 0\n" + "".join(f"{w:016x}\n" for w in [0] * 6 + model)
        job = sheet.continued(text, describe.card_of(FIT))
        self.assertEqual(describe.card_of(job), card(*card_words[:9], *model, *card_words[25:]))
        for wrong in (text + "0" * 16 + "\n", "density 1\n", "refused 1 " + "0" * 16 + " " + "0" * 16, "fit 3 1 9 0\n"):
            with self.assertRaises(Fault):
                sheet.continued(wrong, describe.card_of(FIT))

    def test_sheets_that_are_none(self):
        for text in ("density 2\n", "density x\n", "process 4\nzz\n", "physical 1 1\n", "diagnostics\n", "fit 1 1 1 1\n", "model 2\n" + "0" * 16):
            with self.assertRaises(Fault):
                sheet.show(text)


class Documents(unittest.TestCase):
    def test_the_worked_fit_card(self):
        """docs/CARD.md has the words of examples/worked_fit.json, each with what `show --words` says of it."""
        with open(os.path.join(ROOT, "docs", "CARD.md")) as file:
            block = file.read().split("## A worked card of kind 5")[1].split("```")[1]
        lines = [line.split(None, 2) for line in layout.listing(describe.card_of(example("worked_fit.json")))]
        self.assertEqual(block, "text\n" + "".join(f"{word}   {text}\n" for _, word, text in lines))

    def test_the_stored_sheet_of_the_story(self):
        """docs/LABORATORY.md shows numbers of this sheet."""
        data = describe.card_of(example("one_qubit.json"))
        with open(os.path.join(ROOT, "examples", "one_qubit.sheet")) as file:
            shown = sheet.show(file.read(), data)
        with open(os.path.join(ROOT, "docs", "LABORATORY.md")) as file:
            story = file.read()
        for line in shown[1:11]:
            self.assertIn(line, story)

    def test_the_examples_counts(self):
        """examples/one_qubit.json is what its script writes."""
        done = subprocess.run([sys.executable, os.path.join(ROOT, "examples/one_qubit.py")], capture_output=True, check=True)
        with open(os.path.join(ROOT, "examples/one_qubit.json"), "rb") as file:
            self.assertEqual(done.stdout, file.read())


class Story(unittest.TestCase):
    """docs/LABORATORY.md, followed. It needs a program that makes the sheets of fits: crates/sheet/out/sheet, or the one that MINTSHUTTLE_SHEET names."""

    def setUp(self):
        self.program = os.environ.get("MINTSHUTTLE_SHEET", os.path.join(ROOT, "crates/sheet/out/sheet"))
        if not os.path.exists(self.program):
            self.skipTest(f"{self.program} is not there: rt run in crates/sheet")

    def made(self, name):
        return subprocess.run([self.program], input=describe.card_of(example(name)), capture_output=True).stdout.decode()

    def test_the_worked_fit_sheet(self):
        with open(os.path.join(ROOT, "docs", "CARD.md")) as file:
            block = file.read().split("## A worked card of kind 5")[1].split("```")[3]
        header, *lines = block.splitlines()[1:]
        self.assertEqual(self.made("worked_fit.json").splitlines(), [header] + [line.split()[0] for line in lines])

    def test_the_stored_sheet(self):
        with open(os.path.join(ROOT, "examples", "one_qubit.sheet")) as file:
            self.assertEqual(self.made("one_qubit.json"), file.read())

    def test_every_command_prints_what_is_shown(self):
        with open(os.path.join(ROOT, "docs", "LABORATORY.md")) as file:
            parts = file.read().split("```")[1::2]
        printed = ""
        shown = 0
        for part in parts:
            language, _, body = part.partition("\n")
            if language == "sh" and "rt run" not in body:
                command = body.replace("crates/sheet/out/sheet", self.program)
                done = subprocess.run(["sh", "-eu", "-c", command], cwd=ROOT, capture_output=True)
                self.assertEqual(done.returncode, 0, (body, done.stderr.decode()))
                printed = done.stdout.decode()
            elif printed:
                self.assertEqual(printed, body)
                printed = ""
                shown += 1
        self.assertEqual(shown, 7)


class Program(unittest.TestCase):
    def test_make_show_make(self):
        for job in ALL:
            status, made, _ = run("make", stdin=json.dumps(job).encode())
            self.assertEqual(status, 0)
            status, shown, _ = run("show", stdin=made)
            self.assertEqual(status, 0)
            self.assertEqual(run("make", stdin=shown)[1], made)

    def test_files(self):
        with tempfile.TemporaryDirectory() as folder:
            path = os.path.join(folder, "card")
            self.assertEqual(run("make", os.path.join(ROOT, "examples/one_qubit.json"), "-o", path, "--control", "max_iterations=3")[0], 0)
            with open(path, "rb") as file:
                self.assertEqual(numbers.words(file.read())[1], 3)
            self.assertEqual(run("show", "--words", path)[0], 0)

    def test_status_and_messages(self):
        for arguments, stdin, status in (
                (("make",), b"{", 1), (("make", "/nowhere/at/all"), b"", 1), (("make",), b"\xff", 1), (("show",), b"\x11", 1),
                (("show", "--words"), b"\x11", 0), (("show", "--words"), b"", 0), (("explain",), b"something", 1), (("explain", "refused", "1"), b"", 1),
                (("make", "--control", "steps=1"), json.dumps(FIT).encode(), 1), (("make", "--control", "max_iterations=1"), json.dumps(DENSITY).encode(), 1),
                ((), b"", 2), (("other",), b"", 2), (("show", "--unknown"), b"", 2)):
            found, _, messages = run(*arguments, stdin=stdin)
            self.assertEqual(found, status, (arguments, messages))
            self.assertNotIn("Traceback", messages)
            self.assertEqual(bool(messages), status != 0)

    def test_help(self):
        for arguments in (["--help"], ["make", "--help"], ["show", "--help"], ["explain", "--help"]):
            with contextlib.redirect_stdout(io.StringIO()) as text, self.assertRaises(SystemExit) as caught:
                mintshuttle.main(arguments)
            self.assertEqual(caught.exception.code, 0)
            self.assertIn("Exit status", text.getvalue())


if __name__ == "__main__":
    unittest.main()
