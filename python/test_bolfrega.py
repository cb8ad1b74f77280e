"""The tests of the module: samples with their answers, what refuses a call, what is no input, the header's names and numbers.

Run it as `python3 python/test_bolfrega.py`. Every call on random and damaged files is in agree.py.
"""

import ctypes
import doctest
import os
import pathlib
import re
import subprocess
import sys
import threading
import unittest

import bolfrega
from bolfrega import Judgement, Refusal, Refused, UnknownNumber, Verdict

HERE = pathlib.Path(__file__).resolve().parent
SAMPLES = HERE.parent / "samples"
HEADER = (HERE.parent / "include" / "bolfrega.h").read_text()
PLAN_A = (SAMPLES / "plan-a.plan").read_bytes()
PLAN_B = (SAMPLES / "plan-b.plan").read_bytes()


def load_tests(loader, tests, pattern):
    """The examples of the docstrings are tests too."""
    tests.addTests(doctest.DocTestSuite(bolfrega))
    return tests


def lines(call, *parameters):
    """What the check program would print for a call that checks."""
    try:
        return str(call(*parameters)) + "\n"
    except Refused as refused:
        return "refused {:d}\n".format(refused.number)


def program(*words, **options):
    """Runs the module as a program: its status, its output and its errors."""
    made = subprocess.run([sys.executable, str(HERE / "bolfrega.py"), *map(str, words)], capture_output=True, **options)
    return made.returncode, made.stdout.decode(), made.stderr.decode()


class Samples(unittest.TestCase):
    def test_check(self):
        for plan in SAMPLES.glob("*.plan"):
            with self.subTest(plan.name):
                self.assertEqual(lines(bolfrega.check, plan.read_bytes()), plan.with_suffix(".answer").read_text())

    def test_gaps(self):
        for path in SAMPLES.glob("*.gaps"):
            with self.subTest(path.name):
                try:
                    said = "".join("{} {} {}\n".format(*gap) for gap in bolfrega.gaps(path.with_suffix(".plan").read_bytes()))
                except Refused as refused:
                    said = "refused {:d}\n".format(refused.number)
                self.assertEqual(said, path.read_text())

    def test_drives(self):
        for line in (SAMPLES / "drives").read_text().splitlines():
            with self.subTest(line):
                answer, words = line.split(": ")
                name, *steps = words.split()
                try:
                    said = str(bolfrega.recognize((SAMPLES / name).read_bytes(), [int(step) for step in steps]))
                except Refused as refused:
                    said = "refused {:d}".format(refused.number)
                self.assertEqual(said, answer)

    def test_routes(self):
        for line in (SAMPLES / "routes").read_text().splitlines():
            with self.subTest(line):
                answer, words = line.split(": ")
                name, *procedures = words.split()
                starts = [int(procedure) for procedure in procedures]
                said = lines(bolfrega.check_from, (SAMPLES / name).read_bytes(), starts)
                if said.startswith("broken"):
                    shown = bolfrega.check_from((SAMPLES / name).read_bytes(), starts).broken
                    said += "procedure {}\n".format(shown.procedure)
                self.assertEqual(said.rstrip("\n").replace("\n", " / "), answer)

    def test_unfold(self):
        for wide in SAMPLES.glob("*.wide"):
            with self.subTest(wide.name):
                said = lines(lambda file: bolfrega.check(bolfrega.unfold(file)), wide.read_bytes())
                self.assertEqual(said, wide.with_suffix(".answer").read_text())
                plan = wide.with_suffix(".plan")
                if plan.exists():
                    self.assertEqual(bolfrega.unfold(wide.read_bytes()), plan.read_bytes())
                    self.assertEqual(bolfrega.unfold_from(wide.read_bytes(), [0]), plan.read_bytes())

    def test_there_and_back(self):
        for plan in SAMPLES.glob("*.plan"):
            if bolfrega.refusal(plan.read_bytes()) is None:
                wide = bolfrega.widen(plan.read_bytes())
                self.assertEqual(bolfrega.narrow(wide), plan.read_bytes())
                self.assertEqual(bolfrega.unfold(wide), plan.read_bytes())


class Answers(unittest.TestCase):
    def test_broken(self):
        answer = bolfrega.check(PLAN_B)
        self.assertEqual(answer, bolfrega.Answer(Verdict.BROKEN, 12, 7, 4, bolfrega.Broken(6, 0, 2, b"\x01\x03", 0)))
        self.assertFalse(answer.holds)
        self.assertIs(bolfrega.judge(PLAN_B, answer.broken.run), Judgement.TURNED_AWAY)
        # Without room the run is not shown, and all else is the same.
        shown = bolfrega.check(PLAN_B, room=1).broken
        self.assertEqual((shown.length, shown.run, str(shown)), (2, None, "6 0 2\nrefused 10"))

    def test_rows_and_budget(self):
        self.assertTrue(bolfrega.check(PLAN_A).holds)
        self.assertIs(bolfrega.check(PLAN_A, rows=3).verdict, Verdict.FULL)
        self.assertIs(bolfrega.check(PLAN_A, budget=11).verdict, Verdict.SPENT)
        self.assertTrue(bolfrega.check(PLAN_A, rows=4, budget=12, room=0).holds)
        self.assertTrue(bolfrega.check(PLAN_A, rows=bolfrega.MOST_ROWS, budget=2**64 - 1, room=2**64 - 1).holds)

    def test_starts(self):
        self.assertIs(bolfrega.check_from(PLAN_B, []).verdict, Verdict.HOLDS)
        self.assertIs(bolfrega.check_from(PLAN_B, [0, 63]).verdict, Verdict.BROKEN)
        self.assertIs(bolfrega.check_from(PLAN_A, [0, 63]).verdict, Verdict.EMPTY)
        self.assertEqual(bolfrega.check_from(PLAN_B, iter([0])), bolfrega.check(PLAN_B))

    def test_no_yes_or_no(self):
        for said in (bolfrega.check(PLAN_A), bolfrega.check(PLAN_A).verdict):
            with self.assertRaises(TypeError):
                bool(said)
        self.assertTrue(bolfrega.judge(PLAN_A, [1, 2, 3]))
        self.assertFalse(bolfrega.judge(PLAN_A, [1, 3]))
        self.assertTrue(bolfrega.recognize(PLAN_B, [1, 3]))
        self.assertFalse(bolfrega.recognize(PLAN_B, [3, 3]))

    def test_stretches(self):
        found = bolfrega.recognize(PLAN_B, [1, 3])
        self.assertEqual([found.procedures(0, 0), found.procedures(0, 1), found.procedures(1, 2), found.procedures(0, 2)], [6, 6, 1, 1])
        self.assertEqual([found.procedures(*stretch) for stretch in ((0, 3), (2, 1), (-1, 0))], [0, 0, 0])
        self.assertFalse(found.derives(64, 0, 0) or found.derives(-1, 0, 0))
        self.assertEqual(len(found.cells), bolfrega.CELLS)

    def test_inputs_of_each_kind(self):
        for made in (bytes, bytearray, memoryview):
            self.assertEqual(str(bolfrega.check(made(PLAN_A))), "holds 12 4 4")
            self.assertTrue(bolfrega.judge(made(PLAN_A), made(b"\1\2\3")))
        self.assertTrue(bolfrega.judge(PLAN_A, (1, 2, 3)))

    def test_threads(self):
        said = []
        work = lambda: said.extend(str(bolfrega.check(PLAN_B)) for _ in range(50))
        threads = [threading.Thread(target=work) for _ in range(8)]
        for thread in threads:
            thread.start()
        for thread in threads:
            thread.join()
        self.assertEqual(said, ["broken 12 7 4\n6 0 2\n1 3"] * 400)


class Rows(unittest.TestCase):
    def test_samples(self):
        """The answers of check_from, the run that it shows, and runs that the rows' procedures derive; one journal for all."""
        journal, plans = bolfrega.Journal(), sorted(SAMPLES.glob("*.plan"))
        for plan in plans:
            file = plan.read_bytes()
            for starts in ([0], [], range(64)):
                with self.subTest(plan.name, starts=starts):
                    if bolfrega.refusal(file) is not None:
                        before = bytes(journal._rows), journal.used
                        self.assertRaises(Refused, bolfrega.check_rows, file, starts, journal)
                        self.assertEqual((bytes(journal._rows), journal.used), before)
                        continue
                    expected = bolfrega.check_from(file, starts, room=bolfrega.LONGEST_RUN)
                    before = bytes(journal._rows)
                    found = bolfrega.check_rows(file, starts, journal)
                    self.assertEqual(bytes(journal._rows)[88 * found.used :], before[88 * found.used :])
                    self.compare(file, journal, found, expected)

    def compare(self, file, journal, found, expected):
        counts = lambda answer: (answer.verdict, answer.joins, answer.used, answer.pass_)
        self.assertEqual(counts(found), counts(expected))
        self.assertEqual(len(journal), found.used)
        if expected.broken is not None:
            shown, row = expected.broken, journal[found.broken.row]
            self.assertEqual(found.broken, bolfrega.BrokenRow(shown.row, shown.pairs, shown.length, shown.procedure))
            self.assertEqual((len(row.pairs), row.length, row.procedure), (shown.pairs, shown.length, shown.procedure))
            self.assertEqual(bolfrega.write(file, journal, shown.row), shown.run)
            self.assertEqual(str(found) + "\n" + " ".join(map(str, shown.run)), str(expected))
        for at, row in enumerate(journal):
            if row.length <= bolfrega.MOST_STEPS and at < 40:
                run = bolfrega.write(file, journal, at)
                self.assertEqual(len(run), row.length)
                self.assertTrue(bolfrega.recognize(file, run).derives(row.procedure, 0, len(run)))

    def test_rows(self):
        journal = bolfrega.Journal(8)
        bolfrega.check_rows(PLAN_B, [0], journal)
        self.assertEqual(journal[0], bolfrega.Row(1, 1, tuple((stage, stage) for stage in range(16)), None, None, 0, 1, 3))
        self.assertEqual(journal[1], bolfrega.Row(0, 0, ((0, 2),), 0, None, 1, 2, 4))
        self.assertEqual([(row.left, row.right) for row in journal][3:], [(None, 0), (None, 2), (None, 3), (4, None)])
        for at in (7, -1):
            self.assertRaises(IndexError, journal.__getitem__, at)

    def test_changed_rows(self):
        """A row that no check could have stored is not written, and neither is a run that is longer than the room."""
        journal = bolfrega.Journal()
        bolfrega.check_rows(PLAN_B, [0], journal)
        for room, number in ((1, Refusal.ROOM), (2, None)):
            try:
                self.assertEqual((bolfrega.write(PLAN_B, journal, 6, room), number), (b"\x01\x03", None))
            except Refused as refused:
                self.assertEqual(refused.number, number)
        journal._rows[0].rule = 200
        with self.assertRaises(Refused) as caught:
            bolfrega.write(PLAN_B, journal, 6)
        self.assertEqual(caught.exception.number, Refusal.ROW)

    def test_steps_and_moves(self):
        place = lambda at: bolfrega.step(PLAN_B, at)
        self.assertEqual([place(0), place(1)], [bolfrega.Rule(0, (129, 3)), bolfrega.Rule(1, ())])
        self.assertEqual([place(5), place(8), place(9), place(2**64 - 1)], [bolfrega.Move(0, 1, 1), bolfrega.Finishing(2), None, None])
        self.assertEqual(bolfrega.moves(PLAN_B), PLAN_B[40:64])
        for plan in SAMPLES.glob("*.plan"):
            file, at = plan.read_bytes(), 0
            try:
                while bolfrega.step(file, at) is not None:
                    at += 1
                self.assertIsNone(bolfrega.refusal(file))
                self.assertEqual(at, len(file) // 8)
            except Refused as refused:
                self.assertEqual(str(refused), str(bolfrega.refusal(file)))


class Refusals(unittest.TestCase):
    def refused(self, number, record, call, *parameters, **named):
        with self.assertRaises(Refused) as caught:
            call(*parameters, **named)
        self.assertEqual((caught.exception.number, caught.exception.record), (number, record))

    def test_every_number(self):
        twice = bytes([3, 0, 0, 0, 0, 0, 0, 0] * 2)
        rules = b"".join(bytes([1, at // 100, 1, at % 100, 0, 0, 0, 0]) for at in range(257))
        for number, record, file in [
            (Refusal.LENGTH, None, PLAN_A[:7]),
            (Refusal.RECORDS, None, bytes(8 * 1297)),
            (Refusal.KIND, 0, bytes(8)),
            (Refusal.ABOVE_RANGE, 0, bytes([3, 16, 0, 0, 0, 0, 0, 0])),
            (Refusal.UNUSED, 0, bytes([3, 0, 0, 0, 0, 0, 0, 1])),
            (Refusal.ORDER, 1, twice),
            (Refusal.COUNT, 256, rules),
            (Refusal.REMARK, 0, bytes([2, 0, 120, 0, 0, 0, 0, 0])),
        ]:
            found = bolfrega.refusal(file)
            self.assertEqual((found.number, found.record), (number, record))
            self.refused(number, record, bolfrega.judge, file, b"\xff")
            self.refused(number, record, bolfrega.recognize, file, b"\xff")
            self.refused(number, record, bolfrega.gaps, file)
            self.refused(number, record, bolfrega.widen, file)
            self.refused(number, record, bolfrega.check, file, rows=0)
            self.refused(number, record, bolfrega.check_from, file, [0], rows=0)
            self.refused(number, record, bolfrega.check_rows, file, [0], bolfrega.Journal(1))
            self.refused(number, record, bolfrega.write, file, bolfrega.Journal(1), 0)
            self.refused(number, record, bolfrega.step, file, record or 0)
            self.assertEqual(bolfrega.moves(file), b"")
        self.refused(Refusal.JOURNAL, None, bolfrega.check, PLAN_A, rows=0)
        self.refused(Refusal.JOURNAL, None, bolfrega.check, PLAN_A, rows=4097)
        self.refused(Refusal.JOURNAL, None, bolfrega.check_from, PLAN_A, [0], rows=2**64 - 1)
        for rows in (0, 4097, 2**64 - 1):
            self.refused(Refusal.JOURNAL, None, bolfrega.Journal, rows)
        self.refused(Refusal.ROW, None, bolfrega.write, PLAN_A, bolfrega.Journal(), 0)
        self.refused(Refusal.RUN, None, bolfrega.judge, PLAN_A, bytes(65535))
        self.refused(Refusal.RUN, None, bolfrega.recognize, PLAN_A, [128])
        self.refused(Refusal.LONG_RUN, None, bolfrega.recognize, PLAN_A, bytes(65))
        for call in (bolfrega.narrow, bolfrega.unfold, lambda file: bolfrega.unfold_from(file, [0])):
            self.refused(Refusal.WIDE_LENGTH, None, call, bytes(8))
            self.refused(Refusal.KIND, 1, call, bytes([3] + 31 * [0]))
        self.refused(Refusal.LONG_BODY, None, bolfrega.narrow, bytes([1, 0, 3] + 13 * [0]))
        self.refused(Refusal.CHAINS, None, bolfrega.unfold, bytes([1, 63, 3] + 13 * [0]))
        self.refused(Refusal.CHAINS, None, bolfrega.unfold_from, bytes([1, 0, 3] + 13 * [0]), [63])

    def test_what_is_no_input(self):
        for file in (8, "plan", None, 3.5, True):
            for call in (bolfrega.refusal, bolfrega.check, bolfrega.gaps, bolfrega.widen, lambda file: bolfrega.judge(b"", file)):
                with self.assertRaises(TypeError):
                    call(file)
        for rows in (-1, 2**64):
            with self.assertRaises(ValueError) as caught:
                bolfrega.check(PLAN_A, rows=rows)
            self.assertNotIsInstance(caught.exception, Refused)
            with self.assertRaises(ValueError):
                bolfrega.check(PLAN_A, budget=rows)
            with self.assertRaises(ValueError):
                bolfrega.check(PLAN_A, room=rows)
        for rows in (1.0, "1", None, True):
            with self.assertRaises(TypeError):
                bolfrega.check(PLAN_A, rows=rows)
        for starts in ([64], [-1], [0, "1"], [True]):
            with self.assertRaises(ValueError):
                bolfrega.check_from(PLAN_A, starts)
            with self.assertRaises(ValueError):
                bolfrega.unfold_from(b"", starts)
        with self.assertRaises(ValueError):
            bolfrega.judge(PLAN_A, [256])

    def test_unknown_numbers(self):
        """A library that gives a number which the module does not know is never one that holds, accepts or derives."""

        class Other:
            def __getattr__(self, name):
                return lambda *parameters: 199

        journal = bolfrega.Journal()
        library, bolfrega._library = bolfrega._library, Other()
        try:
            for call in (
                lambda: bolfrega.refusal(b""),
                lambda: bolfrega.judge(b"", b""),
                lambda: bolfrega.recognize(b"", b""),
                lambda: bolfrega.gaps(b""),
                lambda: bolfrega.widen(b""),
                lambda: bolfrega.narrow(b""),
                lambda: bolfrega.unfold(b""),
                lambda: bolfrega.unfold_from(b"", [0]),
                lambda: bolfrega.check(b""),
                lambda: bolfrega.check_from(b"", [0]),
                lambda: bolfrega.check_rows(b"", [0], journal),
                lambda: bolfrega.write(b"", journal, 0),
                lambda: bolfrega.step(b"", 0),
            ):
                with self.assertRaises(UnknownNumber) as caught:
                    call()
                self.assertEqual(caught.exception.number, 199)
        finally:
            bolfrega._library = library


class Header(unittest.TestCase):
    def test_constants(self):
        theirs = {name: int(value) for name, value in re.findall(r"^#define BOLFREGA_(\w+) (\d+)", HEADER, re.M)}
        ours = {"REFUSAL_" + case.name: case.value for case in Refusal}
        ours.update({case.name: case.value for enum in (Verdict, Judgement) for case in enum})
        ours.update({name: getattr(bolfrega, name) for name in bolfrega.__all__ if name.isupper()})
        ours.update({name[1:]: value for name, value in vars(bolfrega).items() if re.fullmatch(r"_[A-Z_]+", name) and isinstance(value, int)})
        # The kinds of records and the places of the details, which this module has as fields.
        of_c_alone = "RULE MOVE FINISHING RECORD JOINS USED PASS ROW PAIRS LENGTH REFUSED PROCEDURE LENGTH_CAP".split()
        self.assertEqual(ours, {name: value for name, value in theirs.items() if name not in of_c_alone})

    def test_row(self):
        (text,) = re.findall(r"struct bolfrega_row {(.*?)};", HEADER, re.S)
        theirs = [(name, int(words or 1)) for name, words in re.findall(r"uint64_t (\w+)(?:\[(\d+)\])?;", text)]
        self.assertEqual(theirs, [(name, ctypes.sizeof(kind) // 8) for name, kind in bolfrega._Row._fields_])
        self.assertEqual(ctypes.sizeof(bolfrega._Row), 88)

    def test_messages(self):
        theirs = dict(re.findall(r"case BOLFREGA_REFUSAL_(\w+):\s+return \"(.*)\";", HEADER))
        self.assertEqual({case.name: case.message for case in Refusal}, theirs)
        self.assertIn('return "{}";'.format(str(UnknownNumber(7)).replace(" (7)", "")), HEADER)
        for case in [*Verdict, *Judgement]:
            self.assertIn('return "{}: '.format(case), HEADER)

    def test_functions(self):
        found = re.findall(r"^(uint64_t|void) bolfrega_(\w+)\((.*?)\);", HEADER, re.M | re.S)
        declared = {name: text for _, name, text in found}
        self.assertEqual(set(declared), set(bolfrega._FUNCTIONS))
        self.assertEqual({name for number, name, _ in found if number == "void"}, bolfrega._WITHOUT_NUMBER)
        kinds = {
            "const uint8_t *": ctypes.c_char_p,
            "uint8_t *": ctypes.POINTER(ctypes.c_uint8),
            "uint64_t *": ctypes.POINTER(ctypes.c_uint64),
            "uint32_t *": ctypes.POINTER(ctypes.c_uint32),
            "struct bolfrega_row *": ctypes.POINTER(bolfrega._Row),
            "const struct bolfrega_row *": ctypes.POINTER(bolfrega._Row),
            "size_t": ctypes.c_size_t,
            "uint64_t": ctypes.c_uint64,
        }
        for name, text in declared.items():
            parameters = [] if text == "void" else [" ".join(word.split()) for word in text.split(",")]
            arrays = [re.sub(r"^(uint\d+_t) (\w+)\[\w+\]$", r"\1 *\2", word) for word in parameters]
            types = [kinds[re.sub(r"\s?\w+$", "", word) if "*" not in word else word[: word.index("*") + 1]] for word in arrays]
            self.assertEqual(bolfrega._FUNCTIONS[name], types, name)


class Program(unittest.TestCase):
    def test_samples(self):
        status = {"holds": 0, "broken": 1, "refused": 3, "full": 4, "spent": 4, "empty": 5}
        for name in ("plan-a", "plan-b", "damaged", "full", "spent", "endless"):
            answer = (SAMPLES / (name + ".answer")).read_text()
            said = program(SAMPLES / (name + ".plan"))
            self.assertEqual(said[:2], (status[answer.split()[0]], answer), name)

    def test_standard_input(self):
        self.assertEqual(program("-", input=PLAN_A)[:2], (0, "holds 12 4 4\n"))

    def test_no_answer(self):
        for words in ([], ["a", "b"], [SAMPLES / "none"], [SAMPLES]):
            status, out, errors = program(*words)
            self.assertEqual((status, out), (2, ""))
            self.assertTrue(errors)

    def test_output_that_is_full(self):
        with open("/dev/full", "wb") as full:
            made = subprocess.run([sys.executable, str(HERE / "bolfrega.py"), str(SAMPLES / "plan-a.plan")], stdout=full, stderr=subprocess.PIPE)
        self.assertEqual(made.returncode, 2)
        self.assertIn(b"standard output", made.stderr)

    def test_no_library(self):
        status, out, errors = program(SAMPLES / "plan-a.plan", env={**os.environ, "BOLFREGA_LIB": "/nonexistent/libbolfrega.so"})
        self.assertEqual((status, out), (2, ""))
        self.assertIn("/nonexistent/libbolfrega.so", errors)
        # None, and one that is another library.
        for library in ("/nonexistent", "libc.so.6"):
            words = [sys.executable, "-c", "import bolfrega"]
            made = subprocess.run(words, cwd=HERE, env={**os.environ, "BOLFREGA_LIB": library}, capture_output=True)
            self.assertIn(b"ImportError", made.stderr)


if __name__ == "__main__":
    unittest.main()
