"""Tests of tools/record: python3 -B -m unittest discover -s tests -p 'test_*.py'"""
import contextlib
import importlib.machinery
import importlib.util
import io
import os
import random
import struct
import subprocess
import sys
import tempfile
import unittest

ROOT = os.path.dirname(os.path.dirname(os.path.abspath(__file__)))
TOOLS = os.path.join(ROOT, "tools")
PROGRAM = os.path.join(TOOLS, "record")
SPREAD = os.path.join(ROOT, "examples", "spread.csv")
LARGEST = sys.float_info.max
LEAST = 5e-324
NONE = 0xFF
POSITION = "the order of rows may have picked the pivot"
UNKNOWN = f"unless the record has contract numbers, {POSITION}"
MALFORMED = "the record is too long, or n or method is not one byte long, or bytes follow the last field"


def load_program():
    """tools/record as a module; its name has no .py."""
    loader = importlib.machinery.SourceFileLoader("record", PROGRAM)
    module = importlib.util.module_from_spec(importlib.util.spec_from_loader("record", loader))
    loader.exec_module(module)
    return module


sys.dont_write_bytecode = True
sys.path.insert(0, TOOLS)
record = load_program()

MATRIX_EXAMPLE = bytes.fromhex("01 01 00 01  02 01 00 01  03 08 00 00 00 00 00 00 00 10 40")
ANSWER_EXAMPLE = bytes.fromhex("11 01 00 00  12 01 00 FF  13 01 00 FF  18 01 00 00  14 01 00 00"
                               "15 08 00 00 00 00 00 00 00 00 00  16 08 00 00 00 00 00 00 00 00 40")


NUMBERED_EXAMPLE = bytes.fromhex("01 01 00 01  02 01 00 01  04 04 00 07 00 00 00  03 08 00 00 00 00 00 00 00 10 40")


def run(*arguments, source=b""):
    """The exit status, the output and what is told on standard error."""
    sink, told = io.BytesIO(), io.StringIO()
    with contextlib.redirect_stderr(told):
        try:
            status = record.main(list(arguments), io.BytesIO(source), sink)
        except SystemExit as end:
            status = end.code
    return status, sink.getvalue(), told.getvalue()


def field(tag, content):
    return bytes([tag]) + struct.pack("<H", len(content)) + content


def doubles(values):
    return struct.pack(f"<{len(values)}d", *values)


def complete(p, e, entries, tied=NONE, phase_two=NONE, inexact=0):
    return (field(0x11, b"\0") + field(0x12, bytes([tied])) + field(0x13, bytes([phase_two]))
            + field(0x18, bytes([inexact])) + field(0x14, bytes(p)) + field(0x15, doubles(e))
            + field(0x16, doubles(entries)))


def refused(number, row=0, column=0, tied=NONE, phase_two=NONE):
    return (field(0x11, bytes([number])) + field(0x12, bytes([tied])) + field(0x13, bytes([phase_two]))
            + field(0x17, bytes([row, column])))


def random_double(source):
    """Any finite pattern of 64 bits, or one of the extremes."""
    extremes = [0.0, -0.0, LEAST, -LEAST, LARGEST, -LARGEST, sys.float_info.min]
    value = struct.unpack("<d", struct.pack("<Q", source.getrandbits(64)))[0]
    if source.random() < 0.2:
        value = source.choice(extremes)
    elif source.random() < 0.2:
        value = struct.unpack("<d", struct.pack("<Q", source.getrandbits(52)))[0]
    return value if abs(value) <= LARGEST else 1.0


class Case(unittest.TestCase):
    def setUp(self):
        folder = tempfile.TemporaryDirectory()
        self.addCleanup(folder.cleanup)
        self.folder = folder.name

    def file(self, text):
        path = os.path.join(self.folder, "matrix")
        with open(path, "wb") as file:
            file.write(text if isinstance(text, bytes) else text.encode("utf-8"))
        return path

    def written(self, text, method="gmw81"):
        status, output, told = run("write", method, self.file(text))
        self.assertEqual((status, told), (0, ""))
        return output

    def entries(self, text):
        output = self.written(text)
        return list(struct.unpack(f"<{output[3] ** 2}d", output[11:]))

    def shown(self, answer, *options):
        status, output, told = run("show", *options, source=answer)
        self.assertEqual((status, told), (0, ""))
        return output.decode("utf-8").splitlines()

    def assert_mistake(self, result, words):
        status, output, told = result
        self.assertEqual((status, output), (2, b""))
        self.assertIn(words, told)


class Write(Case):
    def test_example(self):
        for text in ("4", "4.0\n", "corn\n4", "corn 4", "+4e0"):
            self.assertEqual(self.written(text), MATRIX_EXAMPLE)

    def test_methods(self):
        for number, names in enumerate((("gmw81", "GMW81", "1"), ("se90", "Se90", "2"), ("se99", "SE99", "3")), 1):
            for name in names:
                self.assertEqual(self.written("4", name)[7], number)
        for name in ("0", "4", "01", "se98", ""):
            self.assert_mistake(run("write", name, self.file("4")), "no method")

    def test_separators(self):
        for text in ("4 2\n2 3", " 4\t2\n2\t 3 ", "4,2\n2,3", "4, 2\n2, 3", "4;2\r\n2;3\r\n", "  4   2 \n 2 3",
                     "# first\n\n4 2\n  \n # second\n2 3\n\n", "\ufeff4,2\n2,3\n,\n", '"4","2"\n"2","3"'):
            self.assertEqual(self.entries(text), [4.0, 2.0, 2.0, 3.0], text)

    def test_names_are_left_out(self):
        for text in ("a b\n4 2\n2 3", "a 4 2\nb 2 3", ",a,b\na,4,2\nb,2,3", "a,b\na,4,2\nb,2,3",
                     "\ta b\tc d\na b\t4\t2\nc d\t2\t3", '"a, b";c\n4;2\n2;3', '"a;b","c"\n4,2\n2,3'):
            self.assertEqual(self.entries(text), [4.0, 2.0, 2.0, 3.0], text)

    def test_contract_numbers(self):
        for text in ("numbers: 7\n4", "4\nnumbers: 7\n", "corn\nnumbers: 7\ncorn 4", "NUMBERS:7\n4",
                     '"numbers:",7,\n4'):
            self.assertEqual(self.written(text), NUMBERED_EXAMPLE, text)
        numbers = struct.pack("<2I", 4294967295, 0)
        for line in ("numbers: 4294967295 0", "numbers:,4294967295,0", "numbers: 4294967295; 0",
                     "numbers:\t4294967295\t00", '"numbers:";"4294967295";"0"', "numbers: 4294967295, 0,,"):
            for rows in ("4 2\n2 3", "4,2\n2,3", "a;b\n4;2\n2;3", "a\t4\t2\nb\t2\t3"):
                for text in (f"{line}\n{rows}", f"{rows}\n{line}"):
                    self.assertEqual(self.written(text)[8:19], field(4, numbers), text)
                    self.assertEqual(self.written(text)[22:], doubles([4.0, 2.0, 2.0, 3.0]), text)
        self.assertEqual(self.written("# numbers: 1 2\n4 2\n2 3")[8], 3)

    def test_equal_contract_numbers_are_written(self):
        self.assertEqual(self.written("4 2\n2 3\nnumbers: 5 5")[11:19], struct.pack("<2I", 5, 5))

    def test_mistakes_in_contract_numbers(self):
        for line, words in (
                ("numbers: 1", "1 contract numbers for 2 rows"),
                ("numbers:", "0 contract numbers for 2 rows"),
                ("numbers: 1 2 3", "3 contract numbers for 2 rows"),
                ("numbers: 1 -2", "line 3: contract number '-2' is not a whole number from 0 to 4294967295"),
                ("numbers: 1 2.0", "contract number '2.0' is not a whole number"),
                ("numbers: 1 0x2", "contract number '0x2' is not a whole number"),
                ("numbers: 1 4294967296", "contract number '4294967296' is not a whole number"),
                ("numbers: 1 corn", "line 3: contract number 'corn' is not a whole number"),
                ("numbers: 1 ２", "is not a whole number"),
                ("numbers: 1 2\nnumbers: 1 2", "line 4: a second line of contract numbers"),
                ("numbers 1 2", "line 3: row 2 has length 3, row 0 has length 2")):
            self.assert_mistake(run("write", "1", self.file(f"4 2\n2 3\n{line}")), words)

    def test_not_finite_and_unsymmetric_are_written(self):
        values = self.entries("inf -Infinity\nNaN 0.0")
        self.assertEqual(values[:2] + values[3:], [float("inf"), float("-inf"), 0.0])
        self.assertNotEqual(values[2], values[2])
        self.assertEqual(self.written("0.0 -0.0\n0.0 1")[11:], doubles([0.0, -0.0, 0.0, 1.0]))

    def test_random_doubles(self):
        source = random.Random(1)
        for n in (1, 2, 3, 7, 48):
            values = [random_double(source) for _ in range(n * n)]
            rows = [values[k:k + n] for k in range(0, n * n, n)]
            for mark in " ,;\t":
                text = "\n".join(mark.join(map(repr, row)) for row in rows)
                self.assertEqual(self.written(text)[11:], doubles(values))

    def test_largest_n(self):
        output = self.written("\n".join(["1 " * 48] * 48))
        self.assertEqual(len(output), 18443)
        self.assertEqual(output[:11], bytes.fromhex("01 01 00 30  02 01 00 01  03 00 48"))
        self.assert_mistake(run("write", "1", self.file("\n".join(["1 " * 49] * 49))), "49 rows and columns")
        numbers = "numbers: " + " ".join(map(str, range(48)))
        self.assertEqual(len(self.written("\n".join(["1 " * 48] * 48 + [numbers]))), 18638)

    def test_mistakes(self):
        for text, words in (
                ("", "no row of numbers"),
                ("# none\n", "no row of numbers"),
                ("corn wheat", "no row of numbers"),
                ("1 2\n2", "line 2: row 1 has length 1, row 0 has length 2"),
                ("1 2\n\n2 3 4", "line 3: row 1 has length 3, row 0 has length 2"),
                ("1 2 3\n4 5 6", "not square: 2 by 3"),
                ("1 2\n2 x", "line 2: row 1, column 1: 'x' is not a number"),
                ("1 x\n2 3", "line 1: row 0, column 1: 'x' is not a number"),
                ("a,b\n1,2\n2,", "line 3: row 1, column 1: '' is not a number"),
                ("1,5;2\n2;3", "row 0, column 0: '1,5' is not a number"),
                ("4 2; 2 2", "no row of numbers"),
                ("1_0", "no row of numbers"),
                ("1 1_0\n1 2", "'1_0' is not a number"),
                ("1 1e400\n1 2", "row 0, column 1: 1e400 is beyond the largest double"),
                ("a b c\n1 2\n2 3", "the first line has 3 names for 2 columns"),
                (",a,b\nb,1,2\na,2,3", "row 0 is named 'b', but column 0 'a'"),
                ("a,\n1,2\n2,3", "row 1 has an empty name"),
                ('"a,b\n1,2', "line 1"),
                (b"\xff\xfe1\0", "UTF-8")):
            self.assert_mistake(run("write", "1", self.file(text)), words)

    def test_unreadable(self):
        self.assert_mistake(run("write", "1", os.path.join(self.folder, "absent")), "No such file")
        self.assert_mistake(run("write", "1", self.folder), self.folder)
        self.assert_mistake(run("write", "1"), "FILE")
        self.assert_mistake(run(), "write|show")


class Show(Case):
    def test_example(self):
        self.assertEqual(self.shown(ANSWER_EXAMPLE), [
            "complete", "no pivot search was tied", "no phase two", "inexact (rounded) diagonal roots: 0 of 1",
            "pivot order: 0",
            "amount added for each row:", "  0  0.0", "L, its rows in pivot order:", "  0  2.0"])
        self.assertEqual(complete([0], [0.0], [2.0]), ANSWER_EXAMPLE)

    def test_refusals(self):
        for number, words in ((1, MALFORMED),
                              (2, "unknown method"), (3, "n is 0 or above 48"),
                              (4, "the number of entries is not n * n"), (5, "a buffer has a wrong length")):
            self.assertEqual(self.shown(refused(number)), [f"refused: {number}, {words}"])
        self.assertEqual(self.shown(refused(6, 3)), ["refused: 6, index not below n, at position 3"])
        self.assertEqual(self.shown(refused(7, 1, 0)), ["refused: 7, not finite, at row 1, column 0"])
        self.assertEqual(self.shown(refused(8, 0, 2)), ["refused: 8, unsymmetric, at row 0, column 2"])
        self.assertEqual(self.shown(refused(9, 48, 0, 3, 7)), [
            "refused: 9, step 48 stored a value that is not finite",
            f"first tied at step 3: {UNKNOWN}", "phase two from step 7"])
        self.assertEqual(self.shown(refused(9))[1:], ["no pivot search was tied", "no phase two"])
        self.assertEqual(self.shown(refused(12)),
                         ["refused: 12, the contract numbers are not four bytes for each row"])
        self.assertEqual(self.shown(refused(13, 2)), ["refused: 13, row 2 has the contract number of an earlier row"])
        for field_index, due in enumerate(("01", "02", "03 or 04", "03")):
            self.assertEqual(self.shown(refused(10, field_index)),
                             [f"refused: 10, the transfer was cut in field {field_index}"])
            self.assertEqual(self.shown(refused(11, field_index)),
                             [f"refused: 11, field {field_index} has a wrong tag, {due} was due"])

    def test_steps(self):
        lines = self.shown(complete([1, 0], [0.5, 0.0], [1.0, 0.0, -2.5, 3.0], 0, 1, 2))
        self.assertEqual(lines[1:5], [f"first tied at step 0: {UNKNOWN}", "phase two from step 1",
                                      "inexact (rounded) diagonal roots: 2 of 2", "pivot order: 1, 0"])
        self.assertEqual(lines[5:], ["amount added for each row:", "  0  0.5", "  1  0.0",
                                     "L, its rows in pivot order:", "  1   1.0  0.0", "  0  -2.5  3.0"])

    def test_inexact_roots(self):
        for n in (1, 2, 48):
            for inexact in range(n + 1):
                answer = complete(range(n), [0.0] * n, [0.0] * n * n, inexact=inexact)
                self.assertEqual(self.shown(answer)[3], f"inexact (rounded) diagonal roots: {inexact} of {n}")
            for inexact in (n + 1, 255):
                answer = complete(range(n), [0.0] * n, [0.0] * n * n, inexact=inexact)
                self.assert_mistake(run("show", source=answer),
                                    f"not an answer record: {inexact} inexact diagonal roots, but there are {n}")
        self.assertEqual(len(answer), 18889)

    def test_answers_without_field_18(self):
        without = ANSWER_EXAMPLE[:12] + ANSWER_EXAMPLE[16:]
        self.assert_mistake(run("show", source=without),
                            "field 18, the number of inexact diagonal roots, is missing after field 13")
        moved = ANSWER_EXAMPLE[:12] + ANSWER_EXAMPLE[16:20] + ANSWER_EXAMPLE[12:16] + ANSWER_EXAMPLE[20:]
        self.assert_mistake(run("show", source=moved), "fields 11 12 13 14 18 15 16 instead of")
        long = ANSWER_EXAMPLE[:12] + field(0x18, b"\0\0") + ANSWER_EXAMPLE[16:]
        self.assert_mistake(run("show", source=long), "field 18 has length 2 instead of 1")
        beside = refused(9)[:12] + field(0x18, b"\0") + refused(9)[12:]
        self.assert_mistake(run("show", source=beside), "fields 11 12 13 18 17 instead of")

    def test_names(self):
        names = self.file(";wheat Dec;maïs\nwheat Dec;1;2\nmaïs;2;3")
        lines = self.shown(complete([1, 0], [0.5, 0.0], [1.0, 0.0, 2.0, 3.0]), "--names", names)
        self.assertEqual(lines[4:], [
            "pivot order: maïs, wheat Dec", "amount added for each row:", "  wheat Dec  0.5", "  maïs       0.0",
            "L, its rows in pivot order:", "  maïs       1.0  0.0", "  wheat Dec  2.0  3.0"])
        self.assertEqual(self.shown(refused(8, 0, 1), "--names", names),
                         ["refused: 8, unsymmetric, at row wheat Dec, column maïs"])

    def test_names_of_another_file(self):
        without = self.file("1 2\n2 3")
        self.assertEqual(self.shown(refused(7, 1, 0), "--names", without), self.shown(refused(7, 1, 0)))
        self.assert_mistake(run("show", "--names", without, source=ANSWER_EXAMPLE), "has 2 rows, the answer 1")
        self.assert_mistake(run("show", "--names", without, source=refused(8, 0, 2)), "row 0, column 2")
        self.assert_mistake(run("show", "--names", "absent", source=ANSWER_EXAMPLE), "No such file")

    def test_digits(self):
        answer = complete([0], [1 / 3], [2 / 3])
        self.assertEqual(self.shown(answer, "--digits", "3")[6::2], ["  0  0.333", "  0  0.667"])
        self.assert_mistake(run("show", "--digits", "0", source=answer), "--digits")

    def test_random_doubles(self):
        source = random.Random(2)
        for n in (1, 3, 48):
            p = source.sample(range(n), n)
            e, entries = ([random_double(source) for _ in range(k)] for k in (n, n * n))
            lines = self.shown(complete(p, e, entries))
            amounts = [line.split() for line in lines[6:6 + n]]
            factor = [line.split() for line in lines[7 + n:]]
            self.assertEqual([int(row[0]) for row in factor], p)
            self.assertEqual(doubles([float(row[1]) for row in amounts]), doubles(e))
            self.assertEqual(doubles([float(cell) for row in factor for cell in row[1:]]), doubles(entries))

    def test_every_shortened_or_lengthened_answer(self):
        for answer in (ANSWER_EXAMPLE, refused(8, 0, 2)):
            for k in range(len(answer)):
                self.assert_mistake(run("show", source=answer[:k]), "not an answer record")
            self.assert_mistake(run("show", source=answer + b"\0"), "not an answer record")

    def test_mistakes(self):
        good = complete([1, 0], [0.0] * 2, [0.0] * 4)
        for answer, words in (
                (b"", "the input is empty"),
                (MATRIX_EXAMPLE, "fields 01 02 03 instead of"),
                (good + field(0x17, b"\0\0"), "instead of 11 12 13 18 14 15 16"),
                (b"\0" + good[1:], "fields 00 12"),
                (complete([], [], []), "field 14 has length 0"),
                (complete(range(49), [0.0] * 49, [0.0] * 49 ** 2), "field 14 has length 49"),
                (complete([0, 1], [0.0], [0.0] * 4), "field 15 has length 8 instead of 16"),
                (complete([0, 1], [0.0] * 2, [0.0] * 3), "field 16 has length 24 instead of 32"),
                (complete([1, 1], [0.0] * 2, [0.0] * 4), "pivot order"),
                (complete([0, 2], [0.0] * 2, [0.0] * 4), "pivot order"),
                (complete([0, 1], [0.0] * 2, [0.0] * 4, tied=2), "tied step 2"),
                (complete([0, 1], [0.0] * 2, [0.0] * 4, phase_two=2), "phase-two step 2"),
                (good[:3] + b"\x08" + good[4:], "refusal 8 without a place"),
                (refused(0), "no record is refused 0"),
                (refused(14), "no record is refused 14"),
                (refused(15), "no record is refused 15"),
                (refused(12, 1), "refusal 12 cannot be at 1, 0"),
                (refused(13), "refusal 13 cannot be at 0, 0"),
                (refused(13, 48), "refusal 13 cannot be at 48, 0"),
                (refused(13, 1, 1), "refusal 13 cannot be at 1, 1"),
                (refused(13, 1, tied=0), "tied step 0"),
                (refused(1, 1), "refusal 1 cannot be at 1, 0"),
                (refused(10, 4), "refusal 10 cannot be at 4, 0"),
                (refused(10, 0, 1), "refusal 10 cannot be at 0, 1"),
                (refused(11, 4), "refusal 11 cannot be at 4, 0"),
                (refused(11, 2, 1), "refusal 11 cannot be at 2, 1"),
                (refused(10, 1, tied=0), "tied step 0"),
                (refused(11, 1, phase_two=1), "phase-two step 1"),
                (refused(3, 1), "refusal 3 cannot be at 1, 0"),
                (refused(6, 0, 1), "cannot be"),
                (refused(7, 48, 0), "cannot be"),
                (refused(8, 2, 0), "cannot be"),
                (refused(8, 2, 2), "cannot be"),
                (refused(9, 49), "cannot be"),
                (refused(8, 0, 1, tied=0), "tied step 0"),
                (field(0x11, b"\x08\0") + refused(8, 0, 1)[4:], "field 11 has length 2 instead of 1")):
            self.assert_mistake(run("show", source=answer), words)


class Faults(Case):
    """show --record"""

    def told(self, answer, matrix):
        return self.shown(answer, "--record", self.file(matrix))

    def assert_fault(self, matrix, number, index, words):
        self.assertEqual(self.told(refused(number, index), matrix), [f"refused: {number}, {words}"])

    def test_every_cut(self):
        for index, start, end in ((0, 0, 4), (1, 4, 8), (2, 8, 19)):
            for length in range(start, end):
                arrived = length - start
                words = f"3 bytes of header were due, {arrived} arrived"
                if arrived >= 3:
                    due = "8 bytes of content were" if index == 2 else "1 byte of content was"
                    words = f"{due} due, {arrived - 3} arrived"
                self.assert_fault(MATRIX_EXAMPLE[:length], 10, index,
                                  f"the transfer was cut in field {index}: {words}")

    def test_every_tag(self):
        for index, start in enumerate((0, 4, 8)):
            due = [{1}, {2}, {3, 4}][index]
            for tag in set(range(256)) - due:
                matrix = MATRIX_EXAMPLE[:start] + bytes([tag]) + MATRIX_EXAMPLE[start + 1:]
                words = ("01", "02", "03 or 04")[index]
                self.assert_fault(matrix, 11, index, f"field {index} has tag {tag:02X}, {words} was due")

    def test_every_cut_and_tag_of_a_numbered_record(self):
        starts = (0, 4, 8, 15, 26)
        for index, (start, end) in enumerate(zip(starts, starts[1:])):
            for length in range(start, end):
                self.assert_starts(NUMBERED_EXAMPLE[:length], 10, index, f"the transfer was cut in field {index}: ")
        for tag in set(range(256)) - {3}:
            matrix = NUMBERED_EXAMPLE[:15] + bytes([tag]) + NUMBERED_EXAMPLE[16:]
            self.assert_fault(matrix, 11, 3, f"field 3 has tag {tag:02X}, 03 was due")
        four = MATRIX_EXAMPLE[:8] + b"\4" + MATRIX_EXAMPLE[9:]
        self.assert_fault(four, 10, 3, "the transfer was cut in field 3: 3 bytes of header were due, 0 arrived")

    def assert_starts(self, matrix, number, index, words):
        line, = self.told(refused(number, index), matrix)
        self.assertTrue(line.startswith(f"refused: {number}, {words}"), line)

    def test_numbers(self):
        size, method, entries = field(1, b"\2"), field(2, b"\1"), field(3, doubles([1, 0, 0, 1]))
        for count in (0, 7, 9, 12):
            matrix = size + method + field(4, bytes(count)) + entries
            self.assert_fault(matrix, 12, 0, f"{count} bytes of contract numbers, 8 were due")
        matrix = size + method + field(4, b"\7\0\0\1" * 2) + entries
        words = "has the contract number 16777223 of row"
        self.assert_fault(matrix, 13, 1, f"row 1 {words} 0")
        with tempfile.NamedTemporaryFile(suffix=".csv") as names:
            names.write(b"corn wheat\n1 0\n0 1")
            names.flush()
            shown = self.shown(refused(13, 1), "--names", names.name, "--record", self.file(matrix))
            self.assertEqual(shown, [f"refused: 13, row wheat {words} corn"])
            self.assertEqual(self.shown(refused(13, 1), "--names", names.name),
                             ["refused: 13, row wheat has the contract number of an earlier row"])
            self.assert_mistake(run("show", "--names", names.name, source=refused(13, 2)),
                                "the answer's place is row 2")
        short = size + method + field(4, b"") + field(3, b"")
        self.assert_fault(short, 4, 0, "0 bytes of entries, 32 were due")

    def test_ties(self):
        tied = complete([0], [0.0], [2.0], tied=0)
        ties = ((NUMBERED_EXAMPLE, "ties were settled by contract number"), (MATRIX_EXAMPLE, POSITION))
        for matrix, words in ties:
            self.assertEqual(self.told(tied, matrix)[1], f"first tied at step 0: {words}")
        for text, words in (("4\nnumbers: 7", ties[0][1]), ("4", POSITION)):
            self.assertEqual(self.shown(tied, "--names", self.file(text))[1], f"first tied at step 0: {words}")
        untied = self.told(complete([0], [0.0], [2.0]), NUMBERED_EXAMPLE)
        self.assertEqual(untied[1], "no pivot search was tied")
        self.assertEqual(self.told(refused(9, 1, tied=0), NUMBERED_EXAMPLE)[1], f"first tied at step 0: {ties[0][1]}")

    def test_order(self):
        size, method, entries = MATRIX_EXAMPLE[:4], MATRIX_EXAMPLE[4:8], MATRIX_EXAMPLE[8:]
        two, none = field(0x01, b"\1\1"), field(0x02, b"")
        for matrix, number, index, words in (
                (b"\7" + size[1:3], 10, 0, "the transfer was cut in field 0: 1 byte of content was due, 0 arrived"),
                (size + entries, 11, 1, "field 1 has tag 03, 02 was due"),
                (method + b"\1", 11, 0, "field 0 has tag 02, 01 was due"),
                (two + method + entries, 1, 0, "field 0 has length 2, 1 was due"),
                (size + none + entries, 1, 0, "field 1 has length 0, 1 was due"),
                (two + none + entries + b"\0", 1, 0, "field 0 has length 2, 1 was due"),
                (two + b"\7" + method[1:] + entries, 11, 1, "field 1 has tag 07, 02 was due"),
                (two + method + entries[:-1], 10, 2,
                 "the transfer was cut in field 2: 8 bytes of content were due, 7 arrived"),
                (MATRIX_EXAMPLE + b"\0", 1, 0, "1 byte after the last field"),
                (MATRIX_EXAMPLE * 2, 1, 0, "19 bytes after the last field"),
                (NUMBERED_EXAMPLE + b"\0", 1, 0, "1 byte after the last field"),
                (two + method + NUMBERED_EXAMPLE[8:], 1, 0, "field 0 has length 2, 1 was due"),
                (size + NUMBERED_EXAMPLE[8:15] + method + entries, 11, 1, "field 1 has tag 04, 02 was due"),
                (MATRIX_EXAMPLE + NUMBERED_EXAMPLE[8:15], 1, 0, "7 bytes after the last field"),
                (b"\0" * 18639, 1, 0, "the record has 18639 bytes, at most 18638 are accepted"),
                (b"\0" * 18638, 11, 0, "field 0 has tag 00, 01 was due")):
            self.assert_fault(matrix, number, index, words)

    def test_other_answers_stay_as_they_are(self):
        two_rows = self.written("1 2\n2 3")
        for answer, matrix in ((ANSWER_EXAMPLE, MATRIX_EXAMPLE), (refused(8, 0, 1), two_rows),
                               (refused(9, 1), MATRIX_EXAMPLE)):
            self.assertEqual(self.told(answer, matrix), self.shown(answer))

    def test_refusals_2_to_4(self):
        for answer, at, byte, words in ((refused(2), 7, 4, "unknown method 4"), (refused(3), 3, 0, "n is 0"),
                                        (refused(4), 3, 2, "8 bytes of entries, 32 were due")):
            matrix = bytearray(MATRIX_EXAMPLE)
            matrix[at] = byte
            self.assertEqual(self.told(answer, bytes(matrix)), [f"refused: {answer[3]}, {words}"])

    def test_records_of_other_answers(self):
        for answer, matrix, words in (
                (refused(11, 1), MATRIX_EXAMPLE, "it isn't refused 11"),
                (refused(1), MATRIX_EXAMPLE, "it isn't refused 1"),
                (refused(2), MATRIX_EXAMPLE, "it isn't refused 2"),
                (refused(12), MATRIX_EXAMPLE, "it isn't refused 12"),
                (refused(13, 1), NUMBERED_EXAMPLE, "it isn't refused 13"),
                (refused(7), NUMBERED_EXAMPLE[:8] + field(4, b"") + NUMBERED_EXAMPLE[15:], "it is refused 12"),
                (refused(10, 1), MATRIX_EXAMPLE[:-1], "it is refused 10, the transfer was cut in field 2: 8 bytes"),
                (refused(11, 2), MATRIX_EXAMPLE[:-1], "it is refused 10"),
                (ANSWER_EXAMPLE, b"", "it is refused 10, the transfer was cut in field 0: 3 bytes of header"),
                (refused(7, 0, 0), MATRIX_EXAMPLE + b"\0", "it is refused 1, 1 byte after the last field"),
                (complete([1, 0], [0.0] * 2, [0.0] * 4), MATRIX_EXAMPLE, "it has 1 rows, the answer 2"),
                (refused(9, 2), MATRIX_EXAMPLE, "it has 1 rows, the answer's step is 2"),
                (refused(8, 0, 1), MATRIX_EXAMPLE, "it has 1 rows, the answer's place is row 0, column 1")):
            self.assert_mistake(run("show", "--record", self.file(matrix), source=answer),
                                f"is not the record that was answered: {words}")

    def test_unreadable(self):
        self.assert_mistake(run("show", "--record", "absent", source=refused(1)), "absent: No such file")


class Program(Case):
    def test_spread(self):
        status, output, told = run("write", "gmw81", SPREAD)
        self.assertEqual((status, told, output[3]), (0, "", 4))
        values = struct.unpack("<16d", output[11:])
        self.assertTrue(all(values[4 * i + j] == values[4 * j + i] for i in range(4) for j in range(4)))
        self.assertLess(values[10] * values[15], values[11] ** 2)  # so it is indefinite
        lines = self.shown(refused(8, 0, 2), "--names", SPREAD)
        self.assertEqual(lines, ["refused: 8, unsymmetric, at row corn Dec, column wheat Dec"])

    def test_as_a_process(self):
        write = [sys.executable, "-B", PROGRAM, "write", "GMW81", self.file("4")]
        show = [sys.executable, "-B", PROGRAM, "show"]
        self.assertEqual(subprocess.run(write, stdout=subprocess.PIPE, check=True).stdout, MATRIX_EXAMPLE)
        shown = subprocess.run(show, input=ANSWER_EXAMPLE, stdout=subprocess.PIPE, check=True).stdout
        self.assertEqual(shown.decode().splitlines(), self.shown(ANSWER_EXAMPLE))
        failed = subprocess.run(show, input=b"", stdout=subprocess.PIPE, stderr=subprocess.PIPE)
        self.assertEqual((failed.returncode, failed.stdout), (2, b""))
        self.assertEqual(failed.stderr.splitlines(), [b"record: not an answer record: the input is empty"])


if __name__ == "__main__":
    unittest.main()
