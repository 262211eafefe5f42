"""Answer records (documents 01, 'Matrix, answer and record', and 02, N5) in words, for tools/record."""
import struct
from typing import List, NamedTuple, Tuple

from matrix_file import LARGEST_N, Mistake
from matrix_record import FIELDS_DUE, tag_words

NO_STEP = 0xFF
COMPLETE_TAGS = [0x11, 0x12, 0x13, 0x18, 0x14, 0x15, 0x16]
REFUSED_TAGS = [0x11, 0x12, 0x13, 0x17]
REFUSALS = {
    1: "the record is too long, or n or method is not one byte long, or bytes follow the last field",
    2: "unknown method",
    3: "n is 0 or above 48",
    4: "the number of entries is not n * n",
    5: "a buffer has a wrong length",
    6: "index not below n",
    7: "not finite",
    8: "unsymmetric",
    12: "the contract numbers are not four bytes for each row",
}
# Of a record.
LAST_REFUSAL = 13


class Answer(NamedTuple):
    """An answer record; inexact is the number of inexact diagonal roots, 0 in a refusal; p, e and L are then empty."""
    refusal: int
    tied: int
    phase_two: int
    inexact: int
    place: Tuple[int, int]
    p: List[int]
    e: List[float]
    L: List[List[float]]


# ---- the fields

def split_fields(record):
    """The tags and the contents."""
    tags, contents = [], []
    while record:
        if len(record) < 3:
            raise Mistake("the last field has no whole tag and length")
        tag, length = struct.unpack_from("<BH", record)
        content, record = record[3:3 + length], record[3 + length:]
        if len(content) != length:
            raise Mistake(f"field {tag:02X} has {len(content)} bytes instead of {length}")
        tags.append(tag)
        contents.append(content)
    return tags, contents


def check_lengths(tags, contents, lengths):
    for tag, content, length in zip(tags, contents, lengths):
        if len(content) != length:
            raise Mistake(f"field {tag:02X} has length {len(content)} instead of {length}")


def check_steps(tied, phase_two, n):
    for name, step in (("tied", tied), ("phase-two", phase_two)):
        if step != NO_STEP and step >= n:
            raise Mistake(f"{name} step {step}, but there are {n} steps")


def to_values(content):
    return [value for value, in struct.iter_unpack("<d", content)]


def complete_answer(contents):
    order, amounts, factor = contents[4:]
    n = len(order)
    if not 1 <= n <= LARGEST_N:
        raise Mistake(f"field 14 has length {n}")
    check_lengths(COMPLETE_TAGS, contents, [1, 1, 1, 1, n, 8 * n, 8 * n * n])
    refusal, tied, phase_two, inexact = (content[0] for content in contents[:4])
    p, entries = list(order), to_values(factor)
    if refusal != 0:
        raise Mistake(f"refusal {refusal} without a place")
    check_steps(tied, phase_two, n)
    if inexact > n:
        raise Mistake(f"{inexact} inexact diagonal roots, but there are {n} diagonal roots")
    if sorted(p) != list(range(n)):
        raise Mistake("the pivot order has not each row once")
    rows = [entries[k:k + n] for k in range(0, n * n, n)]
    return Answer(0, tied, phase_two, inexact, (0, 0), p, to_values(amounts), rows)


def is_place(refusal, row, column):
    """Whether a refusal with this number can be at this place."""
    if refusal <= 5 or refusal == 12:
        return row == column == 0
    if refusal == 6:
        return column == 0
    if refusal == 7:
        return row < LARGEST_N and column < LARGEST_N
    if refusal == 8:
        return row < column < LARGEST_N
    if refusal == 9:
        return row <= LARGEST_N and column == 0
    if refusal == 13:
        return 1 <= row < LARGEST_N and column == 0
    return row < len(FIELDS_DUE) and column == 0


def refused_answer(contents):
    check_lengths(REFUSED_TAGS, contents, [1, 1, 1, 2])
    refusal, tied, phase_two = (content[0] for content in contents[:3])
    row, column = contents[3]
    if not 1 <= refusal <= LAST_REFUSAL:
        raise Mistake(f"no record is refused {refusal}")
    if not is_place(refusal, row, column):
        raise Mistake(f"refusal {refusal} cannot be at {row}, {column}")
    check_steps(tied, phase_two, LARGEST_N if refusal == 9 else 0)
    return Answer(refusal, tied, phase_two, 0, (row, column), [], [], [])


def parse_answer(record):
    if not record:
        raise Mistake("the input is empty")
    tags, contents = split_fields(record)
    if tags == COMPLETE_TAGS:
        return complete_answer(contents)
    if tags == REFUSED_TAGS:
        return refused_answer(contents)
    if tags == [tag for tag in COMPLETE_TAGS if tag != 0x18]:
        raise Mistake("field 18, the number of inexact diagonal roots, is missing after field 13")
    found = " ".join(f"{tag:02X}" for tag in tags)
    raise Mistake(f"fields {found} instead of 11 12 13 18 14 15 16 or 11 12 13 17")


def read_answer(record):
    try:
        return parse_answer(record)
    except Mistake as mistake:
        raise Mistake(f"not an answer record: {mistake}") from None


# ---- in words

def refusal_words(answer, labels):
    number, (row, column) = answer.refusal, answer.place
    if number == 9:
        return f"step {row} stored a value that is not finite"
    if number == 10:
        return f"the transfer was cut in field {row}"
    if number == 11:
        return f"field {row} has a wrong tag, {tag_words(row)}"
    if number == 13:
        return f"row {labels[row]} has the contract number of an earlier row"
    words = REFUSALS[number]
    if number == 6:
        return f"{words}, at position {row}"
    if number in (7, 8):
        return f"{words}, at row {labels[row]}, column {labels[column]}"
    return words


def tied_words(step, numbered):
    """numbered: whether the record has contract numbers, None if that isn't known."""
    if step == NO_STEP:
        return "no pivot search was tied"
    words = {True: "ties were settled by contract number",
             False: "the order of rows may have picked the pivot",
             None: "unless the record has contract numbers, the order of rows may have picked the pivot"}
    return f"first tied at step {step}: {words[numbered]}"


def phase_two_words(step):
    return "no phase two" if step == NO_STEP else f"phase two from step {step}"


def roots_words(answer):
    return f"inexact (rounded) diagonal roots: {answer.inexact} of {len(answer.p)}"


def table(rows):
    """Lines with the first cell of each row to the left and the others to the right."""
    first, *others = [max(map(len, column)) for column in zip(*rows)]
    lines = []
    for row in rows:
        right = [cell.rjust(width) for cell, width in zip(row[1:], others)]
        lines.append("  ".join(["", row[0].ljust(first)] + right))
    return lines


def answer_lines(answer, labels, number_words, fault=None, numbered=None):
    """The answer as lines; labels are what to call each row, number_words how to write a number, fault what is known
    to be wrong in the record, numbered whether it is known to have contract numbers."""
    steps = [tied_words(answer.tied, numbered), phase_two_words(answer.phase_two)]
    if answer.refusal != 0:
        words = f"refused: {answer.refusal}, {fault or refusal_words(answer, labels)}"
        return [words] + (steps if answer.refusal == 9 else [])
    pivots = [labels[row] for row in answer.p]
    amounts = [[labels[row], number_words(amount)] for row, amount in enumerate(answer.e)]
    factor = [[pivot] + [number_words(entry) for entry in row] for pivot, row in zip(pivots, answer.L)]
    return (["complete"] + steps + [roots_words(answer), "pivot order: " + ", ".join(pivots)]
            + ["amount added for each row:"] + table(amounts)
            + ["L, its rows in pivot order:"] + table(factor))
