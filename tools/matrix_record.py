"""Matrix records (documents 01, 'Matrix, answer and record', and 02, N2), written and judged, for tools/record."""
import struct
from typing import NamedTuple, Optional

from matrix_file import LARGEST_N, Mistake

SIZE, METHOD, ENTRIES, NUMBERS = 0x01, 0x02, 0x03, 0x04
FIELDS_DUE = [[SIZE], [METHOD], [ENTRIES, NUMBERS], [ENTRIES]]
HEADER = 3
LONGEST = 18638
METHODS = {"gmw81": 1, "se90": 2, "se99": 3}


class Refused(Exception):
    """A refusal from 1 to 4 or 10 to 13 of a record; its text says what is wrong."""

    def __init__(self, number, words, row=0):
        super().__init__(words)
        self.number = number
        self.place = (row, 0)


class Judged(NamedTuple):
    """What is known of a record: what is wrong in it (None if it passes the checks before 5), and whether it has
    contract numbers (None if its fields don't stand)."""
    fault: Optional[str]
    numbered: Optional[bool]


def field(tag, content):
    return struct.pack("<BH", tag, len(content)) + content


def matrix_record(method, rows, numbers=None):
    size, method = field(SIZE, bytes([len(rows)])), field(METHOD, bytes([method]))
    entries = field(ENTRIES, b"".join(struct.pack("<d", entry) for row in rows for entry in row))
    if numbers is None:
        return size + method + entries
    return size + method + field(NUMBERS, struct.pack(f"<{len(numbers)}I", *numbers)) + entries


# ---- the checks, in their order

def tag_words(index):
    return " or ".join(f"{tag:02X}" for tag in FIELDS_DUE[index]) + " was due"


def bytes_words(count):
    return "1 byte" if count == 1 else f"{count} bytes"


def check_arrived(index, part, due, arrived):
    if arrived < due:
        were = "was" if due == 1 else "were"
        raise Refused(10, f"the transfer was cut in field {index}: "
                          f"{bytes_words(due)} of {part} {were} due, {arrived} arrived", index)


def take_field(index, record):
    """The tag and content of the record's first field, which has this index, and what follows it."""
    check_arrived(index, "header", HEADER, len(record))
    tag, length = struct.unpack_from("<BH", record)
    end = HEADER + length
    check_arrived(index, "content", length, len(record) - HEADER)
    if tag not in FIELDS_DUE[index]:
        raise Refused(11, f"field {index} has tag {tag:02X}, {tag_words(index)}", index)
    return tag, record[HEADER:end], record[end:]


def take_fields(record):
    """The contents of n, method, numbers (None without) and entries."""
    if len(record) > LONGEST:
        raise Refused(1, f"the record has {len(record)} bytes, at most {LONGEST} are accepted")
    contents, rest = {NUMBERS: None}, record
    for index in range(len(FIELDS_DUE)):
        tag, contents[tag], rest = take_field(index, rest)
        if tag == ENTRIES:
            break
    for index, tag in enumerate((SIZE, METHOD)):
        if len(contents[tag]) != 1:
            raise Refused(1, f"field {index} has length {len(contents[tag])}, 1 was due")
    if rest:
        raise Refused(1, f"{bytes_words(len(rest))} after the last field")
    return contents[SIZE], contents[METHOD], contents[NUMBERS], contents[ENTRIES]


def label(labels, row):
    return labels[row] if row < len(labels) else str(row)


def check_numbers(content, n, labels):
    if len(content) != 4 * n:
        raise Refused(12, f"{bytes_words(len(content))} of contract numbers, {4 * n} were due")
    numbers = [number for number, in struct.iter_unpack("<I", content)]
    for later, number in enumerate(numbers):
        earlier = numbers.index(number)
        if earlier < later:
            words = f"row {label(labels, later)} has the contract number {number} of row {label(labels, earlier)}"
            raise Refused(13, words, later)


def check_sizes(fields, labels):
    """The checks 2, 3, 4, 12 and 13."""
    (n,), (method,), numbers, entries = fields
    if method not in METHODS.values():
        raise Refused(2, f"unknown method {method}")
    if not 1 <= n <= LARGEST_N:
        raise Refused(3, f"n is {n}")
    if len(entries) != 8 * n * n:
        raise Refused(4, f"{bytes_words(len(entries))} of entries, {8 * n * n} were due")
    if numbers is not None:
        check_numbers(numbers, n, labels)


# ---- beside an answer

def check_refusal(answer, refused):
    if (answer.refusal, answer.place) != (refused.number, refused.place):
        raise Mistake(f"it is refused {refused.number}, {refused}")


def check_accepted(answer, n):
    if answer.refusal in (1, 2, 3, 4, 10, 11, 12, 13):
        raise Mistake(f"it isn't refused {answer.refusal}")
    if answer.p and len(answer.p) != n:
        raise Mistake(f"it has {n} rows, the answer {len(answer.p)}")
    if answer.refusal in (7, 8) and max(answer.place) >= n:
        raise Mistake(f"it has {n} rows, the answer's place is row {answer.place[0]}, column {answer.place[1]}")
    if answer.refusal == 9 and answer.place[0] > n:
        raise Mistake(f"it has {n} rows, the answer's step is {answer.place[0]}")


def judged(record, answer, labels):
    numbered = None
    try:
        fields = take_fields(record)
        numbered = fields[2] is not None
        check_sizes(fields, labels)
    except Refused as refused:
        check_refusal(answer, refused)
        return Judged(str(refused), numbered)
    check_accepted(answer, fields[0][0])
    return Judged(None, numbered)


def read_judged(path, answer, labels):
    try:
        with open(path, "rb") as file:
            record = file.read()
    except OSError as error:
        raise Mistake(f"{path}: {error.strerror}") from None
    try:
        return judged(record, answer, labels)
    except Mistake as mistake:
        raise Mistake(f"{path} is not the record that was answered: {mistake}") from None
