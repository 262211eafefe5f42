"""Matrices from CSV and text files, for tools/record."""
import csv
import re
from typing import List, NamedTuple, Optional

LARGEST_N = 48
LARGEST_CONTRACT_NUMBER = 2 ** 32 - 1
CONTRACT_NUMBERS = re.compile(r'\s*"?numbers:"?', re.IGNORECASE)
NUMBER = re.compile(r"[+-]?((\d+(\.\d*)?|\.\d+)(e[+-]?\d+)?|inf(inity)?|nan)", re.IGNORECASE | re.ASCII)


class Mistake(Exception):
    """What to tell on standard error."""


class Line(NamedTuple):
    """A line of a matrix file; its number counts from 1."""
    number: int
    cells: List[str]


class Matrix(NamedTuple):
    """The entries, and the contracts' names and numbers where the file has them."""
    rows: List[List[float]]
    names: Optional[List[str]]
    numbers: Optional[List[int]]


# ---- contract numbers

def to_contract_number(word):
    if re.fullmatch("[0-9]+", word) is None or int(word) > LARGEST_CONTRACT_NUMBER:
        raise Mistake(f"contract number {word!r} is not a whole number from 0 to {LARGEST_CONTRACT_NUMBER}")
    return int(word)


def split_contract_numbers(numbered):
    """The contract numbers (None without), and the other lines."""
    own = [(k, line) for k, line in numbered if CONTRACT_NUMBERS.match(line)]
    if not own:
        return None, numbered
    if len(own) > 1:
        raise Mistake(f"line {own[1][0]}: a second line of contract numbers")
    k, line = own[0]
    words = re.split(r'[\s,;"]+', line[CONTRACT_NUMBERS.match(line).end():])
    try:
        numbers = [to_contract_number(word) for word in words if word]
    except Mistake as mistake:
        raise Mistake(f"line {k}: {mistake}") from None
    return numbers, [other for other in numbered if other != own[0]]


# ---- lines and cells

def separator(lines):
    """The first of ; , and tab that the lines have outside quotes; None for spaces."""
    unquoted = "".join(re.sub('"[^"]*"', "", line) for line in lines)
    return next((mark for mark in ";,\t" if mark in unquoted), None)


def split_cells(line, mark):
    if mark is None:
        return line.split()
    reader = csv.reader([line], delimiter=mark, skipinitialspace=True, strict=True)
    return [cell.strip() for cell in next(reader)]


def is_skipped(line):
    return not line.strip() or line.lstrip().startswith("#")


def split_lines(numbered):
    """The lines that have cells, from pairs of a line's number and its text."""
    mark = separator([line for _, line in numbered])
    lines = []
    for number, line in numbered:
        try:
            lines.append(Line(number, split_cells(line, mark)))
        except csv.Error as error:
            raise Mistake(f"line {number}: {error}") from None
    return [line for line in lines if any(line.cells)]


def is_number(cell):
    return NUMBER.fullmatch(cell) is not None


def to_double(cell):
    """The double nearest to the number written; infinities only where they are spelled."""
    if not is_number(cell):
        raise Mistake(f"{cell!r} is not a number")
    value = float(cell)
    if abs(value) == float("inf") and "inf" not in cell.lower():
        raise Mistake(f"{cell} is beyond the largest double")
    return value


def split_names(lines):
    """The names in the first line, those in the first column (None without), and the lines of numbers."""
    header = labels = None
    if lines and not any(map(is_number, lines[0].cells)):
        header, lines = lines[0].cells, lines[1:]
    if lines and not any(is_number(line.cells[0]) for line in lines):
        labels = [line.cells[0] for line in lines]
        lines = [Line(line.number, line.cells[1:]) for line in lines]
    return header, labels, lines


def check_square(lines):
    if not lines:
        raise Mistake("no row of numbers (a first line without any number is read as names)")
    width = len(lines[0].cells)
    for row, line in enumerate(lines):
        if len(line.cells) != width:
            raise Mistake(f"line {line.number}: row {row} has length {len(line.cells)}, row 0 has length {width}")
    if width != len(lines):
        raise Mistake(f"not square: {len(lines)} by {width}")
    if width > LARGEST_N:
        raise Mistake(f"{width} rows and columns, at most {LARGEST_N} are accepted")


def to_doubles(lines):
    rows = [[] for _ in lines]
    for row, line in enumerate(lines):
        for column, cell in enumerate(line.cells):
            try:
                rows[row].append(to_double(cell))
            except Mistake as mistake:
                raise Mistake(f"line {line.number}: row {row}, column {column}: {mistake}") from None
    return rows


def contract_names(header, labels, n):
    """The names of the rows, which are those of the columns too."""
    if header is not None and labels is not None and len(header) == n + 1:
        header = header[1:]
    if header is not None and len(header) != n:
        raise Mistake(f"the first line has {len(header)} names for {n} columns")
    names = header if labels is None else labels
    for k, name in enumerate(names or []):
        if not name:
            raise Mistake(f"row {k} has an empty name")
        if header is not None and header[k] != name:
            raise Mistake(f"row {k} is named {name!r}, but column {k} {header[k]!r}")
    return names


def check_count(numbers, n):
    if numbers is not None and len(numbers) != n:
        raise Mistake(f"{len(numbers)} contract numbers for {n} rows")


def parse_matrix(text):
    numbered = [(k, line) for k, line in enumerate(text.split("\n"), 1) if not is_skipped(line)]
    numbers, numbered = split_contract_numbers(numbered)
    header, labels, lines = split_names(split_lines(numbered))
    check_square(lines)
    check_count(numbers, len(lines))
    return Matrix(to_doubles(lines), contract_names(header, labels, len(lines)), numbers)


def read_matrix(path):
    try:
        with open(path, encoding="utf-8-sig") as file:
            return parse_matrix(file.read())
    except OSError as error:
        raise Mistake(f"{path}: {error.strerror}") from None
    except UnicodeDecodeError:
        raise Mistake(f"{path}: not a text file in UTF-8") from None
    except Mistake as mistake:
        raise Mistake(f"{path}: {mistake}") from None
