#!/usr/bin/python3
"""A reference reader of Hall symbols with time reversal, of the groups that they generate, and of tables of them.

hall.py SYMBOL prints the operations of a symbol. Written from the rules below alone, for comparing other programs with.

Positions are columns of coordinates along a, b and c. An operation (W, w, sign) takes x to Wx + w: W is nine integers
row by row, w three numbers from 0 to 11 in twelfths, and sign -1 reverses time.

A symbol has words between spaces. The first is an optional `-`, which stands for the inversion, and a lattice letter of
CENTRINGS. One to five tokens follow, and possibly an origin shift `(i j k)`: three numbers in twelfths of one or two
digits, each with an optional `-`; spaces stand between them and may stand beside them. A token ends before a space or
`(`, and has in this order:

    -          the matrix is negated, the translation part stays; optional
    1 2 3 4 6  the order of the rotation
    1 to 5     a screw digit, below the order: digit/order along the axis, which is x, y or z; optional
    x y z      the axis, or
    '          for order 2 the axis a-b, behind an axis x b-c, behind y a-c, or
    " or =     for order 2 the axis a+b, behind an axis x b+c, behind y a+c, or
    *          for order 3 the axis a+b+c
    letters    translation parts, which add: a, b, c, n are 1/2 along a, b, c and all three; u, v, w, d are 1/4
    !          the operation reverses time; optional

`'` and `"` are behind the nearest earlier axis, written or not, that is x, y or z, or behind z where there is none.
Without a written axis it is z for the first token; for a second token of order 2 it is x where the first has order 2 or
4, and ' where that has order 3 or 6; for a third token of order 3 it is *. No other token of order 2 or more may lack
its axis, and order 1 has none. The shift t takes each generator (W, w), the inversion and the centrings included, to
(W, w + t - Wt).

A symbol is judged from the left, and its first fault is told; of two at one place, that which is first in FAULTS.
"""
import re
import sys
from functools import lru_cache
from typing import NamedTuple

ONE = (1, 0, 0, 0, 1, 0, 0, 0, 1)
IDENTITY = (ONE, (0, 0, 0), 1)

CENTRINGS = {
    "P": [],
    "A": [(0, 6, 6)],
    "B": [(6, 0, 6)],
    "C": [(6, 6, 0)],
    "I": [(6, 6, 6)],
    "R": [(8, 4, 4), (4, 8, 8)],
    "F": [(0, 6, 6), (6, 0, 6), (6, 6, 0)],
}

# The images of x, y, z under each rotation: by order and axis, and for ' and " by the axis that they come after.
IMAGES = {
    "2z": "-x,-y,z", "2x": "x,-y,-z", "2y": "-x,y,-z",
    "3z": "-y,x-y,z", "3x": "x,-z,y-z", "3y": "z-x,y,-x",
    "4z": "-y,x,z", "4x": "x,-z,y", "4y": "z,y,-x",
    "6z": "x-y,x,z", "6x": "x,y-z,y", "6y": "z,y,z-x",
    "2'z": "-y,-x,-z", "2'x": "-x,-z,-y", "2'y": "-z,-y,-x",
    '2"z': "y,x,-z", '2"x': "-x,z,y", '2"y': "z,-y,x",
    "3*": "z,x,y",
}

LETTERS = {
    "a": (6, 0, 0), "b": (0, 6, 0), "c": (0, 0, 6), "n": (6, 6, 6),
    "u": (3, 0, 0), "v": (0, 3, 0), "w": (0, 0, 3), "d": (3, 3, 3),
}

TOKEN = re.compile(r"(-?)([12346])([1-5]?)([xyz'\"=*]?)([abcnuvwd]*)(!?)")
SHIFT = re.compile(r"\( *(-?[0-9]{1,2}) +(-?[0-9]{1,2}) +(-?[0-9]{1,2}) *\) *")

FAULTS = {
    "Empty": "symbol is empty",
    "BadLattice": "unknown lattice",
    "TooManyTokens": "more than five tokens",
    "BadToken": "token {} has no known form",
    "NoAxis": "token {} needs an axis",
    "BadScrew": "token {} has a wrong screw digit",
    "BadShift": "shift has no known form",
    "TooManyMatrices": "more than 48 matrices",
    "TooManyRows": "more than 4000 rows",
    "BadRow": "row has no known form",
}


class Fault(Exception):
    """The first rule that a symbol breaks: its name, and the number of the token that breaks it, from 1."""

    def __init__(self, name, token=None):
        super().__init__(FAULTS[name].format(token))
        self.name, self.token = name, token


class RowFault(Exception):
    """The first row of a table that breaks a rule, from 1, and the fault."""

    def __init__(self, row, fault):
        super().__init__(f"row {row}: {fault}")
        self.row, self.fault = row, fault


class Token(NamedTuple):
    order: int
    axis: str
    operation: tuple


class Symbol(NamedTuple):
    is_inverted: bool
    lattice: str
    tokens: list
    shift: tuple


class Row(NamedTuple):
    name: str
    symbol: str


# Operations


def added(a, b):
    return tuple((x + y) % 12 for x, y in zip(a, b))


def negated(matrix):
    return tuple(-entry for entry in matrix)


def rows_of(matrix):
    return matrix[0:3], matrix[3:6], matrix[6:9]


@lru_cache(maxsize=None)
def product(first, second):
    columns = [second[i::3] for i in range(3)]
    return tuple(sum(x * y for x, y in zip(row, column)) for row in rows_of(first) for column in columns)


@lru_cache(maxsize=None)
def image(matrix, position):
    return tuple(sum(x * y for x, y in zip(row, position)) for row in rows_of(matrix))


def then(first, second):
    """The operation that does the first and after it the second."""
    return (product(second[0], first[0]), added(image(second[0], first[1]), second[1]), first[2] * second[2])


def in_order(operations):
    """Increasing: by the entries of W row by row, then w, then +1 before -1."""
    return sorted(operations, key=lambda operation: (operation[0], operation[1], -operation[2]))


def spelled(operation):
    """An operation as `x+1/2,-y,z,-1`."""
    matrix, translation, sign = operation
    parts = []
    for row, twelfths in zip(rows_of(matrix), translation):
        terms = ""
        for factor, letter in zip(row, "xyz"):
            if factor:
                terms += ("+" if factor > 0 and terms else "") + {1: "", -1: "-"}.get(factor, str(factor)) + letter
        if twelfths:
            divisor = next(d for d in (6, 4, 3, 2, 1) if twelfths % d == 0)
            terms += f"+{twelfths // divisor}/{12 // divisor}"
        parts.append(terms)
    return ",".join(parts) + f",{sign:+d}"


PART = re.compile(r"((?:[+-]?[0-9]*[xyz])*)(?:\+([0-9]+)/([0-9]+))?")
TERM = re.compile(r"([+-]?)([0-9]*)([xyz])")


@lru_cache(maxsize=None)
def part_of(text):
    """A row of the matrix and a translation in twelfths, from a part as `x-y+1/2`."""
    form = PART.fullmatch(text)
    if form is None or form[3] is not None and (int(form[3]) == 0 or 12 * int(form[2]) % int(form[3])):
        raise ValueError(f"no part of an operation: {text}")
    row = [0, 0, 0]
    for sign, size, letter in TERM.findall(form[1]):
        row["xyz".index(letter)] += int(size or 1) * (-1 if sign == "-" else 1)
    return tuple(row), (12 * int(form[2]) // int(form[3])) % 12 if form[3] else 0


def operation_of(line):
    """The operation that a line as `x+1/2,-y,z,-1` spells."""
    *parts, sign = line.split(",")
    if len(parts) != 3 or sign not in ("+1", "-1"):
        raise ValueError(f"no operation: {line}")
    (x, a), (y, b), (z, c) = (part_of(part) for part in parts)
    return x + y + z, (a, b, c), int(sign)


def matrix_of(images):
    """The matrix that takes x, y, z to these images."""
    terms = [re.findall(r"([+-]?)([xyz])", part) for part in images.split(",")]
    signs = [{letter: -1 if sign == "-" else 1 for sign, letter in part} for part in terms]
    return tuple(part.get(letter, 0) for part in signs for letter in "xyz")


# Symbols


def words_of(text):
    return [word for word in text.split(" ") if word]


def cut(text):
    """The first word, the words of the tokens, and what begins with the first bracket behind the first word or None."""
    text = text.lstrip(" ")
    first, _, rest = text.partition(" ")
    tokens, bracket, shift = rest.partition("(")
    return first, words_of(tokens), bracket + shift if bracket else None


def default_axis(number, order, before):
    """The axis of a token without a written one, or None."""
    if order == 1:
        return ""
    if number == 1:
        return "z"
    if number == 2 and order == 2:
        return {2: "x", 4: "x", 3: "'", 6: "'"}.get(before[0].order)
    if number == 3 and order == 3:
        return "*"
    return None


def rotation_of(order, axis, before):
    """The matrix of a rotation, without a `-` in front of it."""
    if order == 1:
        return ONE
    if axis in ("'", '"'):
        axis += next((token.axis for token in reversed(before) if token.axis in ("x", "y", "z")), "z")
    return matrix_of(IMAGES[f"{order}{axis}"])


def translation_of(order, screw, axis, letters):
    translation = (0, 0, 0)
    if screw:
        translation = tuple(12 * screw // order if axis == along else 0 for along in "xyz")
    for letter in letters:
        translation = added(translation, LETTERS[letter])
    return translation


def token_of(word, before):
    """A token, judged with the tokens before it."""
    number = len(before) + 1
    if number == 6:
        raise Fault("TooManyTokens")
    form = TOKEN.fullmatch(word)
    if form is None:
        raise Fault("BadToken", number)
    minus, order, screw, axis, letters, mark = form.groups()
    order, screw, axis = int(order), int(screw or 0), axis.replace("=", '"')
    if axis and (order == 1 or axis in ("'", '"') and order != 2 or axis == "*" and order != 3):
        raise Fault("BadToken", number)
    axis = axis or default_axis(number, order, before)
    if axis is None:
        raise Fault("NoAxis", number)
    if screw and (screw >= order or axis not in ("x", "y", "z")):
        raise Fault("BadScrew", number)
    matrix = rotation_of(order, axis, before)
    translation = translation_of(order, screw, axis, letters)
    return Token(order, axis, (negated(matrix) if minus else matrix, translation, -1 if mark else 1))


def tokens_of(words):
    tokens = []
    for word in words:
        tokens.append(token_of(word, tokens))
    if not tokens:
        raise Fault("BadToken", 1)
    return tokens


def shift_of(text):
    if text is None:
        return (0, 0, 0)
    form = SHIFT.fullmatch(text)
    if form is None:
        raise Fault("BadShift")
    return tuple(int(number) for number in form.groups())


@lru_cache(maxsize=None)
def read_symbol(text):
    """The symbol of a text, or its first fault from the left."""
    first, tokens, shift = cut(text)
    if not first:
        raise Fault("Empty")
    if not re.fullmatch("-?[PABCIRF]", first):
        raise Fault("BadLattice")
    return Symbol(first[0] == "-", first[-1], tokens_of(tokens), shift_of(shift))


def shifted(operation, shift):
    """(W, w + t - Wt) of (W, w)."""
    matrix, translation, sign = operation
    carried = image(matrix, shift)
    return matrix, tuple((w + t - c) % 12 for w, t, c in zip(translation, shift, carried)), sign


def generators_of(symbol):
    found = [(negated(ONE), (0, 0, 0), 1)] if symbol.is_inverted else []
    found += [(ONE, centring, 1) for centring in CENTRINGS[symbol.lattice]]
    found += [token.operation for token in symbol.tokens]
    return [shifted(operation, symbol.shift) for operation in found]


def closed(start, generators, product_of, most=None):
    """All products of the generators, none at all included; None where there are more than `most`."""
    found, new = {start}, [start]
    while new:
        made = {product_of(one, generator) for one in new for generator in generators} - found
        found |= made
        new = list(made)
        if most is not None and len(found) > most:
            return None
    return found


def expand(symbol):
    """The group of a symbol modulo whole translations: all products of its generators."""
    generators = generators_of(symbol)
    if closed(ONE, [matrix for matrix, _, _ in generators], product, 48) is None:
        raise Fault("TooManyMatrices")
    return closed(IDENTITY, generators, then)


# Tables


def lines_of(data):
    """The lines of a file: pieces between line feeds, the last unless empty, without one carriage return at the end."""
    pieces = data.split(b"\n")
    if not pieces[-1]:
        pieces.pop()
    return [piece[:-1] if piece.endswith(b"\r") else piece for piece in pieces]


def row_of(line, before):
    """A row behind so many: a name of 1 to 32 bytes, a symbol to the end of the line; a tab counts as a space."""
    if before == 4000:
        raise Fault("TooManyRows")
    if any(byte != 9 and not 32 <= byte <= 126 for byte in line):
        raise Fault("BadRow")
    name, _, symbol = line.decode("ascii").replace("\t", " ").strip(" ").partition(" ")
    if not symbol or len(name) > 32:
        raise Fault("BadRow")
    expand(read_symbol(symbol))
    return Row(name, symbol.strip(" "))


def read_table(data):
    """The rows of a table, at most 4,000. Lines without words, and lines that begin with `#`, are skipped."""
    rows = []
    for line in lines_of(data):
        words = line.replace(b"\t", b" ").strip(b" ")
        if not words or words.startswith(b"#"):
            continue
        try:
            rows.append(row_of(line, len(rows)))
        except Fault as fault:
            raise RowFault(len(rows) + 1, fault) from None
    return rows


def main():
    if len(sys.argv) != 2:
        sys.exit("hall.py: one symbol, as one word")
    try:
        operations = expand(read_symbol(sys.argv[1]))
    except Fault as fault:
        sys.exit(f"symbol: {fault}")
    for operation in in_order(operations):
        print(spelled(operation))


if __name__ == "__main__":
    main()
