"""Groups of centred lattices in further axes, as Hall symbols: the rows of `further_axes.table`.

`identify` tries maps whose entries are -1, 0 and 1 between the triangular basis of a symbol's translations and the
Niggli-reduced basis of the crystal. The triangular basis of C has a, (a + b)/2 and c. Where a is longer than √3 b, the
reduced basis has b and v = (a + b)/2, and a = 2v - b, so there is no such map; in axes with a and b exchanged there is.
Likewise for the other letters:

    ba-c  a' = b, b' = a, c' = -c                  C
    a-cb  a' = a, b' = -c, c' = b                  A
    cab   a' = c, b' = a, c' = b                   I, F
    bca   a' = b, b' = c, c' = a                   I, F
    r     the rhombohedral axes of the hexagonal cell  R
    s     a' = b, b' = -a, c' = c - a              C, monoclinic, with a translation by half of c that reverses time

The first four are named as in International Tables for Crystallography, volume A. Groups of tetragonal and cubic lattices
need no further axes. That these are enough is found by trial, not proved.
"""
import itertools
from functools import lru_cache

import equivalence
import hall

# By name the matrix that takes coordinates to those in such axes.
TURNS = {
    "ba-c": (0, 1, 0, 1, 0, 0, 0, 0, -1),
    "a-cb": (1, 0, 0, 0, 0, -1, 0, 1, 0),
    "cab": (0, 0, 1, 1, 0, 0, 0, 1, 0),
    "bca": (0, 1, 0, 0, 0, 1, 1, 0, 0),
    "r": (1, 0, 1, -1, 1, 1, 0, -1, 1),
    "s": (0, 1, 0, -1, 0, -1, 0, 0, 1),
}
FURTHER = {"P": [], "A": ["a-cb"], "C": ["ba-c"], "I": ["cab", "bca"], "F": ["cab", "bca"], "R": ["r"]}

# Rotations of which some generate the matrices of a group, with the inversion where it is there.
ROTATIONS = {"ba-c": "2z 2x 2y", "a-cb": "2z 2x 2y", "cab": "2z 2x 2y", "bca": "2z 2x 2y", "r": "3* 2'", "s": "2x"}


def turned(group, turn):
    """The operations in other axes, whose whole translations are translations of the group."""
    size, back = equivalence.determinant(turn), equivalence.adjugate(turn)
    found = set()
    for matrix, translation, sign in group:
        carried = tuple(entry // size for entry in hall.product(hall.product(turn, matrix), back))
        found.add((carried, tuple(part % 12 for part in hall.image(turn, translation)), sign))
    return frozenset(found)


def has_diagonal_matrices(group):
    return not any(matrix[i] for matrix, _, _ in group for i in (1, 2, 3, 5, 6, 7))


def is_reversed_along_c(group):
    """Whether it is monoclinic, about b, and has a translation by half of c that reverses time, up to the others."""
    matrices = {matrix for matrix, _, _ in group}
    is_monoclinic = matrices <= {(x, 0, 0, 0, y, 0, 0, 0, x) for x in (1, -1) for y in (1, -1)}
    return is_monoclinic and any((matrix, sign, shift[2]) == (hall.ONE, -1, 6) for matrix, shift, sign in group)


def further_axes(group):
    """The names of the further axes of a group."""
    letter = lattice_of(group)
    if letter != "R" and not has_diagonal_matrices(group):
        return []
    return FURTHER[letter] + (["s"] if letter == "C" and is_reversed_along_c(group) else [])


# Symbols


@lru_cache(maxsize=None)
def words():
    """The shortest word of letters for each translation that is spelled by up to four, in the order of the letters."""
    found = {}
    for length in range(5):
        for letters in itertools.product(hall.LETTERS, repeat=length):
            found.setdefault(hall.translation_of(1, 0, "", letters), "".join(letters))
    return found


def token(group, start, matrix):
    """The token of an operation of this matrix, with the shortest word and without time reversal where there is one."""
    found = []
    for other, translation, sign in group:
        if other == matrix and translation in words():
            word = words()[translation]
            found.append((sign == -1, len(word), word))
    is_reversed, _, word = min(found)
    return f"{start}{word}{'!' if is_reversed else ''}"


def rotation_tokens(group, rotations):
    """Tokens that generate the matrices of a group, together with the inversion where it is there."""
    matrices = {matrix for matrix, _, _ in group}
    reached, tokens = {hall.ONE}, []
    for text in rotations:
        matrix = hall.rotation_of(int(text[0]), text[1], [])
        for start, one in ((text, matrix), ("-" + text, hall.negated(matrix))):
            if one in matrices and not {one, hall.negated(one)} & reached:
                tokens.append(token(group, start, one))
                reached = hall.closed(hall.ONE, [*reached, one], hall.product)
    return tokens


def lattice_of(group):
    """The letter of the lattice of the operations that do not reverse time."""
    pure = {translation for matrix, translation, sign in group if matrix == hall.ONE and sign == 1}
    return next(letter for letter, centrings in hall.CENTRINGS.items() if pure == {(0, 0, 0), *centrings})


def symbol_of(group, rotations):
    """A Hall symbol of a group whose matrices such tokens generate, with the inversion."""
    inversion = hall.negated(hall.ONE)
    first, tokens = lattice_of(group), rotation_tokens(group, rotations)
    if (inversion, (0, 0, 0), 1) in group:
        first = "-" + first
    elif any(matrix == inversion for matrix, _, _ in group):
        tokens.append(token(group, "-1", inversion))
    if any((matrix, sign) == (hall.ONE, -1) for matrix, _, sign in group):
        tokens.append(token({operation for operation in group if operation[2] == -1}, "1", hall.ONE))
    symbol = " ".join([first, *tokens])
    if hall.expand(hall.read_symbol(symbol)) != group:
        raise ValueError(f"no symbol in other axes: {symbol}")
    return symbol


def in_further_axes(name, group):
    """The rows of a group in further axes: its name with that of the axes behind `:`, and a symbol."""
    for axes in further_axes(group):
        yield f"{name}:{axes}", symbol_of(turned(group, TURNS[axes]), ROTATIONS[axes].split(" "))
