"""The tags and the numbers of an mcif file, read by gemmi."""

from __future__ import annotations

import math
import os
from dataclasses import dataclass
from decimal import Decimal, InvalidOperation
from fractions import Fraction
from typing import Mapping, Sequence, Union

from .errors import FileRefused, MissingPackage

PathName = Union[str, "os.PathLike[str]"]


# Numbers


def decimal_of(text: str) -> Decimal:
    """The number of a file, without its uncertainty in brackets."""
    try:
        number = Decimal(text.partition("(")[0])
    except InvalidOperation:
        raise FileRefused(f"not a number: {text}") from None
    if not number.is_finite():
        raise FileRefused(f"not a number: {text}")
    return number


def coordinate_of(text: str) -> Fraction:
    """A coordinate: a decimal, or the third or sixth that it is rounded or cut off from.

    >>> [str(coordinate_of(text)) for text in ("0.333", "-0.6667", "0.166", "0.33", "0.334", "0.3050")]
    ['1/3', '-2/3', '1/6', '33/100', '167/500', '61/200']
    """
    number = decimal_of(text)
    digits = -int(number.as_tuple().exponent)
    size = abs(Fraction(number))
    sixths = round(size * 6)
    if digits < 3 or sixths % 3 == 0:
        return Fraction(number)
    scaled = Fraction(sixths * 10**digits, 6)
    is_near = size * 10**digits in (math.floor(scaled), math.floor(scaled + Fraction(1, 2)))
    return (Fraction(sixths, 6) if is_near else size) * (-1 if number < 0 else 1)


# The tags of an mcif file


@dataclass(frozen=True)
class Tags:
    """The single values and the columns of a block, by tags in lower case with `_` in the place of `.`."""

    values: Mapping[str, str]
    columns: Mapping[str, Sequence[str]]

    def value(self, tag: str) -> str:
        if tag not in self.values:
            raise FileRefused(f"the file has no {tag}")
        return self.values[tag]

    def column(self, *tags: str) -> Sequence[str]:
        """The first of some columns that is there; none at all is an empty one."""
        return next((self.columns[tag] for tag in tags if tag in self.columns), ())


def gemmi_cif():
    """gemmi's reader of CIF. Raises MissingPackage."""
    try:
        from gemmi import cif
    except ImportError:
        raise MissingPackage("mcif files are read by gemmi: install python3-gemmi") from None
    return cif


def plain_tag(tag: str) -> str:
    return tag.lower().replace(".", "_")


def tags_of(path: PathName) -> Tags:
    """The tags of the first block that has a cell. Raises FileRefused."""
    cif = gemmi_cif()
    try:
        document = cif.read(str(path))
    except (OSError, RuntimeError, ValueError) as error:
        raise FileRefused(f"not a CIF file: {error}") from None
    found = [tags for tags in (tags_of_block(cif, block) for block in document) if "_cell_length_a" in tags.values]
    if not found:
        raise FileRefused("the file has no unit cell")
    return found[0]


def tags_of_block(cif, block) -> Tags:
    """The tags of a block."""
    values, columns = {}, {}
    for item in block:
        if item.pair is not None:
            values[plain_tag(item.pair[0])] = cif.as_string(item.pair[1])
        elif item.loop is not None:
            columns.update(columns_of(cif, item.loop))
    return Tags(values, columns)


def columns_of(cif, loop) -> dict[str, list[str]]:
    """The columns of a loop, by their tags."""
    tags, values = list(loop.tags), [cif.as_string(value) for value in loop.values]
    return {plain_tag(tag): values[at :: len(tags)] for at, tag in enumerate(tags)}
