"""Where the magnetic space groups of Spglib differ from those of ISO-MAG of the same numbers, and what is known of it.

In two rows the types differ. In ISO-MAG's groups the twofold rotation about c that does not reverse time has an axis,
and the one that does is a screw rotation; in Spglib's it is the other way round. A rotation with an axis fixes a point,
a screw rotation does not, and no affine map changes that. So the maximal space subgroups there are of type 36, not 37.
"""
from typing import NamedTuple

import equivalence

# BNS numbers, and those of the types that Spglib's groups of these numbers have.
TYPES = {"37.184": "36.177", "37.186": "36.179"}

# Which axes change places, and p in 24ths where x in ISO-MAG is x + p in Spglib, with x in its axes; BNS numbers.
AXES = {
    ("b and c", (0, 0, 0)): ["16.3"],
    ("a and b", (0, 0, 0)): ["27.80", "32.137", "34.158", "35.167", "37.182", "42.221", "44.231"],
    ("a and b", (6, 6, 0)): ["43.226"],
}

# p likewise, where the axes are the same; space groups, all of whose BNS numbers have it, and single BNS numbers.
ORIGINS = {
    (0, 6, 0): ["37.185"],
    (0, 6, 3): ["88"],
    (0, 6, 6): ["68"],
    (0, 18, 3): ["141", "142"],
    (3, 3, 3): ["70", "203", "227"],
    (6, 6, 0): ["50", "59", "125"],
    (6, 6, 6): ["48", "86", "126", "201", "222", "224"],
    (6, 18, 0): ["85", "129", "130"],
    (6, 18, 6): ["133", "134", "137", "138"],
    (9, 9, 9): ["228"],
}

EXCHANGES = {(1, 0, 0, 0, 0, 1, 0, 1, 0): "b and c", (0, 1, 0, 1, 0, 0, 0, 0, 1): "a and b"}


class Difference(NamedTuple):
    """What differs, `types`, `axes` or `origins`, and how: the BNS number of the other type; the axes and p; or p."""

    what: str
    how: object


def other_type(bns, groups, others):
    """The BNS number of the type of Spglib's group, where it is the known one and proved to be another; else None."""
    other = TYPES.get(bns)
    if other not in groups or equivalence.map_between(groups[other], others) is None:
        return None
    own, theirs = equivalence.fixed_points(groups[bns]), equivalence.fixed_points(others)
    return other if own is not None and theirs is not None and own != theirs else None


def difference(bns, groups, others):
    """What differs between the group of a BNS number, in a list by these, and Spglib's; None where they are equal."""
    if groups[bns] == others:
        return None
    found = equivalence.map_between(groups[bns], others)
    if found is None:
        return Difference("types", other_type(bns, groups, others))
    if found.axes != equivalence.AXES[0]:
        sizes = tuple(abs(entry) for entry in found.axes)
        return Difference("axes", (EXCHANGES.get(sizes, found.axes), found.origin))
    return Difference("origins", found.origin)


def known(bns):
    """What is known to differ in Spglib's group of a BNS number, or None."""
    if bns in TYPES:
        return Difference("types", TYPES[bns])
    for how, numbers in AXES.items():
        if bns in numbers:
            return Difference("axes", how)
    for how, numbers in ORIGINS.items():
        if bns in numbers or bns.partition(".")[0] in numbers:
            return Difference("origins", how)
    return None
