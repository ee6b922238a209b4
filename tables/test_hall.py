#!/usr/bin/python3
"""Tests of the reference reader of Hall symbols: its rules case by case, and Spglib's 530 Hall symbols."""
import sys
import unittest

sys.dont_write_bytecode = True

import hall
import sources

FAULTS = [
    ("", "Empty", None),
    ("   ", "Empty", None),
    ("Q 2", "BadLattice", None),
    ("--P 1", "BadLattice", None),
    ("- P 1", "BadLattice", None),
    ("P\t2", "BadLattice", None),
    ("P(0 0 1)", "BadLattice", None),
    ("P", "BadToken", 1),
    ("P (0 0 1)", "BadToken", 1),
    ("P (0 0", "BadToken", 1),
    ("P 5", "BadToken", 1),
    ("P 26", "BadToken", 1),
    ("P 1x", "BadToken", 1),
    ("P 11x", "BadToken", 1),
    ("P 3'", "BadToken", 1),
    ("P 2*", "BadToken", 1),
    ("P 2xy", "BadToken", 1),
    ("P 2!a", "BadToken", 1),
    ("P 2!!", "BadToken", 1),
    ("P 2\t", "BadToken", 1),
    ("P 2 2) (0 0", "BadToken", 2),
    ("P 4 4", "NoAxis", 2),
    ("P 1 2", "NoAxis", 2),
    ("P 3* 3", "NoAxis", 2),
    ("P 2 2 2", "NoAxis", 3),
    ("P 4 2 41", "NoAxis", 3),
    ("P 2 2 3 2", "NoAxis", 4),
    ("P 22", "BadScrew", 1),
    ("P 11", "BadScrew", 1),
    ("P 31*", "BadScrew", 1),
    ("P 4 21'", "BadScrew", 2),
    ("P 3 21", "BadScrew", 2),
    ("P 2 2 31", "BadScrew", 3),
    ("P 1 1 1 1 1 1", "TooManyTokens", None),
    ("P 1 1 1 1 1 x (", "TooManyTokens", None),
    ("P 2 (0 0)", "BadShift", None),
    ("P 2 (0 0 100)", "BadShift", None),
    ("P 2 (0,0,1)", "BadShift", None),
    ("P 2 (0 0 - 1)", "BadShift", None),
    ("P 2 (0 0 1", "BadShift", None),
    ("P 2 (0 0 1) 2", "BadShift", None),
    ("P 6 3*", "TooManyMatrices", None),
    ("P 4z 6x", "TooManyMatrices", None),
]

# Symbols, an operation of their groups, and how many operations there are.
MEMBERS = [
    ("P 1c!", "x,y,z+1/2,-1", 2),
    ("  -P   1  ", "-x,-y,-z,+1", 2),
    ("P 31 2c (0 0 1)", "-y,-x,-z+2/3,+1", 6),
    ("P 31 2c( -0  00 1 ) ", "-y,-x,-z+2/3,+1", 6),
    ("P -2aa", "x,y,-z,+1", 2),
    ("P 2yb", "-x,y+1/2,-z,+1", 2),
    ("P 2y 2", "x,-y,-z,+1", 4),
    ("P 4x 2", "x,-y,-z,+1", 4),
    ("P 2 2'", "-y,-x,-z,+1", 4),
    ("P 2x 2=", "-x,z,y,+1", 4),
    ("P 2y 2'", "-z,-y,-x,+1", 4),
    ("P 2 2 2'", "-x,-z,-y,+1", 8),
    ("P 2x 3* 2'", "-x,-z,-y,+1", 24),
    ("P 3* 2", "-y,-x,-z,+1", 6),
    ("F 4d 2 3", "-y+1/4,x+1/4,z+1/4,+1", 96),
    ("-P 4 2 3", "-z,-x,-y,+1", 48),
    ("P 61!", "x-y,x,z+1/6,-1", 6),
    ("R 3 -2\"c 1c!", "-y,-x,z,-1", 36),
    ("P 1u!", "x+1/2,y,z,+1", 4),
    ("A 1 (1 2 3)", "x,y+1/2,z+1/2,+1", 2),
    ("-P 1 (1 2 -3)", "-x+1/6,-y+1/3,-z+1/2,+1", 2),
]

TABLES = [
    (b"# none\n\n \t# none\n", []),
    (b"A P 1\r\n\tB\t-P\t1 1c! \n\xff", "row 3: row has no known form"),
    (b"A P 1\r\n\tB\t-P\t1 1c! \n#\xff", [("A", "P 1"), ("B", "-P 1 1c!")]),
    (b"A \n", "row 1: row has no known form"),
    (b"A P 2\rx\n", "row 1: row has no known form"),
    (b"N" * 32 + b" P 1", [("N" * 32, "P 1")]),
    (b"N" * 33 + b" P 1", "row 1: row has no known form"),
    (b"A P 1\nB P 4 4\n", "row 2: token 2 needs an axis"),
    (b"A P 6 3*\nB Q\n", "row 1: more than 48 matrices"),
    (b"A P 1\n" * 4000, [("A", "P 1")] * 4000),
    (b"A P 1\n" * 4000 + b"B\n", "row 4001: more than 4000 rows"),
]


class Hall(unittest.TestCase):
    def test_the_first_fault_is_told(self):
        for text, name, token in FAULTS:
            with self.subTest(text), self.assertRaises(hall.Fault) as raised:
                hall.expand(hall.read_symbol(text))
            self.assertEqual((raised.exception.name, raised.exception.token), (name, token), text)

    def test_symbols_generate_groups(self):
        for text, line, count in MEMBERS:
            with self.subTest(text):
                operations = hall.expand(hall.read_symbol(text))
                self.assertIn(line, map(hall.spelled, operations))
                self.assertEqual(len(operations), count)

    def test_operations_are_read_as_they_are_spelled(self):
        for text, _, _ in MEMBERS:
            for operation in hall.expand(hall.read_symbol(text)):
                self.assertEqual(hall.operation_of(hall.spelled(operation)), operation)

    def test_tables_are_read_or_their_first_fault_is_told(self):
        for data, wanted in TABLES:
            with self.subTest(data[:40]):
                try:
                    found = [tuple(row) for row in hall.read_table(data)]
                except hall.RowFault as fault:
                    found = str(fault)
                self.assertEqual(found, wanted)

    @unittest.skipIf(sources.spglib is None, "Spglib is not installed")
    def test_symbols_of_spglib_generate_its_groups(self):
        for number, text in enumerate(sources.hall_symbols(), 1):
            with self.subTest(text):
                self.assertEqual(hall.expand(hall.read_symbol(text)), sources.space_group(number))


if __name__ == "__main__":
    unittest.main()
