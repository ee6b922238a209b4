"""The examples of the docstrings run."""

import doctest
import importlib
import pkgutil

import pytest
from conftest import has_command  # finds the package

import magsym

MODULES = [name for _, name, _ in pkgutil.iter_modules(magsym.__path__) if name != "__main__"]
assert has_command


@pytest.mark.parametrize("name", MODULES)
def test_examples_of_docstrings(name):
    failed, _ = doctest.testmod(importlib.import_module(f"magsym.{name}"))
    assert failed == 0
