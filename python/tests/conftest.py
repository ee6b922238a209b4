"""Where the package is found, and what is left out without an optional package or without the built program."""

import importlib.util
import sys
from pathlib import Path

import pytest

PYTHON = Path(__file__).resolve().parents[1]
sys.path.insert(0, str(PYTHON))


def needs(package):
    """Leaves a test out where a package is not installed, and says which of Debian has it."""
    return pytest.mark.skipif(importlib.util.find_spec(package) is None, reason=f"python3-{package} is not installed")


def has_command(*words):
    """Whether the built program has a command."""
    import magsym
    from magsym.runner import run

    try:
        run(list(words), "")
    except magsym.WordsRefused as refusal:
        return "unknown command" not in refusal.reason
    except magsym.Refused:
        return True
    return True
