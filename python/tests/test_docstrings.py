"""The examples in the docstrings."""
import doctest
import importlib
import pkgutil

import pytest

import cicelybeam

NAMES = [module.name for module in pkgutil.iter_modules(cicelybeam.__path__) if module.name != "__main__"]


@pytest.mark.parametrize("name", ["", *NAMES])
def test_examples(name):
    module = importlib.import_module("cicelybeam" + (f".{name}" if name else ""))
    assert doctest.testmod(module).failed == 0
