"""passlib's own tests of its handlers, run on the package's handlers.

The package makes every hash. passlib's tests skip features that a handler over a library doesn't
have, such as other backends.
"""
from __future__ import annotations

import importlib
import unittest
import warnings
from typing import Any

import pytest
from support.needs import needed
from support.package import package_under_test

with package_under_test():
    import mkpasswd

with needed("python3-passlib"), warnings.catch_warnings():
    warnings.simplefilter("ignore")
    HANDLERS = importlib.import_module("mkpasswd.passlib")
    SUITE = importlib.import_module("passlib.tests.test_handlers")

pytestmark = pytest.mark.filterwarnings("ignore")
NO_BUDGET = 2**42  # more than any hash costs; passlib's tests set no budget


def suite_of(name: str) -> Any:
    """Returns passlib's tests of a handler, except for one test.

    That one expects an error from verify() above 4,096 characters. Our handlers return False.
    """
    assert mkpasswd.__version__
    handler = type(name, (getattr(HANDLERS, name),), {"budget": NO_BUDGET})
    tests: type[unittest.TestCase] = getattr(SUITE, f"_{name}_test")
    return type(f"PasslibsOwn_{name}", (tests,), {"handler": handler, "test_63_large_secret": None})


test_by_passlibs_own_suite_md5_crypt = suite_of("md5_crypt")
test_by_passlibs_own_suite_sha256_crypt = suite_of("sha256_crypt")
test_by_passlibs_own_suite_sha512_crypt = suite_of("sha512_crypt")
