"""Fixtures for the tests of the Python package, which support/package.py imports."""
from __future__ import annotations

from typing import Any

import pytest
from support.package import Cook


@pytest.fixture(scope="session", name="cook")
def fixture_cook(tmp_path_factory: pytest.TempPathFactory) -> Cook:
    """An object that runs the recipes of docs/PYTHON.md in a scratch folder."""
    return Cook(tmp_path_factory.mktemp("recipes"))


@pytest.fixture(name="digests")
def fixture_digests(monkeypatch: pytest.MonkeyPatch) -> list[int]:
    """A list to which each call that hashes adds its number of digests."""
    from mkpasswd import _library

    numbers: list[int] = []
    for name in ("hash_by", "login", "new"):

        def counted(*arguments: Any, call: Any = getattr(_library, name)) -> Any:
            answer = call(*arguments)
            numbers.append(answer.report.work.digests)
            return answer

        monkeypatch.setattr(_library, name, counted)
    return numbers


@pytest.fixture(name="few_rounds")
def fixture_few_rounds(monkeypatch: pytest.MonkeyPatch) -> None:
    """Lets the package's functions make hashes with few rounds.

    That is for tests of services that are about neither the rounds nor the limit of a policy.
    """
    import mkpasswd

    policy = mkpasswd.Policy(rounds=1000)
    for name in ("login", "needs_rehash", "hash"):
        monkeypatch.setattr(mkpasswd, name, getattr(policy, name))
