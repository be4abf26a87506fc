"""A login by the library takes equally long for each kind of field.

No clause keeps a compiler from dropping a hash whose result nobody reads. The tests count
instructions, which don't depend on how busy the machine is.
"""
from __future__ import annotations

import pytest
from measure_speed.logins import WRONG, Client, Policy, fields_of
from measure_speed.programs import CLIENTS
from support.library import Builder
from support.model.methods import SHA512CRYPT

pytestmark = [pytest.mark.needs("valgrind"), pytest.mark.xdist_group("the time of logins")]

POLICY = Policy(SHA512CRYPT, 5000)
FIELDS = fields_of(POLICY)
# Before its rounds, SHA-crypt digests the salt 16 to 271 times, depending on a byte of a digest.
TOLERANCE = 0.01


@pytest.fixture(scope="module", name="client")
def fixture_client(builder: Builder) -> Client:
    """The client that logs in."""
    return Client("C", (str(builder.build(CLIENTS / "log_in.c")),))


@pytest.fixture(scope="module", name="expected")
def fixture_expected(client: Client) -> float:
    """The number of instructions of a login with a wrong password."""
    return client.instructions(POLICY, WRONG, FIELDS[WRONG])


@pytest.mark.parametrize("kind", [kind for kind in FIELDS if kind != WRONG])
def test_a_login_takes_as_long_as_with_a_wrong_password(
    client: Client, expected: float, kind: str
) -> None:
    found = client.instructions(POLICY, kind, FIELDS[kind])
    assert found == pytest.approx(expected, rel=TOLERANCE)
