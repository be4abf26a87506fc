"""mkpasswd_message and mkpasswd_scheme_name: the text for each number, and small buffers."""
from __future__ import annotations

import pytest
from support.driver import Driver
from support.model.calls import (
    METHODS,
    NUMBERS_OF_OTHERS,
    TEXT_SIZE,
    Message,
    Reason,
    SchemeName,
    System,
    in_each_form,
)

# 0 for no error, the numbers after the known ones, and the ends of signed and unsigned 32 bits.
UNKNOWN_ERRORS = (0, len(Reason) + 1, len(Reason) + 2, 2**31 - 1, 2**31, 2**32 - 1)


def sizes_around(text: str) -> tuple[int, ...]:
    """Returns sizes of `out` around the length of a message."""
    return (0, 1, 2, 3, len(text), len(text) + 1, TEXT_SIZE)


@pytest.mark.parametrize(
    "error", [pytest.param(error, id=error.name.lower().replace("_", " ")) for error in Reason]
)
def test_an_error_has_its_message(driver: Driver, error: Reason) -> None:
    for call in in_each_form(Message(error)):
        driver.assert_answer(call, result=1, out=f'"{error.message}"')
    calls = [Message(error, size) for size in sizes_around(error.message)]
    driver.assert_matches_model(in_each_form(*calls, Message(error, None)))


@pytest.mark.parametrize("number", UNKNOWN_ERRORS)
def test_0_and_an_unknown_error_are_an_unknown_reason(driver: Driver, number: int) -> None:
    for call in in_each_form(Message(number)):
        driver.assert_answer(call, result=0, out='"unknown reason"')
    calls = [Message(number, size) for size in sizes_around("unknown reason")]
    driver.assert_matches_model(in_each_form(*calls, Message(number, None)))


def test_a_message_needs_nothing_from_the_system(driver: Driver) -> None:
    answer = driver.answers([Message(Reason.DEAD)], System(refused_allocation=1))[0]
    assert (answer.allocations, answer.drawn) == (0, 0)


@pytest.mark.parametrize(
    ("number", "name"),
    [
        *(pytest.param(number, own.name, id=own.name) for number, own in METHODS.items()),
        *(pytest.param(number, name, id=name) for name, number in NUMBERS_OF_OTHERS.items()),
    ],
)
def test_a_scheme_has_its_name(driver: Driver, number: int, name: str) -> None:
    driver.assert_answer(SchemeName(number), result=1, out=f'"{name}"')
    calls = [SchemeName(number, size) for size in (*sizes_around(name), None)]
    driver.assert_matches_model(in_each_form(*calls))


# 0, numbers next to the known ones, and the greatest of 32 bits.
UNKNOWN_SCHEMES = (0, 2, 3, 4, 8, 100, 109, 2**32 - 1)


@pytest.mark.parametrize("number", UNKNOWN_SCHEMES)
def test_another_number_is_an_unknown_scheme(driver: Driver, number: int) -> None:
    driver.assert_answer(SchemeName(number), result=0, out='"unknown scheme"')
    calls = [SchemeName(number, size) for size in (*sizes_around("unknown scheme"), None)]
    driver.assert_matches_model(in_each_form(*calls))
