"""mkpasswd.h: its numbers, its errors, and the layout of a report."""
from __future__ import annotations

import re
import struct

import pytest
from support.library import SOURCES, Builder, Installed
from support.model.calls import (
    NUMBERS_OF_OTHERS,
    Audit,
    Bound,
    Call,
    Hash,
    Limit,
    Reason,
    System,
    length_of_hash,
)
from support.model.settings import read_setting
from support.model.work import LONGEST_PASSWORD
from support.process import run
from support.stored_fields import SCRYPT_WITH_LONGEST_SALT

# Matches an error with its comment, which begins with the message.
ERROR = re.compile(
    r"^ */\* ([^:\n]+?)(?::.*)? \*/\n *MKPASSWD_ERROR_(\w+) = (\d+),?$", re.MULTILINE
)
# The layout of struct mkpasswd_report: eight numbers of 32 bits and six of 64, little-endian.
REPORT = struct.Struct("<8I6Q")
SMALL_FIELDS = ("error", "outdated", "length", "scheme", "rounds", "n", "r", "p")
LARGE_FIELDS = ("cost", "digests", "bytes", "mixes", "table", "scratch")
FIELDS = SMALL_FIELDS + LARGE_FIELDS
# The calls that tests/c/report.c makes.
REPORTED: tuple[Call, ...] = (
    Hash(b"password", b"$7$46..../....SodiumChloride"),
    Limit(),
    Audit(b"$7$C6....0....SodiumChloride$" + b"." * 43),
    Bound(b"x"),
)


def test_the_errors_are_numbered_from_1_on_and_have_the_messages_of_their_comments(
    installed: Installed,
) -> None:
    """test_messages.py compares the library's messages with the same list."""
    found = [
        (name, int(number), message) for message, name, number in ERROR.findall(installed.header)
    ]
    assert found == [(error.name, int(error), error.message) for error in Reason]
    assert [number for _, number, _ in found] == list(range(1, len(found) + 1))


def test_each_error_of_the_header_has_a_comment_with_its_message(installed: Installed) -> None:
    names = re.findall(r"MKPASSWD_ERROR_(\w+) = ", installed.header)
    assert sorted(names) == sorted(error.name for error in Reason)


@pytest.mark.parametrize(
    ("name", "number"),
    [
        pytest.param("MD5CRYPT", 1, id="the number of md5crypt"),
        pytest.param("SHA256CRYPT", 5, id="the number of sha256crypt"),
        pytest.param("SHA512CRYPT", 6, id="the number of sha512crypt"),
        pytest.param("SCRYPT", 7, id="the number of scrypt"),
        *(
            pytest.param(re.sub(r"\W", "_", name).upper(), number, id=f"the number of {name}")
            for name, number in NUMBERS_OF_OTHERS.items()
            if name is not None  # the dict's type allows None only for its get()
        ),
        pytest.param("PASSWORD_LIMIT", LONGEST_PASSWORD, id="the longest password"),
        pytest.param(
            "TEXT_SIZE",
            length_of_hash(read_setting(SCRYPT_WITH_LONGEST_SALT)) + 1,
            id="the size of an out for the longest hash",
        ),
    ],
)
def test_a_number_in_the_header_is_the_formats_number(
    installed: Installed, name: str, number: int
) -> None:
    assert installed.defined(name) == number


def test_each_field_of_a_report_is_in_its_place(builder: Builder) -> None:
    program = builder.build(SOURCES / "report.c")
    result = run(program).required()
    assert len(result.stdout) == len(REPORTED) * REPORT.size, str(result)
    for call, values in zip(REPORTED, REPORT.iter_unpack(result.stdout)):
        expected = call.expected(System())
        found = dict(zip(FIELDS, values))
        assert found == {name: getattr(expected, name) for name in FIELDS}


def test_no_two_fields_are_equal_in_all_reports() -> None:
    """Otherwise the test of a report's layout would miss it if two fields were swapped."""
    reports = [call.expected(System()) for call in REPORTED]
    values = [tuple(getattr(report, name) for report in reports) for name in FIELDS]
    assert len(set(values)) == len(values)
