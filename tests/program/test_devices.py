"""Each read, write, allocation and random draw of the program fails in turn, in each mode.

Such a run must end with status 3, name the failure, and print a prefix of a successful run's
output that answers every earlier line in full. If the arguments are refused, the status stays 2
even if the message can't be written.

One failed allocation may go unnoticed: at the end std shrinks the list of arguments, and keeps it
as it is if that fails.
"""
from __future__ import annotations

import re
from dataclasses import dataclass
from pathlib import Path

import pytest
from support.costly_hashes import SCRYPT_AT_DEFAULT, SCRYPT_OF_16_MIB, SCRYPT_OF_32_MIB
from support.libxcrypt import crypt
from support.needs import built
from support.preload import preload_library
from support.process import Result, Word, assert_result, run, printable

MESSAGES = {
    "memory": b"mkpasswd: out of memory\n",
    "random": b"mkpasswd: start fault\n",
    "read": b"mkpasswd: read fault\n",
    "write": b"mkpasswd: write fault\n",
}


@dataclass(frozen=True)
class Call:
    """A system or library call of the program."""

    kind: str
    size: int
    descriptor: int  # 0 for a call without one
    has_failed: bool = False


@dataclass(frozen=True)
class Traced:
    """How a run ended, and its calls."""

    result: Result
    calls: list[Call]

    def count(self, kind: str) -> int:
        """Returns how many calls of a kind the run made."""
        return sum(call.kind == kind for call in self.calls)

    @property
    def has_failed_call(self) -> bool:
        """Whether a call has failed."""
        return any(call.has_failed for call in self.calls)


class Tracer:
    """Runs the program with tests/c/faults.c, which logs its calls and makes one of them fail."""

    def __init__(self, program: Path, library: Path, log: Path) -> None:
        self.program = program
        self.library = library
        self.log = log

    def run(self, words: list[Word], given: bytes, fault: str | None = None) -> Traced:
        """Runs the program. A fault is a kind and a number, as in `read 2`, or `short`."""
        self.log.write_bytes(b"")
        environment = {
            "LD_PRELOAD": str(self.library),
            "FAULT": fault,
            "FAULT_LOG": str(self.log),
        }
        result = run(self.program, *words, stdin=given, env=environment)
        lines = self.log.read_text(encoding="ascii").splitlines()
        return Traced(result, [call_of(line) for line in lines])


def call_of(line: str) -> Call:
    """Reads a call from a line of the log."""
    kind, size, descriptor, *failed = line.split()
    return Call(kind, int(size), int(descriptor), bool(failed))


@pytest.fixture(scope="module", name="library")
def fixture_library(tmp_path_factory: pytest.TempPathFactory) -> Path:
    return preload_library("faults", tmp_path_factory.mktemp("faults"))


@pytest.fixture(name="tracer")
def fixture_tracer(program: Path, library: Path, tmp_path: Path) -> Tracer:
    return Tracer(program, library, tmp_path / "log")


# ---- The modes

MD5_WORDS: list[Word] = ["-m", "md5crypt", "-S", "xxxxxxxx"]
TO_SCRYPT: list[Word] = ["--check", "--rehash", "-m", "scrypt", "-R", "6", "-S", "ab"]
MD5 = b"$1$xxxxxxxx$UYCIxa628.9qXjpQCjM4a."
SCRYPT_OF_X = b"$7$CU..../....ab$TioQ/OazCAbGpb/E7e054xV/7lAamSWFPOGclTgvmt0"
OLD_SCRYPT = crypt(b"password", b"$7$2/..../....xxxxxxxx")
NEW_SCRYPT = SCRYPT_OF_32_MIB
# The third test vector of RFC 7914, with a table of 16 MiB.
THIRD_VECTOR = b"$7$C6..../....SodiumChloride$kBGj9fHznVYFQMEn/qDCfrDevf9YDtcDdKvEqHJLV8D"
LINE_OF_16_MIB = b"ann:%b:password\n" % SCRYPT_OF_16_MIB
LINE_OF_64_MIB = b"ann:%b:password\n" % SCRYPT_AT_DEFAULT
METHODS = b"Available methods:\nmd5crypt\nsha256crypt\nsha512crypt\nscrypt\n"
# Patterns of hashes.
FORM_OF_MD5 = r"\$1\$[./0-9A-Za-z]{8}\$[./0-9A-Za-z]{22}\n"
FORM_OF_SHA512 = r"\$6\$[./0-9A-Za-z]{16}\$[./0-9A-Za-z]{86}\n"


@dataclass(frozen=True)
class Mode:
    """A command, and what it prints if no call fails."""

    title: str
    words: list[Word]
    given: bytes = b""
    stdout: bytes = b""
    form: str = ""  # a pattern for the output, if it isn't known in full
    stderr: bytes = b""
    status: int = 0
    makes_hashes: bool = True  # and therefore draws a seed
    draws_salt: bool = False
    allocations_after_an_answer: int = 0

    def __str__(self) -> str:
        return self.title

    def assert_result(self, result: Result) -> None:
        """Fails the test unless this is the result of a run without a fault."""
        if not self.form:
            assert_result(result, status=self.status, stdout=self.stdout, stderr=self.stderr)
            return
        assert_result(result, status=self.status, stdout=result.stdout, stderr=self.stderr)
        is_of_form = re.fullmatch(self.form.encode(), result.stdout, re.DOTALL)
        assert is_of_form, f"expected stdout: {self.form}\n{result}"

    def can_begin_with(self, stdout: bytes, whole: bytes) -> bool:
        """Returns whether a run that ends early, perhaps with another salt, can print this."""
        if self.form:
            return len(stdout) <= len(whole)
        return self.stdout.startswith(stdout)


# The hashes are from openssl-passwd(1) and libxcrypt.
MODES = [
    Mode("a password", [*MD5_WORDS, "password"], stdout=MD5 + b"\n"),
    Mode(
        "a password from standard input",
        [*MD5_WORDS, "-s"],
        given=b"password\nmore\n",
        stdout=MD5 + b"\n",
    ),
    Mode("scrypt", ["-m", "scrypt", "-S", "ab", "x"], stdout=SCRYPT_OF_X + b"\n"),
    Mode("the methods", ["-m", "help"], stdout=METHODS, makes_hashes=False),
    Mode("the version", ["-V"], form=r"mkpasswd [0-9.]+\n", makes_hashes=False),
    Mode("help", ["--help"], form=r"Prints .*--stdin\.\n", makes_hashes=False),
    Mode(
        "a refusal",
        ["-m", "sha1", "x"],
        stderr=b"mkpasswd: unknown method\n",
        status=2,
        makes_hashes=False,
    ),
    Mode("a drawn salt", ["-m", "md5crypt", "password"], form=FORM_OF_MD5, draws_salt=True),
    Mode("no words", [], given=b"password\n", form=FORM_OF_SHA512, draws_salt=True),
    Mode(
        "batch",
        ["--batch", *MD5_WORDS],
        given=b"ann:password\n:x\nbob:password\n",
        stdout=b"ann:%b\nbob:%b\n" % (MD5, MD5),
        stderr=b"mkpasswd: line 2: no name\n",
        status=1,
    ),
    Mode(
        "batch with drawn salts",
        ["--batch", "-m", "md5crypt"],
        given=b"ann:password\n",
        form=f"ann:{FORM_OF_MD5}",
        draws_salt=True,
    ),
    Mode(
        "check",
        ["--check"],
        given=b"ann:%b:password\nbob:%b:pleaseletmein\n::\ncat:%b:Password\n"
        % (MD5, THIRD_VECTOR, MD5),
        stdout=b"ann:ok\nbob:ok\ncat:no\n",
        stderr=b"mkpasswd: line 3: no name\n",
        status=1,
        allocations_after_an_answer=3,
    ),
    Mode(
        "rehash from scrypt",
        ["--check", "--rehash", *MD5_WORDS],
        given=b"bob:%b:password\n" % OLD_SCRYPT,
        stdout=b"bob:ok:%b\n" % MD5,
    ),
    Mode(
        "rehash from one scrypt cost to another",
        TO_SCRYPT,
        given=b"ann::\nbob:%b:password\n" % OLD_SCRYPT,
        stdout=b"ann:none\nbob:ok:%b\n" % NEW_SCRYPT,
        allocations_after_an_answer=6,
    ),
    Mode(
        "check with a reused table",
        ["--check"],
        given=LINE_OF_16_MIB * 2 + LINE_OF_64_MIB,
        stdout=b"ann:ok\n" * 3,
        allocations_after_an_answer=5,
    ),
    Mode(
        "audit",
        ["--audit"],
        given=b"ann:%b:1\n:x\nbob:!\neve:%b\ntim:x\n" % (MD5, NEW_SCRYPT),
        stdout=b"ann:md5crypt:1000:1927022:outdated\nbob:locked\n"
        b"eve:scrypt:8192/32/1:67135396:outdated\ntim:no scheme\n",
        stderr=b"mkpasswd: line 2: no name\n",
        status=1,
        makes_hashes=False,
    ),
    Mode(
        "rehash to scrypt",
        TO_SCRYPT,
        given=b"bob:%b:password\n" % MD5,
        stdout=b"bob:ok:%b\n" % NEW_SCRYPT,
    ),
]


@pytest.mark.parametrize("mode", MODES, ids=str)
def test_without_a_fault_each_mode_prints_its_answers(tracer: Tracer, mode: Mode) -> None:
    whole = tracer.run(mode.words, mode.given)
    mode.assert_result(whole.result)
    assert whole.count("memory") > 0, "the program must allocate memory"
    assert whole.count("write") > 0, "the program must write"
    reads, has_input = whole.count("read") > 0, mode.given != b""
    assert reads == has_input, "the program must read exactly if it has input"
    seeds = 1 if mode.makes_hashes else 0
    assert whole.count("random") == seeds, "the program must draw one seed exactly if it hashes"


def assert_named(mode: Mode, kind: str, traced: Traced, whole: bytes) -> None:
    """Fails unless a run named its fault, and printed a prefix of a successful run's output."""
    result = traced.result
    has_no_message = kind == "write" and mode.status == 2  # the arguments are refused
    status = 2 if has_no_message else 3
    message = b"" if has_no_message else MESSAGES[kind]
    assert traced.has_failed_call, f"no call failed\n{result}"
    assert result.status == status, f"expected status: {status}\n{result}"
    assert result.stderr.endswith(message), f"expected stderr: ..{printable(message)}\n{result}"
    before = result.stderr.removesuffix(message)
    expected = printable(mode.stderr)
    assert mode.stderr.startswith(before), f"expected stderr: {expected} cut\n{result}"
    is_begun = mode.can_begin_with(result.stdout, whole)
    assert is_begun, f"expected stdout: {printable(whole)} cut\n{result}"
    if kind != "write":
        assert result.stdout[-1:] in (b"", b"\n"), f"expected stdout: whole lines\n{result}"


def assert_each_failed_call_is_named(tracer: Tracer, mode: Mode, kind: str) -> None:
    """Makes each call of a kind fail in turn. Fails the test unless each run names its fault."""
    whole = tracer.run(mode.words, mode.given)
    for number in range(1, whole.count(kind) + 1):
        traced = tracer.run(mode.words, mode.given, f"{kind} {number}")
        assert_named(mode, kind, traced, whole.result.stdout)


@pytest.mark.parametrize("mode", [mode for mode in MODES if mode.given], ids=str)
def test_a_failed_read_is_named(tracer: Tracer, mode: Mode) -> None:
    assert_each_failed_call_is_named(tracer, mode, "read")


@pytest.mark.parametrize("mode", MODES, ids=str)
def test_a_failed_write_is_named(tracer: Tracer, mode: Mode) -> None:
    assert_each_failed_call_is_named(tracer, mode, "write")


@pytest.mark.parametrize("mode", [mode for mode in MODES if mode.makes_hashes], ids=str)
def test_a_failed_draw_is_named(tracer: Tracer, mode: Mode) -> None:
    assert_each_failed_call_is_named(tracer, mode, "random")


@pytest.mark.slow
@pytest.mark.parametrize("mode", MODES, ids=str)
def test_a_failed_allocation_is_named(tracer: Tracer, mode: Mode) -> None:
    whole = tracer.run(mode.words, mode.given)
    ignored, after_an_answer = [], 0
    for number in range(1, whole.count("memory") + 1):
        traced = tracer.run(mode.words, mode.given, f"memory {number}")
        result = traced.result
        if (result.status, result.stderr) == (mode.status, mode.stderr):
            ignored.append(f"memory {number}")
            is_whole = len(result.stdout) == len(whole.result.stdout)
            assert is_whole, f"expected stdout: {printable(whole.result.stdout)}\n{result}"
            continue
        assert_named(mode, "memory", traced, whole.result.stdout)
        if result.stdout != b"":
            after_an_answer += 1
    most_ignored = 1 if mode.words else 0
    assert len(ignored) <= most_ignored, ignored
    assert after_an_answer == mode.allocations_after_an_answer


@pytest.mark.parametrize("mode", MODES, ids=str)
def test_reads_and_writes_may_transfer_one_byte_each(tracer: Tracer, mode: Mode) -> None:
    whole = tracer.run(mode.words, mode.given).result
    result = tracer.run(mode.words, mode.given, "short").result
    mode.assert_result(result)
    if not mode.draws_salt:
        assert_result(result, status=mode.status, stdout=whole.stdout, stderr=mode.stderr)


# ---- Memory

BEFORE_TABLE = 2 << 20  # bytes that c/heap.c allocates in front of a table, to align it
BEFORE_PARTS = 16  # bytes that it allocates in front of a smaller block


def allocations_of(*, r: int) -> list[int]:
    """Returns the sizes of scrypt's allocations with N = 2^14 and p = 1.

    They are a table of 128 N r bytes unless scrypt can reuse one, 128 r p bytes for blocks, and
    256 r bytes to mix them. Nothing else allocates memory for a line.
    """
    return [BEFORE_TABLE + 128 * 2**14 * r, BEFORE_PARTS + 128 * r, BEFORE_PARTS + 256 * r]


WITH_R_32 = allocations_of(r=32)
WITH_R_8 = allocations_of(r=8)
WITH_R_8_IN_A_REUSED_TABLE = WITH_R_8[1:]
SHA256 = b"$5$xxxxxxxx$hP8Y3v5H039Gm6oEwYeXGQOqaUqXVrVPKrFK.zAzZPA"
REFUSED_LINES = b"".join(
    [
        b"ann\n",
        b":x\n",
        b"n" * 65 + b":x\n",
        b"ann:" + b"p" * 1025 + b"\n",
        b"ann:a\0b\n",
        b"l" * 2049 + b"\n",
    ]
)


def allocated(tracer: Tracer, words: list[Word], given: bytes, status: int) -> list[int]:
    """Returns the sizes of a run's allocations. The run must end with this status."""
    traced = tracer.run(words, given)
    assert traced.result.status == status, f"expected status: {status}\n{traced.result}"
    return [call.size for call in traced.calls if call.kind == "memory"]


@pytest.mark.parametrize(
    ("words", "given", "status", "allocations"),
    [
        pytest.param(
            ["--check"], b"ann:%b:password\n" % MD5, 0, [], id="a check by md5crypt, none"
        ),
        pytest.param(
            ["--check"], b"ann:%b:password\n" % SHA256, 0, [], id="a check by sha256crypt, none"
        ),
        pytest.param(["--check"], LINE_OF_16_MIB, 0, WITH_R_8, id="a check by scrypt"),
        pytest.param(
            ["--check"],
            LINE_OF_16_MIB * 2 + LINE_OF_64_MIB + LINE_OF_16_MIB,
            0,
            [*WITH_R_8, *WITH_R_8_IN_A_REUSED_TABLE, *WITH_R_32, *WITH_R_8],
            id="checks by scrypt, the second with the first one's table",
        ),
        pytest.param(
            ["--check", "--rehash", "-m", "scrypt"],
            LINE_OF_16_MIB,
            0,
            [*WITH_R_8, *WITH_R_32],
            id="a new hash by scrypt",
        ),
        pytest.param(
            ["--check", "--rehash", "-m", "scrypt"],
            LINE_OF_16_MIB.replace(b"password", b"passwort"),
            1,
            WITH_R_8,
            id="a wrong password, without a new hash",
        ),
        pytest.param(
            ["--batch", "-m", "md5crypt"], b"ann:password\n", 0, [], id="a hash by md5crypt, none"
        ),
        pytest.param(
            ["--batch", "-m", "sha256crypt"],
            b"ann:password\n",
            0,
            [],
            id="a hash by sha256crypt, none",
        ),
        pytest.param(
            ["--batch", "-m", "sha512crypt"],
            b"ann:password\n",
            0,
            [],
            id="a hash by sha512crypt, none",
        ),
        pytest.param(
            ["--batch", "-m", "scrypt"], b"ann:password\n", 0, WITH_R_32, id="a hash by scrypt"
        ),
        pytest.param(
            ["--batch", "-m", "scrypt", "--budget", "1000"],
            b"ann:password\n",
            1,
            [],
            id="a line over budget, none",
        ),
        pytest.param(["--audit"], LINE_OF_64_MIB, 1, [], id="an audit, none"),
        pytest.param(["--batch", "-m", "scrypt"], REFUSED_LINES, 1, [], id="refused lines, none"),
    ],
)
def test_a_line_allocates_the_memory_of(
    tracer: Tracer, words: list[Word], given: bytes, status: int, allocations: list[int]
) -> None:
    without_lines = allocated(tracer, words, b"", 0)
    assert allocated(tracer, words, given, status) == [*without_lines, *allocations]


# Limits of the address space in kB. The highest has space for both tables, the lowest for neither.
ADDRESSES = [*range(3000, 6500, 500), *range(18500, 24500, 500), 50_000, 65_000, 80_000]


def assert_does_what_it_can(program: Path) -> None:
    """Fails unless the program answers what it can in little memory, and then names the failure."""
    endings = set()
    for kilobytes in ADDRESSES:
        limited = ["sh", "-c", 'ulimit -v "$0" && exec "$@"', kilobytes, program, "--check"]
        result = run(*limited, stdin=LINE_OF_16_MIB + LINE_OF_64_MIB)
        endings.add((result.status, result.stdout, result.stderr))
    message = MESSAGES["memory"]
    assert endings == {(0, b"ann:ok\n" * 2, b""), (3, b"ann:ok\n", message), (3, b"", message)}


def test_with_little_memory_the_program_does_what_it_can(program: Path) -> None:
    assert_does_what_it_can(program)


def test_with_little_memory_the_static_program_does_what_it_can() -> None:
    assert_does_what_it_can(built("build/x86-64/mkpasswd", "static"))


# ---- Reads and writes

BLOCK = 512  # bytes that the program reads at once


def expected_calls(given: list[bytes], answers: list[tuple[int, bytes]]) -> list[Call]:
    """Returns the calls that are due: reads of blocks, and each answer once its line is read."""
    a_read = Call("read", BLOCK, 0)
    calls, length, read = [], 0, 0
    for line, (descriptor, text) in zip(given, answers):
        length += len(line)
        while read < length:
            calls.append(a_read)
            read += BLOCK
        calls.append(Call("write", len(text), descriptor))
    return [*calls, a_read]


def test_each_answer_and_each_message_is_one_write_once_its_line_is_read(tracer: Tracer) -> None:
    given, answers = [], []
    for number in range(1, 3001):
        if number % 7 == 0:
            given.append(b":x\n")
            answers.append((2, b"mkpasswd: line %d: no name\n" % number))
        else:
            given.append(b"ann%d:password\n" % number)
            answers.append((1, b"ann%d:%b\n" % (number, MD5)))
    traced = tracer.run(["--batch", *MD5_WORDS], b"".join(given))
    calls = [call for call in traced.calls if call.kind in ("read", "write")]
    assert calls == expected_calls(given, answers)
