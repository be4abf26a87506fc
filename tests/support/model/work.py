"""The work of a hash, which --work prints, and its cost, which is compared with a budget.

docs/FORMATS.md has the formulas, and says what each term counts.
"""
from __future__ import annotations

from dataclasses import dataclass, replace

from .hashes import second_digest
from .methods import MD5CRYPT, Method
from .settings import SHA_CRYPT, Setting, clamped_rounds, recommended_setting

LONGEST_PASSWORD = 1024
LEAST_LOGIN_LIMIT = 150_000_000
USUAL_LONGEST_PASSWORD = 64  # a limit is twice the cost of hashing a password of this length
HIGHEST_BYTE = 255
LONGEST_HMAC_KEY = 64  # bytes; HMAC digests a longer key first


@dataclass(frozen=True)
class Work:
    """The work of one or more hashes."""

    digests: int = 0
    hashed: int = 0  # bytes that are digested
    mixings: int = 0  # of scrypt's blocks
    memory: int = 0  # bytes of scrypt's table

    def __add__(self, other: Work) -> Work:
        return Work(
            self.digests + other.digests,
            self.hashed + other.hashed,
            self.mixings + other.mixings,
            self.memory + other.memory,
        )

    @property
    def text(self) -> bytes:
        """What --work adds to an answer."""
        return b":%d:%d:%d:%d" % (self.digests, self.hashed, self.mixings, self.memory)


def binary_digits(length: int) -> str:
    """Returns the binary digits of a length, or an empty string for 0."""
    return f"{length:b}" if length else ""


def md5crypt_work(salt: int, password: int) -> Work:
    """Returns the work of md5crypt with a salt and a password of these lengths."""
    two_messages = 2 * (2 * password + salt) + 3 + len(binary_digits(password))
    # 666 of the 1000 rounds also digest the salt, and 857 the password a second time.
    rounds = 1000 * (16 + password) + 666 * salt + 857 * password
    return Work(digests=2 + 1000, hashed=two_messages + rounds)


def sha_crypt_work(setting: Setting, password: int, first_byte: int) -> Work:
    """Returns the work of SHA-crypt with a password of this length.

    `first_byte` is the first byte of the digest that says how often the salt is repeated.
    """
    salt, rounds, width = len(setting.salt), setting.rounds, setting.method.digest_size
    digits = binary_digits(password)
    two_messages = 2 * (2 * password + salt)
    two_messages += digits.count("1") * width + digits.count("0") * password
    repeated = password * password + salt * (16 + first_byte)
    thirds, sevenths = (rounds + 2) // 3, (rounds + 6) // 7  # rounded up
    in_rounds = rounds * (width + password)
    in_rounds += salt * (rounds - thirds)
    in_rounds += password * (rounds - sevenths)
    return Work(digests=4 + rounds, hashed=two_messages + repeated + in_rounds)


def scrypt_work(setting: Setting, password: int) -> Work:
    """Returns scrypt's work with a password of this length, which is the key of HMAC."""
    numbers = setting.scrypt_cost
    salt, blocks = len(setting.salt), numbers.r * numbers.p
    is_long = password > LONGEST_HMAC_KEY
    hashed = 4 * blocks * (164 + salt) + 164 + 128 * blocks
    return Work(
        digests=8 * blocks + (3 if is_long else 2),
        hashed=hashed + (password if is_long else 0),
        mixings=2 * numbers.product // numbers.r,
        memory=numbers.block_size << numbers.log_n,
    )


def work_of_length(setting: Setting, password: int, first_byte: int) -> Work:
    """Returns the work of a hash of a password of this length."""
    if setting.scrypt is not None:
        return scrypt_work(setting, password)
    if setting.method is MD5CRYPT:
        return md5crypt_work(len(setting.salt), password)
    return sha_crypt_work(setting, password, first_byte)


def work_of(setting: Setting, password: bytes) -> Work:
    """Returns the exact work of hashing a password."""
    first_byte = 0
    if setting.method in SHA_CRYPT:
        first_byte = second_digest(setting.method, password, setting.salt)[0]
    return work_of_length(setting, len(password), first_byte)


def cost(setting: Setting, password: int) -> int:
    """Returns the most that hashing a password of this length can cost."""
    work = work_of_length(setting, password, HIGHEST_BYTE)
    mixed = 0 if setting.scrypt is None else setting.scrypt.block_size * work.mixings
    return work.hashed + mixed


def fitted_setting(setting: Setting, limit: int, password: int) -> Setting | None:
    """Returns the setting of a new hash within a limit, for a password of this length.

    That is the given setting, or a SHA-crypt setting with fewer rounds, or None if even the fewest
    rounds cost more.
    """
    if cost(setting, password) <= limit:
        return setting
    if setting.method not in SHA_CRYPT:
        return None
    left = max(0, limit - cost(replace(setting, written_rounds=0), password))
    longest_round = setting.method.digest_size + 2 * password + len(setting.salt)
    fewer = replace(setting, written_rounds=clamped_rounds(left // longest_round))
    return fewer if cost(fewer, password) <= limit else None


def login_limit(method: Method, rounds: int | None, password: int) -> int:
    """Returns what a login and a new hash by this policy may cost if no budget is given.

    That is 0 if a new hash of a password of this length would cost more than the limit.
    """
    setting = recommended_setting(method, rounds)
    limit = max(LEAST_LOGIN_LIMIT, 2 * cost(setting, USUAL_LONGEST_PASSWORD))
    if password > LONGEST_PASSWORD or cost(setting, password) > limit:
        return 0
    return limit
