"""The field of a name in a password file: marks that lock it, a prefix, and the stored hash.

Dovecot and OpenLDAP have prefixes, such as {CRYPT} or {SHA512-CRYPT}. A mark comes before or after
the prefix.
"""

from __future__ import annotations

import binascii
import re
from typing import NamedTuple, Optional

import mkpasswd

FORM = re.compile(rb"([!*]*)((?:\{[A-Za-z0-9.-]+\})?)([!*]*)(.*)", re.DOTALL)
LOCK = b"!"
# The prefix for a hash of any method, and those for one method.
ANY_METHOD = b"{CRYPT}"
PREFIXES = {
    "sha512crypt": b"{SHA512-CRYPT}",
    "sha256crypt": b"{SHA256-CRYPT}",
    "md5crypt": b"{MD5-CRYPT}",
}
# Any of these prefixes at the beginning of a field, in capital or small letters.
FOR_CRYPT = re.compile(
    rb"(?i)\A(?:" + b"|".join(map(re.escape, (ANY_METHOD, *PREFIXES.values()))) + rb")"
)
# Prefixes of hashes that aren't crypt's. After any other prefix, such as {PLAIN}, there may be a
# plain password, and a mark may be a part of it.
OF_OTHER_SCHEMES = re.compile(
    rb"(?i)\{(?:S?MD5|S?SHA(?:256|384|512)?|BLF-CRYPT|ARGON2(?:I|ID)?|PBKDF2(?:-SHA(?:256|512))?"
    rb"|SCRAM-SHA-(?:1|256))\}"
)
# The prefixes of digests in Base64, most of them with a salt behind the digest, and how many bytes
# each digest has.
OF_DIGESTS = re.compile(rb"(?i)\{(S?)(MD5|SHA|SHA256|SHA384|SHA512)\}")
DIGEST_BYTES = {b"MD5": 16, b"SHA": 20, b"SHA256": 32, b"SHA384": 48, b"SHA512": 64}
BASE64 = re.compile(rb"([A-Za-z0-9+/]*)={0,2}")
# Prefixes of digests in other forms, none of which is shorter than a digest of 16 bytes in Base64.
OF_OTHER_DIGESTS = re.compile(rb"(?i)\{(?:PBKDF2(?:-SHA(?:256|512))?|SCRAM-SHA-(?:1|256))\}")
LONG_ENOUGH = re.compile(rb"[!-~]{22,}")
# Whole hashes of other methods of crypt(3) and its like, by their form: an identifier that some
# system uses, then what belongs behind it. Any other text may be a password that begins with a $.
OF_OTHER_METHODS = re.compile(
    rb"\$2[abxy]?\$[0-9]{2}\$[./0-9A-Za-z]{53}"  # bcrypt
    rb"|\$g?y\$[./0-9A-Za-z]+\$[./0-9A-Za-z]*\$[./0-9A-Za-z]{43}"  # yescrypt, gost-yescrypt
    rb"|\$apr1\$[./0-9A-Za-z]{0,8}\$[./0-9A-Za-z]{22}"  # Apache's
    rb"|\$argon2(?:i|d|id)\$(?:v=[0-9]+\$)?m=[0-9]+,t=[0-9]+,p=[0-9]+(?:\$[+/0-9A-Za-z]+){2}"
    rb"|\$sha1\$[0-9]+\$[./0-9A-Za-z]*\$[./0-9A-Za-z]{28}"  # of NetBSD
    rb"|\$md5[$,][^:]*\$[./0-9A-Za-z]{22}"  # of Solaris
    rb"|\$3\$\$[0-9a-f]{32}"  # NTLM, of FreeBSD
    rb"|\$[PH]\$[./0-9A-Za-z]{31}"  # phpass
    rb"|\$pbkdf2(?:-sha(?:256|512))?\$[0-9]+\$[./0-9A-Za-z]+\$[./0-9A-Za-z]+"  # passlib's
)
ENCODED = "a hash in Base64, as LDIF writes it: decode it first (base64 -d)"
# The states of whole hashes: neither a plain password nor a damaged hash.
HASHES = (
    mkpasswd.State.CURRENT,
    mkpasswd.State.OUTDATED,
    mkpasswd.State.OVER_BUDGET,
    mkpasswd.State.UNKNOWN,
)
# The states of damaged hashes, which services treat as hashes.
DAMAGED = (mkpasswd.State.DEAD, mkpasswd.State.MALFORMED)


class Field(NamedTuple):
    """What a line has after its name, up to the next colon."""

    outer_mark: bytes
    prefix: bytes
    mark: bytes
    stored: bytes

    @property
    def is_locked(self) -> bool:
        """Whether it has a mark, so that no password logs in."""
        return bool(self.outer_mark or self.mark)

    @property
    def is_surely_locked(self) -> bool:
        """Whether the mark can't be part of a plain password, as it can after {PLAIN}."""
        if self.outer_mark:
            return True
        return bool(self.mark) and (self.is_for_crypt or self.is_of_other_scheme)

    @property
    def is_for_crypt(self) -> bool:
        """Whether crypt(3) checks what is stored, judging by the prefix."""
        prefix = self.prefix.upper()
        return prefix in (b"", ANY_METHOD) or prefix.endswith(b"-CRYPT}")

    @property
    def is_of_other_scheme(self) -> bool:
        """Whether the prefix is that of a hash that isn't crypt's."""
        return OF_OTHER_SCHEMES.fullmatch(self.prefix) is not None

    @property
    def is_of_other_method(self) -> bool:
        """Whether it has a whole hash of another method, judging by its form."""
        return OF_OTHER_METHODS.fullmatch(self.stored) is not None

    @property
    def is_whole_of_others(self) -> bool:
        """Whether it has a whole hash that isn't one of ours, judging by its form."""
        if self.is_of_other_method:
            return True
        if OF_DIGESTS.fullmatch(self.prefix):
            return is_digest(self.prefix, self.stored)
        is_other = OF_OTHER_DIGESTS.fullmatch(self.prefix) is not None
        return is_other and LONG_ENOUGH.fullmatch(self.stored) is not None

    @property
    def looks_whole(self) -> bool:
        """Whether it has a whole hash, judging by its form if that isn't one of ours."""
        if self.is_for_crypt:
            return mkpasswd.describe(self.stored).state in HASHES
        return self.is_of_other_scheme and self.is_whole_of_others

    @property
    def has_known_prefix(self) -> bool:
        """Whether it has the prefix of a scheme whose hashes pwhash knows by it."""
        return FOR_CRYPT.fullmatch(self.prefix) is not None or self.is_of_other_scheme

    def data(self) -> bytes:
        """Returns the field as it is in the file."""
        return b"".join(self)

    def unlocked(self) -> Field:
        """Returns the field without its marks."""
        return Field(b"", self.prefix, b"", self.stored)

    def has_hash(self) -> bool:
        """Returns whether a whole hash is stored, with or without a mark."""
        if self.is_of_other_scheme:
            return bool(self.stored)
        return self.is_for_crypt and mkpasswd.describe(self.stored).state in HASHES

    def can_be_locked(self) -> bool:
        """Returns whether a mark would lock the field, not just become part of a plain password."""
        if self.is_of_other_scheme or not self.data():
            return True
        return self.is_for_crypt and mkpasswd.describe(self.stored).state in (*HASHES, *DAMAGED)


NONE = Field(b"", b"", b"", b"")


def is_digest(prefix: bytes, stored: bytes) -> bool:
    """Returns whether a value is as long as the digest that its prefix, such as {SSHA}, names."""
    named, found = OF_DIGESTS.fullmatch(prefix), BASE64.fullmatch(stored)
    if named is None or found is None:
        return False
    size, digest_size = len(found[1]) * 3 // 4, DIGEST_BYTES[named[2].upper()]
    return size > digest_size if named[1] else size == digest_size


def field_of(data: bytes) -> Field:
    """Returns the parts of a field."""
    found = FORM.fullmatch(data)
    assert found is not None  # each part may be empty
    return Field(*found.groups())


def is_of_password_file(found: Field) -> bool:
    """Returns whether a field has a hash, whole or damaged, a prefix of one, or a mark."""
    if found.is_locked or found.prefix:
        return True
    return mkpasswd.describe(found.stored).state in (*HASHES, *DAMAGED)


def is_encoded(stored: bytes) -> bool:
    """Returns whether this is the Base64 of a field with a prefix such as {SSHA}, or its beginning.

    LDIF writes values in Base64, and continues long ones on the next line.
    """
    found = BASE64.fullmatch(stored)
    if found is None:
        return False
    whole = len(found[1]) // 4 * 4  # four characters stand for three bytes
    decoded = field_of(binascii.a2b_base64(found[1][:whole]))
    return decoded.has_known_prefix and bool(decoded.stored)


def encoded_value(rest: bytes) -> bytes:
    """Returns the Base64 of a field in what follows a name and its colon, or nothing.

    LDIF has a second colon and a blank in front of it, as in userPassword:: e1NTSEF9..
    """
    first, _, others = rest.partition(b":")
    value = first or others.strip()
    return value if is_encoded(value) else b""


def without_prefix(field: bytes) -> bytes:
    """Returns a field without a prefix for hashes of crypt(3), such as {CRYPT}."""
    return FOR_CRYPT.sub(b"", field, count=1)


def method_of_prefix(prefix: bytes) -> Optional[str]:
    """Returns the method that a prefix names, or None."""
    for method, name in PREFIXES.items():
        if prefix.upper() == name:
            return method
    return None


def fits(prefix: bytes, method: str) -> bool:
    """Returns whether a hash of the method may follow a prefix."""
    return prefix.upper() in (b"", ANY_METHOD, PREFIXES.get(method))
