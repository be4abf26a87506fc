"""The policy of a service, whose methods are the package's calls, and the types of their results.

Commands that are started often import the package, so its modules import nothing slow.
"""
from __future__ import annotations

import enum
import functools
import importlib
from typing import TYPE_CHECKING, Dict, NamedTuple, Optional, Tuple

from . import _calls, _library
from ._calls import Text
from ._library import Answer
from ._message import message
from ._reasons import Reason

if TYPE_CHECKING:
    import logging


class State(enum.Enum):
    """What a stored field is, according to describe(). The value is the word that an audit prints.

    CURRENT      a whole hash that no new one should replace: needs_rehash() is False
    OUTDATED     a whole hash that a new one should replace: needs_rehash() is True
    DEAD         a valid setting, but no password matches, since the hash was cut or changed
    OVER_BUDGET  a hash that costs too much, at least with a long password
    LOCKED       begins with "!" or "*"
    NONE         is empty, or None
    NO_SCHEME    no hash: a password that was stored as it is, or a damaged hash
    UNKNOWN      a hash of another scheme, such as yescrypt, about which nothing more is known
    MALFORMED    an invalid setting; the description's `reason` says why
    """

    CURRENT = "current"
    OUTDATED = "outdated"
    DEAD = "dead"
    OVER_BUDGET = "over budget"
    LOCKED = "locked"
    NONE = "none"
    NO_SCHEME = "no scheme"
    UNKNOWN = "unknown"
    MALFORMED = "malformed"


_STATES: Dict[Optional[Reason], State] = {
    Reason.LOCKED: State.LOCKED,
    Reason.NO_HASH: State.NONE,
    Reason.NO_SCHEME: State.NO_SCHEME,
    Reason.UNKNOWN_SCHEME: State.UNKNOWN,
    Reason.OVER_BUDGET: State.OVER_BUDGET,
    Reason.DEAD: State.DEAD,
    **dict.fromkeys(_calls.NO_SETTING - {Reason.UNKNOWN_SCHEME}, State.MALFORMED),
}


class Description(NamedTuple):
    """What describe() returns. str() of it is what `mkpasswd --audit` prints after the name.

    An attribute is None if it doesn't apply to the field.

    state    a State
    scheme   the name in crypt(5) of the method, or of another scheme if that is known
    cost     the most that a hash with this setting can cost, for a password of 1,024 bytes
    rounds   those of SHA-crypt and md5crypt
    n, r, p  scrypt's numbers
    reason   the first rule that a malformed setting breaks, a Reason
    """

    state: State
    scheme: Optional[str] = None
    cost: Optional[int] = None
    rounds: Optional[int] = None
    n: Optional[int] = None
    r: Optional[int] = None
    p: Optional[int] = None
    reason: Optional[Reason] = None

    def __str__(self) -> str:
        if self.reason is not None:
            return f"{self.state.value}:{self.reason.message}"
        if self.scheme is None:
            return self.state.value
        if self.cost is None:
            return f"{self.scheme}:{self.state.value}"
        rounds = self.rounds if self.n is None else f"{self.n}/{self.r}/{self.p}"
        return f"{self.scheme}:{rounds}:{self.cost}:{self.state.value}"


class Limit(NamedTuple):
    """What limit() returns.

    cost              the most that a hash may cost, as cost() counts it
    longest_password  the length in bytes of the longest password that hash() accepts, or 0
    rounds            those of new hashes; 0 for md5crypt, and if hash() accepts no password
    """

    cost: int
    longest_password: int
    rounds: int


class Policy:
    """The method and rounds of a service's new hashes, and what a hash may cost.

    >>> policy = mkpasswd.Policy("scrypt", rounds=7)
    >>> stored = policy.hash("password")
    >>> policy.login("password", field=stored)
    True

    `method` is "sha512crypt", "sha256crypt", "scrypt" or "md5crypt". `rounds` is the number of
    rounds of SHA-crypt, 1000 to 999999999; for scrypt it is 6 to 11, for N = 2^(rounds + 7), r = 32
    and p = 1. None and 0 stand for the recommended number. md5crypt ignores it.

    `budget` is the most that a hash may cost, as cost() counts it. None stands for twice the cost
    of a new hash of a password of 64 bytes, but at least 150,000,000; limit() says how much that
    is. With the recommended rounds, a budget of 1,300,000,000 allows every password.

    If the budget is below the cost of a new hash, login() refuses unknown names at once, which
    shows that they don't exist.

    Raises TypeError for another type, including a float or a bool; ValueError for a budget below 1;
    Refused, which is a ValueError, for an unknown method or rounds out of its range.
    """

    __slots__ = ("_method", "_rounds", "_budget", "_numbers", "_limit")

    def __init__(
        self,
        method: str = "sha512crypt",
        rounds: Optional[int] = None,
        budget: Optional[int] = None,
    ) -> None:
        self._numbers = _calls.policy_numbers(method, rounds, budget)
        self._method = str.__str__(method)
        self._rounds = None if rounds is None else self._numbers.rounds
        self._budget = None if budget is None else self._numbers.budget
        policy_limit = _calls.policy_limit(self._numbers, self._method).report
        self._limit = Limit(policy_limit.cost, policy_limit.length, policy_limit.rounds)

    # Properties without a setter, so that a policy can't change.
    @property
    def method(self) -> str:
        """The method of new hashes."""
        return self._method

    @property
    def rounds(self) -> Optional[int]:
        """The rounds that were given."""
        return self._rounds

    @property
    def budget(self) -> Optional[int]:
        """The budget that was given."""
        return self._budget

    def _parts(self) -> Tuple[str, Optional[int], Optional[int]]:
        return self._method, self._rounds, self._budget

    def __eq__(self, other: object) -> bool:
        return isinstance(other, Policy) and self._parts() == other._parts()

    def __hash__(self) -> int:
        return self._parts().__hash__()

    def __repr__(self) -> str:
        method, rounds, budget = self._parts()
        return f"Policy(method={method!r}, rounds={rounds!r}, budget={budget!r})"

    def __reduce__(self) -> Tuple[object, ...]:
        return Policy, self._parts()

    def login(self, password: Text, *, field: Optional[Text]) -> bool:
        """Return True exactly if the password matches the field that is stored for a name.

        `field` is None for a name that does not exist.

        >>> mkpasswd.login("password", field="$1$xxxxxxxx$UYCIxa628.9qXjpQCjM4a.")
        True
        >>> mkpasswd.login("password", field=None)
        False

        It is False for a wrong password, and for a password that can't be hashed; for a field that
        is empty, locked, malformed, of another scheme, or that costs more than the budget; and if
        there is too little memory for scrypt.

        How long it takes depends on the field and the password:

        - A stored hash takes as long as its rounds need. An old one with fewer rounds than this
          policy's takes less time than a new hash. While such hashes are stored, the time of a
          failure can show which names exist; mkpasswd.fixed_time hides that.
        - A field that can't be checked takes as long as a new hash, and so does None. So an unknown
          name takes as long as a user whose hash is new.
        - A password that can't be hashed is refused at once, for every name. So is one that is
          longer than limit().longest_password, unless the policy has a budget of its own.

        The logger "mkpasswd" says at level DEBUG why it is False. Its message contains neither the
        password nor the field.

        Raises TypeError for what is neither str nor bytes, and nothing else.
        """
        stored = b"" if field is None else _calls.encode(field, "field")
        try:
            secret = _calls.encode_password(password)
        except ValueError as error:
            _logger().debug("login refused: %s", error)
            return False
        answer = _library.login(secret, stored, self._numbers)
        if not answer.is_yes:
            _logger().debug("login refused: %s", message(answer.report.error))
        return answer.is_yes

    def needs_rehash(self, stored: Text) -> bool:
        """Return whether a new hash by this policy should replace the stored one.

        It is True if the new hash would have another method, whatever the stored one costs; more
        rounds; or for scrypt a greater N * r * p. It is False for a hash with as many rounds or
        more, and for an empty or locked field. No password is checked.

        >>> mkpasswd.needs_rehash("$6$rounds=20000$salt$x")
        True
        >>> mkpasswd.Policy(rounds=10000).needs_rehash("$6$rounds=20000$salt$x")
        False

        Raises Refused if the stored hash is not one of these methods or has no valid setting.
        """
        field = _calls.encode(stored, "stored")
        answer = _library.needs_rehash(field, self._numbers)
        if answer.report.error == 0:
            return answer.report.outdated == 1
        # To the library's needs_rehash a locked field is invalid; only an audit recognizes it.
        if self.describe(field).state in (State.LOCKED, State.NONE):
            return False
        raise _calls.error_from(answer)

    def hash(self, password: Text) -> str:
        """Return the hash of a new password, with a salt from the system.

        >>> mkpasswd.hash("password").startswith("$6$rounds=656000$")
        True

        Raises ValueError if the password can't be hashed because it has a zero byte, a lone
        surrogate or more than 1,024 bytes. Raises TooCostly, which is a ValueError too, if the hash
        would cost more than the budget, so that login() would not accept it. In either case nothing
        is hashed.

        Raises MemoryError if there is too little memory for scrypt, and OSError if the system has
        no random bytes.
        """
        answer = _library.new(_calls.encode_password(password), self._numbers)
        if not answer.is_yes:
            raise _calls.error_from(answer, self._limit.cost)
        return answer.text

    def describe(self, field: Optional[Text]) -> Description:
        """Return what `mkpasswd --audit` says about a stored field. Nothing is hashed.

        >>> mkpasswd.describe("$1$xxxxxxxx$UYCIxa628.9qXjpQCjM4a.").state
        <State.OUTDATED: 'outdated'>
        >>> mkpasswd.describe("$1$xxxxxxxx$UYCIxa628.9qXjpQ").state
        <State.DEAD: 'dead'>
        >>> str(mkpasswd.describe("$6$rounds=20000$salt$x"))
        'sha512crypt:20000:40430808:dead'
        >>> str(mkpasswd.describe("$6$rounds=0$salt$x"))
        'malformed:bad rounds'

        A hash is over budget if a password of 1,024 bytes can cost more than the policy's budget.
        If the policy has none, a hash is over budget in two cases:

        - A password of 1,024 bytes can cost more than with this policy's method and rounds, and
          more than with the recommended ones.
        - Even the empty password costs more than the policy's limit, so login() is always False.

        In the first case login() can still be True, for a shorter password. So audit hashes with
        the policy that made them.

        Raises TypeError for what is neither str nor bytes, and nothing else.
        """
        text = b"" if field is None else _calls.encode(field, "field")
        answer = _library.audit(text, self._numbers)
        state = _state_of(answer)
        if state in (State.LOCKED, State.NONE, State.NO_SCHEME):
            return Description(state)
        if state is State.MALFORMED:
            return Description(state, reason=answer.reason)
        report = answer.report
        scheme = _scheme_name(report.scheme)
        if state is State.UNKNOWN:
            return Description(state, scheme)
        if report.n:
            return Description(state, scheme, report.cost, None, report.n, report.r, report.p)
        return Description(state, scheme, report.cost, report.rounds)

    def limit(self) -> Limit:
        """Return what this policy allows: the most that a hash may cost, and the longest password.

        >>> mkpasswd.limit()
        Limit(cost=253921472, longest_password=168, rounds=656000)

        The cost is the budget, or what None stands for. hash() accepts every password of up to
        `longest_password` bytes, and raises TooCostly for a longer one; see for_length().
        """
        return self._limit

    def cost(self, stored: Text, password_len: int) -> int:
        """Return the most that a hash with this setting can cost, for a password of this length.

        The cost is what a budget limits: the number of bytes that the hash digests, and for scrypt
        also of those that it mixes. `password_len` is in bytes. The cost is the same for every
        policy, and nothing is hashed.

        Don't log it: together with the setting, it shows how long the password is.

        >>> mkpasswd.cost("$1$xxxxxxxx$UYCIxa628.9qXjpQCjM4a.", 8)
        36239

        Raises Refused if the stored hash is not one of these methods or has no valid setting, and
        for an empty or locked field.
        """
        field = _calls.encode(stored, "stored")
        answer = _library.bound(field, _calls.require_length(password_len))
        if not answer.is_yes:
            raise _calls.error_from(answer)
        return answer.report.cost

    def setting(self, salt: Optional[Text] = None) -> str:
        """Return a setting for crypt.crypt(), with this salt, or with a new one if it is None.

        >>> mkpasswd.Policy().setting("saltstring")
        '$6$rounds=656000$saltstring'

        Give each password a salt of its own, as hash() does: passwords with the same salt can be
        guessed together.

        Raises Refused if the salt is empty, too long for the method, or has a character other than
        ./0-9A-Za-z.
        """
        given = _calls.new_salt(self._method) if salt is None else salt
        answer = _library.setting(self._numbers, _calls.encode(given, "salt"))
        if not answer.is_yes:
            raise _calls.error_from(answer)
        return answer.text

    def for_length(self, password_len: int) -> Policy:
        """Return a policy with which a password of this length is within this policy's limit.

        It is this policy itself if that allows the password, and otherwise one with fewer rounds of
        SHA-crypt. It is for services that can't refuse long passwords. `password_len` is in bytes.

        A hash with fewer rounds shows whoever sees it about how long the password is, and this
        policy's needs_rehash() is True for it.

        >>> mkpasswd.Policy().for_length(1024)
        Policy(method='sha512crypt', rounds=118822, budget=253921472)

        Raises TooCostly if even the fewest rounds cost more than the policy's budget, and
        ValueError above 1,024 bytes.
        """
        answer = _library.rounds(_calls.require_length(password_len), self._numbers)
        if not answer.is_yes:
            raise _calls.error_from(answer, self._limit.cost)
        if answer.report.rounds == self._limit.rounds:
            return self
        return Policy(self._method, answer.report.rounds, self._limit.cost)


def _state_of(answer: Answer) -> State:
    """Returns the state that an audit reports."""
    # The scheme is 0 in a report that no call has filled in.
    if answer.report.error == 0 and answer.report.scheme != 0:
        return State.OUTDATED if answer.report.outdated == 1 else State.CURRENT
    state = _STATES.get(answer.reason)
    if state is None:
        raise _calls.error_from(answer)
    return state


@functools.lru_cache(maxsize=None)
def _scheme_name(number: int) -> Optional[str]:
    """Returns the name of the scheme that an audit reports, or None if it reports none."""
    return _library.scheme_name(number) if number else None


@functools.lru_cache(maxsize=None)
def _logger() -> logging.Logger:
    """Returns the logger "mkpasswd", and imports logging only now, since that takes long."""
    logger: logging.Logger = importlib.import_module("logging").getLogger("mkpasswd")
    return logger


RECOMMENDED = Policy()
hash_by_recommended = RECOMMENDED.hash
