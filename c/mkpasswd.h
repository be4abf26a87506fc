/* mkpasswd hashes and checks passwords with the crypt(5) methods md5crypt ($1$), sha256crypt ($5$),
 * sha512crypt ($6$) and scrypt ($7$). This header is for C99 and C++98, and later ones; link with
 * -lmkpasswd. libmkpasswd(3) is the manual. A login is
 *
 *     if (mkpasswd_login(mkpasswd_password(typed), mkpasswd_field(stored), NULL, NULL))
 *         let_in();
 *
 * and a new hash is
 *
 *     char hash[MKPASSWD_TEXT_SIZE];
 *
 *     if (mkpasswd_new(mkpasswd_password(typed), NULL, hash, sizeof hash, NULL))
 *         store(hash);
 *
 * Each call returns true for yes: the password matches, the stored hash is outdated (for
 * mkpasswd_audit(): is current), the limit is reported, or `out` has the result. It returns false
 * in every other case. The return value is the whole answer; the report only says why, for a log.
 *
 * Passwords and fields have separate types, so a compiler rejects them in the wrong order. It can't
 * notice when a caller makes a field from what was typed and a password from what is stored. Such a
 * login lets in everybody who types a hash of the stored string, even if that string is `!`, a hash
 * or empty.
 *
 * Pointers may be null. A null password is refused like one with a zero byte, a null field counts
 * as an unknown name, a null salt is empty, a null policy is the recommended one, a null `out` has
 * a size of 0, and a null report is not written.
 *
 * If several errors apply, the first one in this order is reported: password, setting, method,
 * salt, rounds, budget, size of `out`, random numbers, memory. For mkpasswd_login() and
 * mkpasswd_audit() the order is password, method, rounds, field, budget, memory. There is one
 * exception: if a login can't check the stored hash and has no memory for the dummy hash that it
 * makes instead, it reports the memory error, not the field's.
 *
 * After an error, mkpasswd_new(), mkpasswd_hash() and mkpasswd_setting() leave the string "*0" in
 * `out` ("*1" if the given setting begins with "*0"), cut to fit. No password matches it, so a
 * caller who stores it unchecked locks the account, if `out` has 3 bytes or more. Bytes after its
 * zero byte are unchanged.
 *
 * No call keeps a pointer or state, so any number of threads may call at once, even with the same
 * input. Only mkpasswd_new() asks the system for anything but memory: 24 random bytes from
 * getentropy(3), which sets errno if it fails.
 *
 * The caller makes sure of this:
 * - A pointer that isn't null is valid for its number of bytes.
 * - `out` and the report overlap nothing else that is passed to the call.
 * - Until the call returns, no other thread writes to its input, or reads or writes its output.
 * - malloc and free belong to one allocator of private memory, which aligns a block to every power
 *   of two up to 16 that divides its size, as the C library's does.
 * - No call is made in a signal handler or, if a process with threads calls fork(2), in the child
 *   before execve(2).
 * - 64 KiB of stack are free. A call uses about 25 KiB.
 *
 * The calls that hash wipe the stack that they used, the memory that they free and, if the
 * library's compiler supports it, the registers, except the vector registers that AVX-512 adds. The
 * caller wipes its own copies of the password and the hash. The time of a call can reveal its
 * input: scrypt reads its table at places that depend on the password. If the new hash is as long
 * as the stored one, all bytes are compared, wherever the two differ. */
#ifndef MKPASSWD_H
#define MKPASSWD_H

#ifndef __cplusplus
#include <stdbool.h>
#endif
#include <stddef.h>
#include <stdint.h>
#include <string.h>

#ifdef __cplusplus
extern "C" {
#endif

/* gcc and clang warn about an ignored result, and about a null pointer that is passed to an
 * exported function that doesn't accept null. Input isn't declared nonnull, since a compiler could
 * then drop a caller's own test for null after a call. gcc also warns if it can see that `out` has
 * fewer bytes than `out_size`. */
#if defined __GNUC__ || defined __clang__
#define MKPASSWD_EXPORT __attribute__((visibility("default"), nothrow))
#define MKPASSWD_CHECKED __attribute__((warn_unused_result))
#define MKPASSWD_NONNULL(place) __attribute__((nonnull(place)))
#else
#define MKPASSWD_EXPORT
#define MKPASSWD_CHECKED
#define MKPASSWD_NONNULL(place)
#endif
#if defined __clang__
#pragma clang diagnostic push
#pragma clang diagnostic ignored "-Wgcc-compat" /* of -pedantic: gcc has no diagnose_if */
#define MKPASSWD_READS(bytes, place, length)                                                       \
    __attribute__((diagnose_if(!(bytes), "null where nonnull is wanted", "warning")))
#define MKPASSWD_WRITES(out, size)
#elif defined __GNUC__ && __GNUC__ >= 10
#define MKPASSWD_READS(bytes, place, length) __attribute__((access(read_only, place, length)))
#define MKPASSWD_WRITES(out, size) __attribute__((access(write_only, out, size)))
#else
#define MKPASSWD_READS(bytes, place, length)
#define MKPASSWD_WRITES(out, size)
#endif

/* The version: 10000 * major + 100 * minor + patch. */
#define MKPASSWD_VERSION 30000

/* The size of a buffer for any hash, setting, message or name of a scheme, with its zero byte. */
#define MKPASSWD_TEXT_SIZE 145

/* The longest password, in bytes. */
#define MKPASSWD_PASSWORD_LIMIT 1024

/* Methods, numbered as in their prefixes. */
#define MKPASSWD_MD5CRYPT 1
#define MKPASSWD_SHA256CRYPT 5
#define MKPASSWD_SHA512CRYPT 6
#define MKPASSWD_SCRYPT 7

/* Other schemes of crypt(5), which mkpasswd_audit() recognizes by their form. */
#define MKPASSWD_YESCRYPT 101
#define MKPASSWD_GOST_YESCRYPT 102
#define MKPASSWD_BCRYPT 103
#define MKPASSWD_NT 104
#define MKPASSWD_SHA1CRYPT 105
#define MKPASSWD_SUNMD5 106
#define MKPASSWD_BSDICRYPT 107
#define MKPASSWD_DESCRYPT 108

/* Why a call did not do what its name says: the values of a report's `error` other than 0. Each
 * comment begins with the message of mkpasswd_message(), up to a colon. A newer library may report
 * a number that isn't listed here; that is a failure too. */
enum mkpasswd_error {
    /* password too long: more than MKPASSWD_PASSWORD_LIMIT bytes */
    MKPASSWD_ERROR_PASSWORD_TOO_LONG = 1,
    /* password has a zero byte */
    MKPASSWD_ERROR_PASSWORD_ZERO_BYTE = 2,
    /* setting too long: more than 384 bytes */
    MKPASSWD_ERROR_SETTING_TOO_LONG = 3,
    /* bad character: one that no setting may have, such as a line feed */
    MKPASSWD_ERROR_BAD_CHARACTER = 4,
    /* unknown scheme: none of $1$, $5$, $6$, $7$ */
    MKPASSWD_ERROR_UNKNOWN_SCHEME = 5,
    /* bad rounds: `rounds=` without a valid number */
    MKPASSWD_ERROR_BAD_ROUNDS = 6,
    /* bad cost: scrypt's is not eleven characters of ./0-9A-Za-z */
    MKPASSWD_ERROR_BAD_COST = 7,
    /* scrypt range: N, r or p is invalid */
    MKPASSWD_ERROR_SCRYPT_RANGE = 8,
    /* above ceiling: N * r * p is above 8388608 */
    MKPASSWD_ERROR_ABOVE_CEILING = 9,
    /* bad salt: invalid for scrypt */
    MKPASSWD_ERROR_BAD_SALT = 10,
    /* unknown method */
    MKPASSWD_ERROR_UNKNOWN_METHOD = 11,
    /* salt length: empty, or longer than the method keeps */
    MKPASSWD_ERROR_SALT_LENGTH = 12,
    /* salt character: one that is none of ./0-9A-Za-z */
    MKPASSWD_ERROR_SALT_CHARACTER = 13,
    /* rounds out of range: the method does not take them */
    MKPASSWD_ERROR_ROUNDS = 14,
    /* locked: the field begins with ! or * */
    MKPASSWD_ERROR_LOCKED = 15,
    /* no hash: the field is empty */
    MKPASSWD_ERROR_NO_HASH = 16,
    /* no scheme: the field may be a password or a damaged hash */
    MKPASSWD_ERROR_NO_SCHEME = 17,
    /* over budget: the hash can cost more than the budget */
    MKPASSWD_ERROR_OVER_BUDGET = 18,
    /* too few bytes: `out` is too small for the result and a zero byte */
    MKPASSWD_ERROR_TOO_FEW_BYTES = 19,
    /* no random numbers: the system gave none */
    MKPASSWD_ERROR_NO_RANDOM_NUMBERS = 20,
    /* out of memory: scrypt alone allocates */
    MKPASSWD_ERROR_OUT_OF_MEMORY = 21,
    /* wrong password */
    MKPASSWD_ERROR_WRONG_PASSWORD = 22,
    /* dead: no password matches the hash, which was cut or changed */
    MKPASSWD_ERROR_DEAD = 23
};

/* A password. mkpasswd_password() and mkpasswd_password_bytes() make one. */
struct mkpasswd_password {
    const uint8_t *bytes;
    size_t length;
};

/* What is stored for a name. mkpasswd_field() and mkpasswd_field_bytes() make one. */
struct mkpasswd_field {
    const uint8_t *bytes;
    size_t length;
};

/* How a service hashes new passwords, and what a hash may cost. A service gives the same policy to
 * all its calls. A member that is 0 stands for the recommended value, and a null pointer for a
 * policy of zeros.
 */
struct mkpasswd_policy {
    /* One of the methods; 0 is MKPASSWD_SHA512CRYPT. */
    uint32_t method;
    /* 1000 to 999999999 for SHA-crypt, where 0 is 656000. 6 to 11 for scrypt, where 0 is 7; they
     * stand for N = 2^(rounds + 7), r = 32 and p = 1. md5crypt ignores them. */
    uint32_t rounds;
    /* The most bytes that a hash may digest and mix, counted as in a report's `cost`. 0 is twice
     * the cost of this policy's new hash of a password of 64 bytes, but at least 150000000, which
     * can take more than a second. (`pwhash calibrate` finds a budget for a time.) No password can
     * raise it: one so long that its new hash would cost more is refused at once, whatever is
     * stored. mkpasswd_limit() reports the longest password that is accepted, and the limit. A
     * large enough budget of your own allows all passwords of up to MKPASSWD_PASSWORD_LIMIT bytes.
     *
     * Only scrypt needs memory: 64 MiB for each new hash at its recommended rounds, and never more
     * than half as many bytes as the budget. */
    uint64_t budget;
};

/* The work of a hash. Each count is below 2^41. */
struct mkpasswd_work {
    uint64_t digests; /* digests made */
    uint64_t bytes;   /* bytes digested */
    uint64_t mixes;   /* mixings of 2r blocks of 64 bytes; scrypt alone */
    uint64_t table;   /* bytes of scrypt's table */
    uint64_t scratch; /* bytes of scrypt's scratch memory */
};

/* What a call reports. Each call that takes a report fills in all of it. */
struct mkpasswd_report {
    /* 0, or one of enum mkpasswd_error: why the call did not do what its name says.
     * mkpasswd_needs_rehash() reports 0 whether its answer is yes or no, and mkpasswd_audit() for
     * both a current and an outdated hash. */
    uint32_t error;
    /* 1 if mkpasswd_login(), mkpasswd_needs_rehash() or mkpasswd_audit() reports no error and a new
     * hash by the policy would replace the stored one, else 0. After mkpasswd_login() it is 1 only
     * if that returned true: then store a new hash of the password from mkpasswd_new(), unless the
     * field has changed since it was checked. */
    uint32_t outdated;
    /* The number of bytes in `out`, without the zero byte. From mkpasswd_limit() the length of the
     * longest password. Otherwise, and after an error, 0. */
    uint32_t length;
    /* From mkpasswd_audit() the method or other scheme of the stored hash; else 0. */
    uint32_t scheme;
    /* From mkpasswd_limit() and mkpasswd_rounds() the rounds of new hashes (0 for md5crypt), from
     * mkpasswd_audit() those of the stored hash (1000 for md5crypt, 0 for scrypt); else 0. */
    uint32_t rounds;
    /* From mkpasswd_audit() scrypt's N, r and p; else 0. */
    uint32_t n;
    uint32_t r;
    uint32_t p;
    /* The most that a hash with this setting can cost for a password of this length: the number of
     * bytes that it digests and mixes, below 2^42. If password and setting (or method and rounds)
     * are valid, it is reported after an error too. From mkpasswd_login() it is the cost of the
     * stored hash, from mkpasswd_audit() that cost for MKPASSWD_PASSWORD_LIMIT bytes, from
     * mkpasswd_limit() the limit, and from mkpasswd_rounds() the cost of a hash with these rounds.
     * mkpasswd_needs_rehash() and mkpasswd_setting() report 0. */
    uint64_t cost;
    /* The work that the call did: all 0 if it neither hashed nor allocated. From mkpasswd_bound()
     * the most work that a hash can need.
     */
    struct mkpasswd_work work;
};

/* ---- Passwords and fields ---- */

/* Makes a password from a string. */
static inline struct mkpasswd_password mkpasswd_password(const char *text);

/* Makes a password from bytes. The calls refuse one with a zero byte. */
static inline struct mkpasswd_password mkpasswd_password_bytes(const void *bytes, size_t length);

/* Makes a field from a string. */
static inline struct mkpasswd_field mkpasswd_field(const char *text);

/* Makes a field from bytes. */
static inline struct mkpasswd_field mkpasswd_field_bytes(const void *bytes, size_t length);

/* ---- What a service calls ---- */

/* Checks the password of a login. Returns true exactly if the policy's method and rounds are valid,
 * the password matches the stored hash, and that hash costs at most the policy's limit; with a
 * budget of 0 a new hash of the password must be within the limit too. With scrypt it may run out
 * of memory and return false instead. Give it the policy that the service gives mkpasswd_new():
 * then it accepts each hash that mkpasswd_new() makes, and reports none as outdated.
 *
 * If the field is empty, locked, of another scheme or without a valid setting, or can cost more
 * than the limit, the call makes a dummy hash: it hashes the password by the policy with a fixed
 * salt, drops the hash and returns false, so that such a name is not answered faster. `work` is
 * exactly the work of that hash. There is no dummy hash if scrypt gets no memory for it (the error
 * is then MKPASSWD_ERROR_OUT_OF_MEMORY), or if it can cost more than the limit; if the budget is 0,
 * such a password is not hashed for any field.
 *
 * An invalid password, method or number of rounds is refused at once, whatever the field is. Any
 * other wrong password costs what the stored hash costs. So the time of a login shows hashes that
 * have another cost, or a shorter salt, than those of mkpasswd_new(); only outdated ones are ever
 * replaced. A dead hash, such as one that was cut, costs the same as a wrong password, and the
 * error is MKPASSWD_ERROR_DEAD: nobody gets in until the account has a new hash. */
MKPASSWD_CHECKED static inline bool mkpasswd_login(struct mkpasswd_password password,
    struct mkpasswd_field field, const struct mkpasswd_policy *policy,
    struct mkpasswd_report *report);

/* Hashes a new password, with a salt from getentropy(3), and puts the hash and a zero byte into
 * `out`; MKPASSWD_TEXT_SIZE bytes are enough.
 *
 * Rounds out of the method's range are refused, although the formats and the command clamp those of
 * SHA-crypt: a service that asks for 12 rounds, as it may have for bcrypt, should notice before it
 * stores a hash that is cheap to guess. */
MKPASSWD_CHECKED MKPASSWD_WRITES(3, 4) static inline bool mkpasswd_new(
    struct mkpasswd_password password, const struct mkpasswd_policy *policy, char *out,
    size_t out_size, struct mkpasswd_report *report);

/* Returns whether a new hash by the policy would replace the stored one: the policy's method is
 * another one, or has more rounds, or for scrypt a greater N * r * p. It returns false, with an
 * error, if the field has no valid setting or the policy's method or rounds are not valid. For a
 * locked field the error is a bad character or a setting that is too long, for an empty one an
 * unknown scheme. The policy's rounds are clamped here for SHA-crypt, and its budget makes no
 * difference. */
MKPASSWD_CHECKED static inline bool mkpasswd_needs_rehash(struct mkpasswd_field stored,
    const struct mkpasswd_policy *policy, struct mkpasswd_report *report);

/* Audits a stored hash without a password, and hashes nothing. Returns true exactly if the hash is
 * current: method and rounds are valid, the field is a whole hash as mkpasswd_hash() writes it, no
 * password costs more than the budget, and a new hash by the policy would not replace it. If only
 * the last does not hold, `error` is 0 and `outdated` is 1. In each other case, if method and
 * rounds are valid, `error` is the first of these that applies:
 *
 * - MKPASSWD_ERROR_LOCKED, MKPASSWD_ERROR_NO_HASH;
 * - if the field begins with "$", what is wrong with the setting;
 * - MKPASSWD_ERROR_UNKNOWN_SCHEME: the field is of another scheme. `scheme` has its number, or 0 if
 *   the field's form shows none;
 * - MKPASSWD_ERROR_NO_SCHEME: it is of none, so it may be a password or a damaged hash;
 * - MKPASSWD_ERROR_OVER_BUDGET: some password can cost more than the budget or, with a budget of 0,
 *   every password costs too much for a login;
 * - MKPASSWD_ERROR_DEAD: it is not a whole hash, so no password matches it. It was cut, something
 *   follows it, it has a character that no digest has, its salt is too long, or its rounds are out
 *   of range.
 *
 * A budget of 0 stands here for the most that a new hash by the policy can cost, but at least for
 * 1297572512, the most that sha512crypt with the recommended rounds can cost. A hash is then also
 * over budget if mkpasswd_login() with a budget of 0 would refuse even the empty password as too
 * costly.
 */
MKPASSWD_CHECKED static inline bool mkpasswd_audit(struct mkpasswd_field stored,
    const struct mkpasswd_policy *policy, struct mkpasswd_report *report);

/* Reports what a policy allows. `cost` is the most that a login or a new hash may cost. `length` is
 * the length of the longest password whose new hash is within that limit: all shorter ones are
 * within it too, and all longer ones above it. `rounds` are those of new hashes. Returns false if
 * method or rounds are not valid, and with MKPASSWD_ERROR_OVER_BUDGET if even a new hash of the
 * empty password is above the limit; `cost` is the limit then too. */
MKPASSWD_CHECKED static inline bool mkpasswd_limit(
    const struct mkpasswd_policy *policy, struct mkpasswd_report *report);

/* Reports rounds with which a new hash of any password of the given length is within the limit of
 * mkpasswd_limit(), for a service that must hash longer passwords too. They are the policy's own
 * rounds or, if SHA-crypt with these costs too much, as many as are sure to be within the limit.
 * With a budget of 0 there always are some; with a budget of your own the call returns false with
 * MKPASSWD_ERROR_OVER_BUDGET if even 1000 rounds cost more. `cost` is the cost of the hash. A
 * policy with fewer rounds has a lower limit of its own, so give it the `cost` of mkpasswd_limit()
 * as its budget, and use the same budget for logins. Whoever sees the hash can tell from fewer
 * rounds how long the password is, and such a hash is outdated at once. */
MKPASSWD_CHECKED static inline bool mkpasswd_rounds(
    size_t password_length, const struct mkpasswd_policy *policy, struct mkpasswd_report *report);

/* ---- What an importer and an implementation of crypt(3) call ---- */

/* Returns true exactly if the password matches the stored hash and that hash costs at most
 * `budget`; with scrypt it may run out of memory and return false instead. It doesn't hash above
 * the budget, so a budget of 0 lets nobody in. For a login call mkpasswd_login(). */
MKPASSWD_CHECKED static inline bool mkpasswd_verify(struct mkpasswd_password password,
    struct mkpasswd_field stored, uint64_t budget, struct mkpasswd_report *report);

/* Hashes a password with the setting in a field, which may be a stored hash, as crypt(3) does. A
 * locked or empty field is an invalid setting, as for mkpasswd_needs_rehash(). A budget of 0 allows
 * no hash. To change a password call mkpasswd_new(). */
MKPASSWD_CHECKED MKPASSWD_WRITES(4, 5) static inline bool mkpasswd_hash(
    struct mkpasswd_password password, struct mkpasswd_field setting, uint64_t budget, char *out,
    size_t out_size, struct mkpasswd_report *report);

/* Puts the setting with a given salt into `out`. A salt has at least one character, and at most 8
 * for md5crypt, 16 for SHA-crypt and 86 for scrypt, each of them one of ./0-9A-Za-z. This call is
 * for tests, and for values from other programs; two passwords with the same salt can be guessed
 * together. */
MKPASSWD_CHECKED MKPASSWD_WRITES(3, 4) static inline bool mkpasswd_setting(
    const struct mkpasswd_policy *policy, const char *salt, char *out, size_t out_size,
    struct mkpasswd_report *report);

/* Reports the most that a hash with the setting in a field can cost, for any password of the given
 * length, and in `work` the most that each count can be. It hashes nothing. */
MKPASSWD_CHECKED static inline bool mkpasswd_bound(
    struct mkpasswd_field setting, size_t password_length, struct mkpasswd_report *report);

/* ---- Texts ---- */

/* Puts the message for an error, with a zero byte, into `out` and returns true. For any other
 * number, including 0, which is no error, it puts "unknown reason" there and returns false. If
 * `out` is too small, it puts as much there as fits, with the zero byte, and returns false. So
 * `out` holds a string in each case, unless its size is 0. */
MKPASSWD_WRITES(2, 3)
static inline bool mkpasswd_message(uint32_t error, char *out, size_t out_size);

/* Puts the name that crypt(5) has for a scheme into `out` and returns true. The scheme is a number
 * that mkpasswd_audit() reports; for any other number the call puts "unknown scheme" there and
 * returns false. If `out` is too small, it cuts the name as mkpasswd_message() cuts a message. */
MKPASSWD_WRITES(2, 3)
static inline bool mkpasswd_scheme_name(uint32_t scheme, char *out, size_t out_size);

/* ---- What the library exports ----
 *
 * The calls above are written in terms of these. They take only pointers and numbers, for dlsym(3)
 * and for other languages, and return 1 for true and 0 for false. No pointer may be null, even if
 * its number of bytes is 0. A method, rounds or budget of 0 means the same as in a policy. */

/* Returns the MKPASSWD_VERSION of the library that is linked. */
MKPASSWD_EXPORT uint32_t mkpasswd_version(void);

MKPASSWD_EXPORT MKPASSWD_CHECKED MKPASSWD_NONNULL(8) int32_t
    mkpasswd_login_bytes(const uint8_t *password, size_t password_length, const uint8_t *field,
        size_t field_length, uint32_t method, uint32_t rounds, uint64_t budget,
        struct mkpasswd_report *report) MKPASSWD_READS(password, 1, 2) MKPASSWD_READS(field, 3, 4);

MKPASSWD_EXPORT MKPASSWD_CHECKED MKPASSWD_NONNULL(6) MKPASSWD_NONNULL(8)
    MKPASSWD_WRITES(6, 7) int32_t mkpasswd_new_bytes(const uint8_t *password,
        size_t password_length, uint32_t method, uint32_t rounds, uint64_t budget, uint8_t *out,
        size_t out_size, struct mkpasswd_report *report) MKPASSWD_READS(password, 1, 2);

MKPASSWD_EXPORT MKPASSWD_CHECKED MKPASSWD_NONNULL(5) int32_t
    mkpasswd_needs_rehash_bytes(const uint8_t *stored, size_t stored_length, uint32_t method,
        uint32_t rounds, struct mkpasswd_report *report) MKPASSWD_READS(stored, 1, 2);

MKPASSWD_EXPORT MKPASSWD_CHECKED MKPASSWD_NONNULL(6) int32_t mkpasswd_audit_bytes(
    const uint8_t *stored, size_t stored_length, uint32_t method, uint32_t rounds, uint64_t budget,
    struct mkpasswd_report *report) MKPASSWD_READS(stored, 1, 2);

MKPASSWD_EXPORT MKPASSWD_CHECKED MKPASSWD_NONNULL(4) int32_t mkpasswd_limit_bytes(
    uint32_t method, uint32_t rounds, uint64_t budget, struct mkpasswd_report *report);

MKPASSWD_EXPORT MKPASSWD_CHECKED MKPASSWD_NONNULL(5) int32_t
    mkpasswd_rounds_bytes(size_t password_length, uint32_t method, uint32_t rounds, uint64_t budget,
        struct mkpasswd_report *report);

MKPASSWD_EXPORT MKPASSWD_CHECKED MKPASSWD_NONNULL(6) int32_t
    mkpasswd_verify_bytes(const uint8_t *password, size_t password_length, const uint8_t *stored,
        size_t stored_length, uint64_t budget, struct mkpasswd_report *report)
        MKPASSWD_READS(password, 1, 2) MKPASSWD_READS(stored, 3, 4);

MKPASSWD_EXPORT MKPASSWD_CHECKED MKPASSWD_NONNULL(6) MKPASSWD_NONNULL(8) MKPASSWD_WRITES(
    6, 7) int32_t mkpasswd_hash_bytes(const uint8_t *password, size_t password_length,
    const uint8_t *setting, size_t setting_length, uint64_t budget, uint8_t *out, size_t out_size,
    struct mkpasswd_report *report) MKPASSWD_READS(password, 1, 2) MKPASSWD_READS(setting, 3, 4);

MKPASSWD_EXPORT MKPASSWD_CHECKED MKPASSWD_NONNULL(5) MKPASSWD_NONNULL(7)
    MKPASSWD_WRITES(5, 6) int32_t mkpasswd_setting_bytes(uint32_t method, uint32_t rounds,
        const uint8_t *salt, size_t salt_length, uint8_t *out, size_t out_size,
        struct mkpasswd_report *report) MKPASSWD_READS(salt, 3, 4);

MKPASSWD_EXPORT MKPASSWD_CHECKED MKPASSWD_NONNULL(4) int32_t
    mkpasswd_bound_bytes(const uint8_t *setting, size_t setting_length, size_t password_length,
        struct mkpasswd_report *report) MKPASSWD_READS(setting, 1, 2);

MKPASSWD_EXPORT MKPASSWD_NONNULL(2) MKPASSWD_WRITES(2, 3) int32_t
    mkpasswd_message_bytes(uint32_t error, uint8_t *out, size_t out_size);

MKPASSWD_EXPORT MKPASSWD_NONNULL(2) MKPASSWD_WRITES(2, 3) int32_t
    mkpasswd_scheme_name_bytes(uint32_t scheme, uint8_t *out, size_t out_size);

/* ---- The calls in terms of these ----
 *
 * For a null `out` or report they pass `none` or `unread`, whose content is dropped. */

#ifdef __cplusplus
#define MKPASSWD_CAST(type, value) static_cast<type>(value)
#define MKPASSWD_TEXT(text) reinterpret_cast<const uint8_t *>(text)
#define MKPASSWD_OUT(text) reinterpret_cast<uint8_t *>(text)
#else
#define MKPASSWD_CAST(type, value) ((type)(value))
#define MKPASSWD_TEXT(text) ((const uint8_t *)(text))
#define MKPASSWD_OUT(text) ((uint8_t *)(text))
#endif

static inline struct mkpasswd_password mkpasswd_password_bytes(const void *bytes, size_t length)
{
    struct mkpasswd_password password;

    /* No password has a zero byte, so one stands for a null pointer, which is no password. */
    password.bytes = bytes ? MKPASSWD_CAST(const uint8_t *, bytes) : MKPASSWD_TEXT("");
    password.length = bytes ? length : 1;
    return password;
}

static inline struct mkpasswd_password mkpasswd_password(const char *text)
{
    return mkpasswd_password_bytes(text, text ? strlen(text) : 0);
}

static inline struct mkpasswd_field mkpasswd_field_bytes(const void *bytes, size_t length)
{
    struct mkpasswd_field field;

    field.bytes = bytes ? MKPASSWD_CAST(const uint8_t *, bytes) : MKPASSWD_TEXT("");
    field.length = bytes ? length : 0;
    return field;
}

static inline struct mkpasswd_field mkpasswd_field(const char *text)
{
    return mkpasswd_field_bytes(text, text ? strlen(text) : 0);
}

static inline struct mkpasswd_policy mkpasswd_policy_or_recommended(
    const struct mkpasswd_policy *policy)
{
    struct mkpasswd_policy recommended = {0, 0, 0};

    return policy ? *policy : recommended;
}

static inline bool mkpasswd_login(struct mkpasswd_password password, struct mkpasswd_field field,
    const struct mkpasswd_policy *policy, struct mkpasswd_report *report)
{
    struct mkpasswd_policy own = mkpasswd_policy_or_recommended(policy);
    struct mkpasswd_report unread;

    password = mkpasswd_password_bytes(password.bytes, password.length);
    field = mkpasswd_field_bytes(field.bytes, field.length);
    return mkpasswd_login_bytes(password.bytes, password.length, field.bytes, field.length,
               own.method, own.rounds, own.budget, report ? report : &unread)
        == 1;
}

static inline bool mkpasswd_new(struct mkpasswd_password password,
    const struct mkpasswd_policy *policy, char *out, size_t out_size,
    struct mkpasswd_report *report)
{
    struct mkpasswd_policy own = mkpasswd_policy_or_recommended(policy);
    struct mkpasswd_report unread;
    uint8_t none;

    password = mkpasswd_password_bytes(password.bytes, password.length);
    return mkpasswd_new_bytes(password.bytes, password.length, own.method, own.rounds, own.budget,
               out ? MKPASSWD_OUT(out) : &none, out ? out_size : 0, report ? report : &unread)
        == 1;
}

static inline bool mkpasswd_needs_rehash(struct mkpasswd_field stored,
    const struct mkpasswd_policy *policy, struct mkpasswd_report *report)
{
    struct mkpasswd_policy own = mkpasswd_policy_or_recommended(policy);
    struct mkpasswd_report unread;

    stored = mkpasswd_field_bytes(stored.bytes, stored.length);
    return mkpasswd_needs_rehash_bytes(
               stored.bytes, stored.length, own.method, own.rounds, report ? report : &unread)
        == 1;
}

static inline bool mkpasswd_audit(struct mkpasswd_field stored,
    const struct mkpasswd_policy *policy, struct mkpasswd_report *report)
{
    struct mkpasswd_policy own = mkpasswd_policy_or_recommended(policy);
    struct mkpasswd_report unread;

    stored = mkpasswd_field_bytes(stored.bytes, stored.length);
    return mkpasswd_audit_bytes(stored.bytes, stored.length, own.method, own.rounds, own.budget,
               report ? report : &unread)
        == 1;
}

static inline bool mkpasswd_limit(
    const struct mkpasswd_policy *policy, struct mkpasswd_report *report)
{
    struct mkpasswd_policy own = mkpasswd_policy_or_recommended(policy);
    struct mkpasswd_report unread;

    return mkpasswd_limit_bytes(own.method, own.rounds, own.budget, report ? report : &unread) == 1;
}

static inline bool mkpasswd_rounds(
    size_t password_length, const struct mkpasswd_policy *policy, struct mkpasswd_report *report)
{
    struct mkpasswd_policy own = mkpasswd_policy_or_recommended(policy);
    struct mkpasswd_report unread;

    return mkpasswd_rounds_bytes(
               password_length, own.method, own.rounds, own.budget, report ? report : &unread)
        == 1;
}

static inline bool mkpasswd_verify(struct mkpasswd_password password, struct mkpasswd_field stored,
    uint64_t budget, struct mkpasswd_report *report)
{
    struct mkpasswd_report unread;

    password = mkpasswd_password_bytes(password.bytes, password.length);
    stored = mkpasswd_field_bytes(stored.bytes, stored.length);
    return mkpasswd_verify_bytes(password.bytes, password.length, stored.bytes, stored.length,
               budget, report ? report : &unread)
        == 1;
}

static inline bool mkpasswd_hash(struct mkpasswd_password password, struct mkpasswd_field setting,
    uint64_t budget, char *out, size_t out_size, struct mkpasswd_report *report)
{
    struct mkpasswd_report unread;
    uint8_t none;

    password = mkpasswd_password_bytes(password.bytes, password.length);
    setting = mkpasswd_field_bytes(setting.bytes, setting.length);
    return mkpasswd_hash_bytes(password.bytes, password.length, setting.bytes, setting.length,
               budget, out ? MKPASSWD_OUT(out) : &none, out ? out_size : 0,
               report ? report : &unread)
        == 1;
}

static inline bool mkpasswd_setting(const struct mkpasswd_policy *policy, const char *salt,
    char *out, size_t out_size, struct mkpasswd_report *report)
{
    struct mkpasswd_policy own = mkpasswd_policy_or_recommended(policy);
    struct mkpasswd_report unread;
    uint8_t none;

    return mkpasswd_setting_bytes(own.method, own.rounds, MKPASSWD_TEXT(salt ? salt : ""),
               salt ? strlen(salt) : 0, out ? MKPASSWD_OUT(out) : &none, out ? out_size : 0,
               report ? report : &unread)
        == 1;
}

static inline bool mkpasswd_bound(
    struct mkpasswd_field setting, size_t password_length, struct mkpasswd_report *report)
{
    struct mkpasswd_report unread;

    setting = mkpasswd_field_bytes(setting.bytes, setting.length);
    return mkpasswd_bound_bytes(
               setting.bytes, setting.length, password_length, report ? report : &unread)
        == 1;
}

static inline bool mkpasswd_message(uint32_t error, char *out, size_t out_size)
{
    uint8_t none;

    return mkpasswd_message_bytes(error, out ? MKPASSWD_OUT(out) : &none, out ? out_size : 0) == 1;
}

static inline bool mkpasswd_scheme_name(uint32_t scheme, char *out, size_t out_size)
{
    uint8_t none;

    return mkpasswd_scheme_name_bytes(scheme, out ? MKPASSWD_OUT(out) : &none, out ? out_size : 0)
        == 1;
}

/* Other languages and the proved code read a report at these offsets. */
typedef char mkpasswd_report_has_80_bytes[sizeof(struct mkpasswd_report) == 80 ? 1 : -1];
typedef char mkpasswd_report_has_cost_at_32[offsetof(struct mkpasswd_report, cost) == 32 ? 1 : -1];
typedef char mkpasswd_report_has_work_at_40[offsetof(struct mkpasswd_report, work) == 40 ? 1 : -1];

#undef MKPASSWD_CAST
#undef MKPASSWD_TEXT
#undef MKPASSWD_OUT
#undef MKPASSWD_EXPORT
#undef MKPASSWD_CHECKED
#undef MKPASSWD_NONNULL
#undef MKPASSWD_READS
#undef MKPASSWD_WRITES
#if defined __clang__
#pragma clang diagnostic pop
#endif

#ifdef __cplusplus
}
#endif

#endif
