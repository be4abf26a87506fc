/* Fuzzes each call that hashes or reads a stored hash, with any password, any field and some
 * policies. The results must agree with libxcrypt's, and with each other. */
#include "fuzz.h"

#define LONGEST_INPUT 1600
#define LONGEST_FIELD 2048
#define CHEAP 300000 /* a cost that takes little time */

/* The bytes of the input before the password: what choose() makes of each, and their number. */
enum head {
    BUDGET,
    SIZE_AND_POLICY,
    LENGTH_OF_PASSWORD,
    LOWER_BYTE_OF_LENGTH,
    FRONT,
    HEAD
};

/* What the fuzzer's input means. */
struct chosen {
    struct mkpasswd_password password;
    struct mkpasswd_field field;
    char text[LONGEST_FIELD]; /* the field, as a string */
    struct mkpasswd_policy policy;
    uint64_t budget;
    size_t out_size;
    uint8_t changed_byte; /* of a hash, modulo its length */
};

static const struct mkpasswd_policy policies[] = {
    {0, 1001, 0},
    {MKPASSWD_MD5CRYPT, 0, 0},
    {MKPASSWD_SHA256CRYPT, 1000, 0},
    {MKPASSWD_SHA512CRYPT, 5000, 0},
    {MKPASSWD_SHA512CRYPT, 999, 0},
    {MKPASSWD_SHA256CRYPT, 1000000000, 0},
    {MKPASSWD_SCRYPT, 5, 0},
    {2, 0, 0},
};

/* Beginnings of valid fields, which the fuzzer wouldn't find by chance. */
static const char *const fronts[] = {"", "$1$", "$5$", "$6$", "$5$rounds=", "$6$rounds=1000$",
    "$7$", "$7$2/..../....", "*0", "$1$xxxxxxxx$UYCIxa628.9qXjpQCjM4a.", "$7$4/....0....", "!$1$"};

static struct mkpasswd_field field_of(const char *text)
{
    return mkpasswd_field_bytes(at_end(FIELD_PAGE, text, strlen(text)), strlen(text));
}

/* Reads the input: the bytes of its head, the password, and the field after its front. */
static void choose(struct chosen *chosen, const uint8_t *data, size_t size)
{
    size_t length = data[LENGTH_OF_PASSWORD] * 256u + data[LOWER_BYTE_OF_LENGTH];
    const char *front = fronts[data[FRONT] % (sizeof fronts / sizeof *fronts)];
    uint8_t budget = data[BUDGET], size_and_policy = data[SIZE_AND_POLICY];
    size_t rest;

    length %= size - HEAD;
    rest = size - HEAD - length;
    memset(chosen, 0, sizeof *chosen);
    chosen->changed_byte = size_and_policy;
    chosen->budget = budget & 1 ? CHEAP : budget * UINT64_C(1000);
    chosen->out_size = size_and_policy & 1 ? MKPASSWD_TEXT_SIZE : size_and_policy;
    chosen->policy = policies[size_and_policy / 2 % (sizeof policies / sizeof *policies)];
    chosen->password = mkpasswd_password_bytes(at_end(PASSWORD_PAGE, data + HEAD, length), length);
    memcpy(chosen->text, front, strlen(front));
    memcpy(chosen->text + strlen(front), data + HEAD + length, rest);
    chosen->field = mkpasswd_field_bytes(
        at_end(FIELD_PAGE, chosen->text, strlen(front) + rest), strlen(front) + rest);
}

static struct mkpasswd_report bound_of(const struct chosen *chosen, size_t length)
{
    struct mkpasswd_report report = unfilled_report();

    checked(mkpasswd_bound(chosen->field, length, &report), &report);
    return report;
}

static bool is_dead(struct mkpasswd_field field)
{
    /* With the greatest budget, no hash is over it. */
    const struct mkpasswd_policy weakest = {MKPASSWD_MD5CRYPT, 0, UINT64_MAX};
    struct mkpasswd_report report = unfilled_report();
    bool is_current = checked(mkpasswd_audit(field, &weakest, &report), &report);

    return !is_current && report.error == MKPASSWD_ERROR_DEAD;
}

static bool is_outdated(const struct chosen *chosen)
{
    struct mkpasswd_report report = unfilled_report();
    bool result = checked(mkpasswd_needs_rehash(chosen->field, &chosen->policy, &report), &report);

    must(report.outdated == result);
    return result;
}

static bool is_invalid_policy(const struct mkpasswd_report *report)
{
    return report->error == MKPASSWD_ERROR_UNKNOWN_METHOD || report->error == MKPASSWD_ERROR_ROUNDS;
}

/* Returns whether an audit may report this error for a field without a setting. */
static bool is_explained(const struct mkpasswd_report *audit, const struct mkpasswd_report *bound)
{
    switch (audit->error) {
    case MKPASSWD_ERROR_LOCKED:
    case MKPASSWD_ERROR_NO_HASH:
    case MKPASSWD_ERROR_NO_SCHEME:
        return true;
    case MKPASSWD_ERROR_UNKNOWN_SCHEME:
        return bound->error == audit->error || audit->scheme != 0;
    default:
        return bound->error == audit->error;
    }
}

/* Checks that an audit hashes nothing, and agrees with mkpasswd_bound and mkpasswd_needs_rehash. */
static void audit(const struct chosen *chosen)
{
    struct mkpasswd_policy policy = chosen->policy;
    struct mkpasswd_report bound = bound_of(chosen, MKPASSWD_PASSWORD_LIMIT);
    struct mkpasswd_report report = unfilled_report();
    bool is_current, is_old = is_outdated(chosen);

    policy.budget = chosen->budget;
    is_current = checked(mkpasswd_audit(chosen->field, &policy, &report), &report);
    must(report.work.digests == 0 && report.work.scratch == 0);
    must(is_current == (report.error == 0 && report.outdated == 0));
    must(report.outdated <= is_old && !(is_current && is_old));
    if (is_invalid_policy(&report)) {
        must(report.cost == 0);
        return;
    }
    must(report.cost == bound.cost);
    if (bound.error != 0) {
        must(is_explained(&report, &bound));
        must(report.rounds == 0 && report.n == 0 && report.r == 0 && report.p == 0);
        return;
    }
    must(report.scheme == chosen->field.bytes[1] - (uint32_t)'0');
    must((report.rounds == 0) == (report.n > 0));
    if (policy.budget != 0)
        must((report.error == MKPASSWD_ERROR_OVER_BUDGET) == (bound.cost > policy.budget));
}

/* Returns what a login by this policy may cost: its budget, or without one the limit that
 * mkpasswd_limit reports. Without a budget, returns 0 if a new hash of this password costs more
 * than the limit. */
static uint64_t limit_of(const struct mkpasswd_policy *policy, size_t length)
{
    struct mkpasswd_report report = unfilled_report();
    bool has_limit = checked(mkpasswd_limit(policy, &report), &report);

    if (policy->budget != 0) {
        must(!has_limit || report.cost == policy->budget);
        return policy->budget;
    }
    return has_limit && length <= report.length ? report.cost : 0;
}

/* Checks that a login agrees with mkpasswd_verify, mkpasswd_needs_rehash and mkpasswd_audit, and
 * does the work for an unknown name if there is nothing to compare with. */
static void check_login(const struct chosen *chosen, uint64_t limit,
    const struct mkpasswd_report *login, const struct mkpasswd_report *unknown)
{
    struct mkpasswd_report verified = unfilled_report();
    bool is_in = login->error == 0;
    bool matches = checked(
        mkpasswd_verify(chosen->password, chosen->field, limit, &verified), &verified);
    bool has_no_match = is_dead(chosen->field);
    const struct mkpasswd_report *same_work = verified.work.digests != 0 ? &verified : unknown;

    must(is_in == matches && login->cost == verified.cost);
    must(login->outdated == (is_in && is_outdated(chosen)));
    must(!(is_in && has_no_match));
    if (has_no_match && verified.error == MKPASSWD_ERROR_WRONG_PASSWORD)
        must(login->error == MKPASSWD_ERROR_DEAD);
    else
        must(login->error == verified.error);
    must(memcmp(&login->work, &same_work->work, sizeof login->work) == 0);
}

/* Checks that a login that isn't refused hashes within the limit, and does the same work for a
 * field that can't be checked as for an unknown name. */
static void log_in(const struct chosen *chosen, const struct mkpasswd_policy *policy)
{
    struct mkpasswd_report login = unfilled_report(), unknown = unfilled_report();
    struct mkpasswd_field none = mkpasswd_field(NULL);
    uint64_t limit = limit_of(policy, chosen->password.length);

    must(!checked(mkpasswd_login(chosen->password, none, policy, &unknown), &unknown));
    must(checked(mkpasswd_login(chosen->password, chosen->field, policy, &login), &login)
        == (login.error == 0));
    must(login.work.bytes <= limit && unknown.work.bytes <= limit);
    if (unknown.error == MKPASSWD_ERROR_NO_HASH) {
        check_login(chosen, limit, &login, &unknown);
        return;
    }
    must(memcmp(&login, &unknown, sizeof login) == 0);
    must(login.cost == 0 && login.work.digests == 0);
}

/* Checks that a hash is libxcrypt's, that it matches its password with its cost as the budget and
 * not with less, and that it doesn't match once one of its bits has changed. */
static void check_hash(const struct chosen *chosen, const char *hash, uint64_t cost)
{
    const char *by_crypt = crypted(chosen->password, chosen->text);
    /* For libxcrypt a salt of scrypt extends to the last dollar sign, and not to the first one. */
    bool is_scrypt = hash[1] == '7';
    const char *end_of_salt = strchr(chosen->text + strlen("$7$"), '$');
    bool has_other_salt = is_scrypt && end_of_salt && end_of_salt != strrchr(chosen->text, '$');
    struct mkpasswd_report report = unfilled_report();
    char changed[MKPASSWD_TEXT_SIZE];

    must(!by_crypt || has_other_salt || strcmp(by_crypt, hash) == 0);
    must(checked(mkpasswd_verify(chosen->password, field_of(hash), cost, &report), &report));
    must(!mkpasswd_verify(chosen->password, field_of(hash), cost - 1, &report));
    must(report.error == MKPASSWD_ERROR_OVER_BUDGET);
    must(!is_dead(field_of(hash)));
    memcpy(changed, hash, strlen(hash) + 1);
    changed[chosen->changed_byte % strlen(hash)] ^= 1;
    must(!mkpasswd_verify(chosen->password, field_of(changed), chosen->budget, &report));
}

static void hash(const struct chosen *chosen)
{
    const char *token = strncmp(chosen->text, "*0", 2) == 0 ? "*1" : "*0";
    struct mkpasswd_report report = unfilled_report();
    char *out = new_out(chosen->out_size), copy[MKPASSWD_TEXT_SIZE];
    bool is_hashed = checked(mkpasswd_hash(chosen->password, chosen->field, chosen->budget, out,
                                 chosen->out_size, &report),
        &report);

    must(is_hashed == (report.error == 0));
    check_out(&report, chosen->out_size, token);
    seen[chosen->text[1] & METHOD_MASK][report.error & ERROR_MASK]++;
    if (!is_hashed)
        return;
    must(report.cost <= chosen->budget && report.work.bytes <= report.cost);
    memcpy(copy, out, strlen(out) + 1);
    check_hash(chosen, copy, report.cost);
}

static void verify(const struct chosen *chosen)
{
    struct mkpasswd_report report = unfilled_report();
    bool matches = checked(
        mkpasswd_verify(chosen->password, chosen->field, chosen->budget, &report), &report);
    const char *by_crypt = NULL;

    must(matches == (report.error == 0));
    if (matches || report.error == MKPASSWD_ERROR_WRONG_PASSWORD)
        by_crypt = crypted(chosen->password, chosen->text);
    if (by_crypt)
        must(matches == (strcmp(by_crypt, chosen->text) == 0));
}

int LLVMFuzzerTestOneInput(const uint8_t *data, size_t size)
{
    static struct chosen chosen;
    struct mkpasswd_policy policy;

    if (size <= HEAD || size > LONGEST_INPUT)
        return 0;
    choose(&chosen, data, size);
    hash(&chosen);
    choose(&chosen, data, size); /* again, since hash() has overwritten a page */
    verify(&chosen);
    audit(&chosen);
    policy = chosen.policy;
    policy.budget = chosen.budget;
    /* A budget of 0 means the policy's limit, within which a hash can take long. */
    if (policy.budget == 0 && bound_of(&chosen, chosen.password.length).cost > CHEAP)
        policy.budget = 1;
    log_in(&chosen, &policy);
    return 0;
}
