/* Makes all calls of the proved library. What mkpasswd_login() returns is the whole answer to a
 * login. */
#include "hashes.h"
#include <string.h>

/* The budget has to allow a new hash of each password of up to this many bytes. Otherwise unknown
 * names would be refused at once. */
#define USUAL_LENGTH 64

#define NO_ERROR 0

struct method {
    const char *name;
    uint32_t number;
};

static const struct method METHODS[] = {
    {"md5crypt", MKPASSWD_MD5CRYPT},
    {"sha256crypt", MKPASSWD_SHA256CRYPT},
    {"sha512crypt", MKPASSWD_SHA512CRYPT},
    {"scrypt", MKPASSWD_SCRYPT},
};

bool find_method(const char *name, uint32_t *method)
{
    for (size_t row = 0; row < sizeof METHODS / sizeof *METHODS; row++) {
        if (strcmp(name, METHODS[row].name) == 0) {
            *method = METHODS[row].number;
            return true;
        }
    }
    return false;
}

bool allows_new_hashes(const struct mkpasswd_policy *policy, struct message *message)
{
    struct mkpasswd_report report;
    bool is_valid = mkpasswd_limit(policy, &report);
    uint32_t error = is_valid ? (uint32_t)MKPASSWD_ERROR_OVER_BUDGET : report.error;

    (void)mkpasswd_message(error, message->text, sizeof message->text);
    return is_valid && report.length >= USUAL_LENGTH;
}

struct check check_password(
    const struct mkpasswd_policy *policy, const char *password, struct mkpasswd_field field)
{
    struct mkpasswd_report report;
    struct check check = {false, false, false};

    check.matches = mkpasswd_login(mkpasswd_password(password), field, policy, &report);
    check.is_outdated = check.matches && report.outdated == 1;
    check.lacks_memory = !check.matches && report.error == MKPASSWD_ERROR_OUT_OF_MEMORY;
    return check;
}

bool make_hash(const struct mkpasswd_policy *policy, const char *password, struct hash *hash,
    struct message *message)
{
    struct mkpasswd_report report;
    bool is_hashed = mkpasswd_new(
        mkpasswd_password(password), policy, hash->text, sizeof hash->text, &report);

    (void)mkpasswd_message(report.error, message->text, sizeof message->text);
    return is_hashed;
}

void wipe_hash(struct hash *hash)
{
    explicit_bzero(hash, sizeof *hash);
}

/* Returns whether a login costs too much even with the empty password, the cheapest one. */
static bool is_over_limit(const struct mkpasswd_policy *policy, struct mkpasswd_field field)
{
    struct mkpasswd_report limit, least;

    return mkpasswd_limit(policy, &limit) && mkpasswd_bound(field, 0, &least)
        && least.cost > limit.cost;
}

/* Returns the error that says why no password matches a field, or NO_ERROR if some password may. */
static uint32_t error_of_field(const struct mkpasswd_policy *policy, struct mkpasswd_field field)
{
    const struct mkpasswd_policy unlimited = {policy->method, policy->rounds, UINT64_MAX};
    struct mkpasswd_report report;

    if (is_over_limit(policy, field))
        return MKPASSWD_ERROR_OVER_BUDGET;
    return mkpasswd_audit(field, &unlimited, &report) ? NO_ERROR : report.error;
}

enum field_problem problem_of_field(
    const struct mkpasswd_policy *policy, struct mkpasswd_field field, struct message *message)
{
    uint32_t error = error_of_field(policy, field);

    (void)mkpasswd_message(error, message->text, sizeof message->text);
    if (error == NO_ERROR)
        return NO_PROBLEM;
    if (error == MKPASSWD_ERROR_NO_HASH || error == MKPASSWD_ERROR_LOCKED)
        return CLOSED_ON_PURPOSE;
    return NEEDS_NEW_HASH;
}
