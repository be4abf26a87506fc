/* Reads the arguments of the module. Each has a row in OPTIONS with the function that reads it. */
#include "options.h"
#include "place.h"
#include <errno.h>
#include <security/pam_ext.h>
#include <stdlib.h>
#include <string.h>
#include <sys/stat.h>
#include <syslog.h>

/* The name of an argument, and the function that reads the value after it and returns whether the
 * value is valid. */
struct option {
    const char *name;
    bool (*read)(const char *value, struct options *options);
};

static bool read_file(const char *value, struct options *options)
{
    bool is_first = options->file == NULL;

    options->file = value;
    return is_first && *value == '/';
}

static bool read_method(const char *value, struct options *options)
{
    return find_method(value, &options->policy.method);
}

/* Reads a decimal number without the signs and blanks that strtoull would take. */
static bool read_number(const char *digits, uint64_t greatest, uint64_t *number)
{
    if (*digits == '\0' || digits[strspn(digits, "0123456789")] != '\0')
        return false;
    errno = 0;
    *number = strtoull(digits, NULL, 10);
    return errno == 0 && *number <= greatest;
}

static bool read_rounds(const char *value, struct options *options)
{
    uint64_t rounds = 0;
    bool is_number = read_number(value, UINT32_MAX, &rounds);

    options->policy.rounds = (uint32_t)rounds;
    return is_number;
}

static bool read_budget(const char *value, struct options *options)
{
    return read_number(value, UINT64_MAX, &options->policy.budget);
}

static bool read_renew(const char *value, struct options *options)
{
    options->renews = true;
    return *value == '\0';
}

static bool read_debug(const char *value, struct options *options)
{
    options->is_debugging = true;
    return *value == '\0';
}

/* Accepts an argument that pam_get_authtok(3) reads by itself. */
static bool leave_to_pam(const char *value, struct options *options)
{
    (void)options;
    return *value == '\0';
}

static bool leave_type_to_pam(const char *value, struct options *options)
{
    (void)value;
    (void)options;
    return true;
}

static const struct option OPTIONS[] = {
    {"file=", read_file},
    {"method=", read_method},
    {"rounds=", read_rounds},
    {"budget=", read_budget},
    {"renew", read_renew},
    {"debug", read_debug},
    {"try_first_pass", leave_to_pam},
    {"use_first_pass", leave_to_pam},
    {"use_authtok", leave_to_pam},
    {"authtok_type=", leave_type_to_pam},
};

static bool read_argument(const char *argument, struct options *options)
{
    for (size_t row = 0; row < sizeof OPTIONS / sizeof *OPTIONS; row++) {
        size_t len = strlen(OPTIONS[row].name);

        if (strncmp(argument, OPTIONS[row].name, len) == 0)
            return OPTIONS[row].read(argument + len, options);
    }
    return false;
}

/* Returns whether the file is /etc/shadow, under any name. That file is pam_unix's, and programs
 * that change it take another lock. */
static bool is_shadow(const char *path)
{
    struct stat file, shadow;

    return stat(path, &file) == 0 && stat("/etc/shadow", &shadow) == 0
        && is_same_file(&file, &shadow);
}

static bool read_arguments(
    const pam_handle_t *pam, int count, const char **arguments, struct options *options)
{
    for (int index = 0; index < count; index++) {
        if (!read_argument(arguments[index], options)) {
            pam_syslog(pam, LOG_ERR, "invalid argument: %s", arguments[index]);
            return false;
        }
    }
    return true;
}

/* Returns whether the arguments, each of which is valid, fit together: file= is among them, but not
 * with /etc/shadow, and they allow new hashes. */
static bool are_valid_together(const pam_handle_t *pam, const struct options *options)
{
    struct message message;

    if (options->file == NULL) {
        pam_syslog(pam, LOG_ERR, "invalid arguments: file= is missing");
        return false;
    }
    if (is_shadow(options->file)) {
        pam_syslog(pam, LOG_ERR, "invalid argument: file=%s is /etc/shadow", options->file);
        return false;
    }
    if (!allows_new_hashes(&options->policy, &message)) {
        pam_syslog(pam, LOG_ERR, "invalid arguments: %s", message.text);
        return false;
    }
    return true;
}

bool read_options(pam_handle_t *pam, int count, const char **arguments, struct options *options)
{
    *options = (struct options){.file = NULL};
    if (!read_arguments(pam, count, arguments, options))
        return false;
    return are_valid_together(pam, options);
}
