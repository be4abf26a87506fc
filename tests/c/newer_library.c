/* mkpasswd_login as in a library that is newer than the Python package. It is linked with this
 * tree's library, whose own mkpasswd_login gets another name. Two environment variables set what it
 * answers: NEWER_ANSWER the result, and NEWER_ERROR the error in the report. */
#include <mkpasswd.h>
#include <stdlib.h>
#include <string.h>

/* Returns the number in an environment variable. */
static long number_of(const char *name)
{
    const char *digits = getenv(name);

    return digits ? strtol(digits, NULL, 10) : 0;
}

int32_t mkpasswd_login_bytes(const uint8_t *password, size_t password_length, const uint8_t *field,
    size_t field_length, uint32_t method, uint32_t rounds, uint64_t budget,
    struct mkpasswd_report *report)
{
    (void)password, (void)password_length, (void)field, (void)field_length;
    (void)method, (void)rounds, (void)budget;
    memset(report, 0, sizeof *report);
    report->error = (uint32_t)number_of("NEWER_ERROR");
    return (int32_t)number_of("NEWER_ANSWER");
}
