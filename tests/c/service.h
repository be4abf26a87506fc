/* Counts the work of the login of docs/C.md: its call of mkpasswd_login becomes one that prints how
 * much it did. The compiler reads this header first (-include), so the login needs no change. */
#ifndef SERVICE_H
#define SERVICE_H

#include <inttypes.h>
#include <mkpasswd.h>
#include <stdio.h>

/* Functions that docs/C.md has. */
bool log_in(const char *name, const char *typed);
void copy_field(const char *stored, char field[MKPASSWD_TEXT_SIZE]);

/* Functions that docs/C.md leaves to the service. */
bool find_field(const char *name, char field[MKPASSWD_TEXT_SIZE]);
bool replace_field(const char *name, const char *old, const char *hash);
void log_login(const char *name, const char *what);

/* Prints on standard error how many digests the library computed for a login. */
static inline bool counted_login(struct mkpasswd_password password, struct mkpasswd_field field,
    const struct mkpasswd_policy *policy, struct mkpasswd_report *report)
{
    bool is_in = mkpasswd_login(password, field, policy, report);

    (void)fprintf(stderr, "%" PRIu64 "\n", report->work.digests);
    return is_in;
}

#define mkpasswd_login counted_login

#endif
