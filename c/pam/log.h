/* What the module writes to the system log, for an administrator who looks for a mistake, and for
 * fail2ban. No entry depends on the password that was given. */
#ifndef PAM_MKPASSWD_LOG_H
#define PAM_MKPASSWD_LOG_H

#include "options.h"
#include "password_file.h"
#include "replacement.h"

/* Logs a failed login in pam_unix's form. It logs the name only if a line of the file has it, since
 * users sometimes type a password where they are asked for a name. */
void log_failure(pam_handle_t *pam, const char *name, const struct line *line);

/* Logs why no password can match a line. If the field is empty or locked, or no line has the name,
 * it does so only for debugging. */
void log_field(pam_handle_t *pam, const struct options *options, const struct line *line);

/* Logs whose password was changed. */
void log_change(const pam_handle_t *pam, const char *name);

/* Logs why a field was not replaced. It logs nothing if somebody else changed the file, since that
 * is not a failure. */
void log_replacement(
    pam_handle_t *pam, const struct options *options, const char *what, enum outcome outcome);

#endif
