/* The arguments that follow pam_mkpasswd.so in a file of /etc/pam.d. */
#ifndef PAM_MKPASSWD_OPTIONS_H
#define PAM_MKPASSWD_OPTIONS_H

#include "hashes.h"
#include <security/pam_modules.h>
#include <stdbool.h>

struct options {
    const char *file; /* an absolute path */
    struct mkpasswd_policy policy;
    bool renews;
    bool is_debugging;
};

/* Reads all arguments. If one is invalid or missing, or they allow no new hash, it logs that and
 * returns false. */
bool read_options(pam_handle_t *pam, int count, const char **arguments, struct options *options);

#endif
