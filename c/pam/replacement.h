/* Replaces one field of a password file, by the protocol that REPLACING A FIELD in pam_mkpasswd(8)
 * describes. */
#ifndef PAM_MKPASSWD_REPLACEMENT_H
#define PAM_MKPASSWD_REPLACEMENT_H

#include "password_file.h"

enum outcome {
    DONE,
    LOCK_IS_HELD, /* by another process, for about a second */
    FILE_CHANGED, /* by somebody else, or it has another field for the name */
    FAILED,       /* errno says why */
};

struct replacement {
    const char *name;
    struct mkpasswd_field checked; /* the field to replace, if the line still has it */
    const char *hash;              /* the new field */
};

/* Replaces a field. Unless it returns DONE, the file stays as it is. */
enum outcome replace_field(const char *path, const struct replacement *replacement);

/* Returns whether this process may replace the file. If not, errno says why. */
bool can_replace(const char *path);

#endif
