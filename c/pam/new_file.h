/* The new version of a password file, from its creation until it is put in place. */
#ifndef PAM_MKPASSWD_NEW_FILE_H
#define PAM_MKPASSWD_NEW_FILE_H

#include "password_file.h"
#include "place.h"

struct new_file {
    int fd;
    bool has_name;      /* its name is the place's new_name */
    struct stat status; /* once it is whole */
};

/* Makes a copy of the old file that has new_field instead of field, and flushes it to disk. If this
 * fails, errno says why. The caller closes the file in each case. */
bool make_new_file(const struct place *place, const struct password_file *old,
    struct mkpasswd_field field, const char *new_field, struct new_file *new);

/* Gives the file the place's new_name, unless it has a name already. If this fails, returns false,
 * and errno says why. */
bool name_new_file(const struct place *place, struct new_file *new);

/* Removes the file's name, if it has one. */
void remove_new_file(const struct place *place, const struct new_file *new);

/* Closes the file. A file without a name is then gone. */
void close_new_file(const struct new_file *new);

#endif
