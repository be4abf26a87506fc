/* Where a password file is: its folder, and the names of the files that the protocol puts beside
 * it. */
#ifndef PAM_MKPASSWD_PLACE_H
#define PAM_MKPASSWD_PLACE_H

#include <limits.h>
#include <stdbool.h>
#include <sys/stat.h>

#define NAME_SIZE (NAME_MAX + 1)

struct place {
    int folder;
    char name[NAME_SIZE];          /* of the password file */
    char lock_name[NAME_SIZE];     /* of an empty file that is locked during a replacement */
    char new_name[NAME_SIZE];      /* of the new file, until it replaces the password file */
    char exchange_name[NAME_SIZE]; /* of a link that says which two files are being exchanged */
};

/* Follows all links of a path, and opens the folder of the file that it leads to. If this fails,
 * errno says why. The caller closes the place in each case. */
bool open_place(const char *path, struct place *place);

void close_place(const struct place *place);

/* Returns whether two descriptions are of the same file, even if its content has changed. */
bool is_same_file(const struct stat *first, const struct stat *second);

#endif
