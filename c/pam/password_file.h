/* A password file: lines of `name:field`. What follows a second colon is for other programs. */
#ifndef PAM_MKPASSWD_PASSWORD_FILE_H
#define PAM_MKPASSWD_PASSWORD_FILE_H

#include <mkpasswd.h>
#include <stdbool.h>
#include <stddef.h>
#include <sys/stat.h>

/* A file as it was when it was read. */
struct password_file {
    int fd;
    struct stat status;
    char *bytes;
    size_t size;
};

/* The line of a name. The field is what is between the first colon and the next one, or the end of
 * the line. It points into the file's bytes, and is empty if no line has the name. */
struct line {
    unsigned long number; /* 1 for the first line; 0 if no line has the name */
    struct mkpasswd_field field;
};

/* Reads a regular file. A relative path starts at the folder. Returns 0, or the number of the
 * error; after an error the file has no bytes. The caller closes the file in each case. */
int read_password_file(int folder, const char *path, struct password_file *file);

void close_password_file(struct password_file *file);

/* Finds the first line of a name. It always compares the names of all lines, so that its time
 * doesn't show where the name is. */
struct line find_line(const struct password_file *file, const char *name);

bool is_locked(struct mkpasswd_field field);

bool is_same_field(struct mkpasswd_field first, struct mkpasswd_field second);

#endif
