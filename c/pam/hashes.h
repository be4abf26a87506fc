/* What the module asks of the proved library. Only hashes.c calls it. */
#ifndef PAM_MKPASSWD_HASHES_H
#define PAM_MKPASSWD_HASHES_H

#include <mkpasswd.h>
#include <stdbool.h>
#include <stdint.h>

struct hash {
    char text[MKPASSWD_TEXT_SIZE];
};

struct message {
    char text[MKPASSWD_TEXT_SIZE];
};

/* The result of checking a password. */
struct check {
    bool matches;
    bool is_outdated;  /* the password matches, and a new hash would replace the stored one */
    bool lacks_memory; /* nothing was checked */
};

/* Finds the number of a method by its name. Returns false for an unknown name. */
bool find_method(const char *name, uint32_t *method);

/* Returns whether the policy is valid, and its budget allows a new hash of each password of up to
 * 64 bytes. If not, the message says why. */
bool allows_new_hashes(const struct mkpasswd_policy *policy, struct message *message);

/* Checks a password against a field; for an unknown name the field is empty. If the field can't be
 * checked, this takes as long as a new hash. */
struct check check_password(
    const struct mkpasswd_policy *policy, const char *password, struct mkpasswd_field field);

/* Hashes a new password. If it returns false, the message says why. */
bool make_hash(const struct mkpasswd_policy *policy, const char *password, struct hash *hash,
    struct message *message);

/* Wipes a hash, so that the service doesn't keep it. */
void wipe_hash(struct hash *hash);

enum field_problem {
    NO_PROBLEM,        /* some password may match */
    CLOSED_ON_PURPOSE, /* the field is empty or locked */
    NEEDS_NEW_HASH,    /* the field holds something that no password matches */
};

/* Returns whether some password can match a field, and puts the reason why not into the message. It
 * gets no password, so its answer depends on none. */
enum field_problem problem_of_field(
    const struct mkpasswd_policy *policy, struct mkpasswd_field field, struct message *message);

#endif
