/* The service around the code of docs/C.md. `c_page FIELD PASSWORD [NEW]` has one user, ann, with
 * this field, or no user if it is `-`. It tries to log ann in, then prints her field, and the log
 * on standard error, and at last hashes the new password. The status is 0 if she is logged in.
 *
 * Two variables of the environment change the field during the login. FIELDS is a list, separated
 * by blanks: each time that the service has read the field, somebody stores the next one.
 * AFTER_RENEWAL is the field that somebody stores as soon as the service has stored a new hash. If
 * a third variable, READ_ONLY, is set, no new hash can be stored. */
#include <mkpasswd.h>
#include <stdio.h>
#include <stdlib.h>

/* Functions that docs/C.md has. */
bool log_in(const char *name, const char *typed);
bool hash_new_password(const char *typed, char *hash, const char **sentence);
void copy_field(const char *stored, char field[MKPASSWD_TEXT_SIZE]);

/* Functions that docs/C.md leaves to the service. */
bool find_field(const char *name, char field[MKPASSWD_TEXT_SIZE]);
bool replace_field(const char *name, const char *old, const char *hash);
void log_login(const char *name, const char *what);

#define NO_USER "-"

static char stored[1000]; /* longer than any hash, as a column of a database may be */
static const char *next_fields = "";

static void store(const char *field, size_t length)
{
    (void)snprintf(stored, sizeof stored, "%.*s", (int)length, field);
}

static void store_next_field(void)
{
    size_t length = strcspn(next_fields, " ");

    if (length == 0)
        return;
    store(next_fields, length);
    next_fields += length;
    next_fields += strspn(next_fields, " ");
}

bool find_field(const char *name, char field[MKPASSWD_TEXT_SIZE])
{
    bool is_found = strcmp(name, "ann") == 0 && strcmp(stored, NO_USER) != 0;

    if (is_found)
        copy_field(stored, field);
    store_next_field();
    return is_found;
}

bool replace_field(const char *name, const char *old, const char *hash)
{
    const char *after = getenv("AFTER_RENEWAL");

    if (getenv("READ_ONLY") || strcmp(name, "ann") != 0 || strcmp(old, stored) != 0)
        return false;
    if (!after)
        after = hash;
    store(after, strlen(after));
    return true;
}

void log_login(const char *name, const char *what)
{
    (void)fprintf(stderr, "%s: %s\n", name ? name : "somebody", what);
}

int main(int argc, char **argv)
{
    const char *sentence;
    char hash[MKPASSWD_TEXT_SIZE];
    bool is_in;

    if (getenv("FIELDS"))
        next_fields = getenv("FIELDS");
    store(argv[1], strlen(argv[1]));
    is_in = log_in("ann", argv[2]);
    (void)puts(stored);
    if (argc > 3)
        (void)puts(hash_new_password(argv[3], hash, &sentence) ? hash : sentence);
    return !is_in;
}
