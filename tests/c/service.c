/* A service around the login of docs/C.md, whose code is compiled together with this file. Its
 * command is `service PASSWORD [FIELD]`, with `null` for no password. The only user has this field;
 * without it, the name is unknown. The status is 0 if the login is accepted. */
#include "service.h"
#include <string.h>

static const char *stored;

bool find_field(const char *name, char field[MKPASSWD_TEXT_SIZE])
{
    (void)name;
    if (!stored)
        return false;
    copy_field(stored, field);
    return true;
}

bool replace_field(const char *name, const char *old, const char *hash)
{
    (void)name;
    (void)old;
    (void)hash;
    return false;
}

void log_login(const char *name, const char *what)
{
    (void)name;
    (void)what;
}

int main(int argc, char **argv)
{
    const char *password = strcmp(argv[1], "null") == 0 ? NULL : argv[1];

    stored = argc > 2 ? argv[2] : NULL;
    return !log_in("ann", password);
}
