/* A caller that tests a pointer for null only after a call. If the header declared the pointer
 * nonnull, a compiler could remove that test. Without arguments `field` is null, and the program
 * returns 0. */
#include <mkpasswd.h>

int main(int count, char **arguments)
{
    const char *field = arguments[1];
    bool is_in = mkpasswd_login(mkpasswd_password(field), mkpasswd_field(field), NULL, NULL);

    if (count == 1 && !field)
        return 0;
    return is_in ? 2 : 1;
}
