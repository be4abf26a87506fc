/* Logs in COUNT times with mkpasswd_login, and prints 1 for each login that succeeds and 0 for each
 * that fails. Without FIELD the name is unknown.
 *
 *     log_in METHOD ROUNDS COUNT PASSWORD [FIELD]
 */
#include <mkpasswd.h>
#include <stdio.h>
#include <stdlib.h>

static uint32_t number_of(const char *text)
{
    return (uint32_t)strtoul(text, NULL, 10);
}

int main(int argc, char **argv)
{
    struct mkpasswd_policy policy = {0, 0, 0};
    struct mkpasswd_password password;
    struct mkpasswd_field field;
    uint32_t count;

    if (argc < 5 || argc > 6)
        return 2;
    policy.method = number_of(argv[1]);
    policy.rounds = number_of(argv[2]);
    count = number_of(argv[3]);
    password = mkpasswd_password(argv[4]);
    field = mkpasswd_field(argc == 6 ? argv[5] : NULL);
    for (uint32_t number = 0; number < count; number++)
        printf("%d\n", mkpasswd_login(password, field, &policy, NULL));
    return 0;
}
