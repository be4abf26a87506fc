/* A login by the library: `log_in PASSWORD FIELD` returns 0 if the login is accepted. */
#include <mkpasswd.h>

int main(int argc, char **argv)
{
    const struct mkpasswd_policy policy = {.rounds = 5000};

    if (argc != 3)
        return 2;
    if (!mkpasswd_login(mkpasswd_password(argv[1]), mkpasswd_field(argv[2]), &policy, NULL))
        return 1;
    return 0;
}
