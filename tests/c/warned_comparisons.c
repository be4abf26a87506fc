/* Comparisons that are always or never true, since a call's result is a bool. A compiler must warn
 * about each marked line. */
#include <mkpasswd.h>

static bool login(void)
{
    return mkpasswd_login(mkpasswd_password(""), mkpasswd_field(""), NULL, NULL);
}

static bool verify(void)
{
    return mkpasswd_verify(mkpasswd_password(""), mkpasswd_field(""), 1, NULL);
}

int main(void)
{
    struct mkpasswd_password password = mkpasswd_password("");
    struct mkpasswd_field field = mkpasswd_field("");
    int results = 0;

    results += mkpasswd_login(password, field, NULL, NULL) >= 0;  /* NOLINT: warns */
    results += mkpasswd_login(password, field, NULL, NULL) < 0;   /* NOLINT: warns */
    results += mkpasswd_login(password, field, NULL, NULL) != -1; /* NOLINT: warns */
    results += mkpasswd_verify(password, field, 1, NULL) >= 0;    /* NOLINT: warns */
    results += mkpasswd_verify(password, field, 1, NULL) != -1;   /* NOLINT: warns */
    results += login() >= 0;                                      /* NOLINT: warns */
    results += login() != MKPASSWD_ERROR_WRONG_PASSWORD;          /* NOLINT: warns */
    results += login() == MKPASSWD_ERROR_WRONG_PASSWORD;          /* NOLINT: warns */
    results += verify() != -1;                                    /* NOLINT: warns */
    return results;
}
