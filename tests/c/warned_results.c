/* Calls whose result is ignored. A compiler must warn about each marked line. The method 6 is
 * sha512crypt, and 145 is MKPASSWD_TEXT_SIZE. */
#include <mkpasswd.h>

static void ignore_the_headers_own(struct mkpasswd_password password, struct mkpasswd_field field)
{
    struct mkpasswd_report report;
    char out[MKPASSWD_TEXT_SIZE] = "";

    mkpasswd_login(password, field, NULL, &report);              /* NOLINT: warns */
    mkpasswd_new(password, NULL, out, sizeof out, &report);      /* NOLINT: warns */
    mkpasswd_needs_rehash(field, NULL, &report);                 /* NOLINT: warns */
    mkpasswd_audit(field, NULL, &report);                        /* NOLINT: warns */
    mkpasswd_limit(NULL, &report);                               /* NOLINT: warns */
    mkpasswd_rounds(1, NULL, &report);                           /* NOLINT: warns */
    mkpasswd_verify(password, field, 1, &report);                /* NOLINT: warns */
    mkpasswd_hash(password, field, 1, out, sizeof out, &report); /* NOLINT: warns */
    mkpasswd_setting(NULL, "salt", out, sizeof out, &report);    /* NOLINT: warns */
    mkpasswd_bound(field, 1, &report);                           /* NOLINT: warns */
    mkpasswd_message(1, out, sizeof out);                        /* a message may be ignored */
    mkpasswd_scheme_name(1, out, sizeof out);
}

static void ignore_the_exported(const uint8_t *bytes)
{
    struct mkpasswd_report report;
    uint8_t out[MKPASSWD_TEXT_SIZE] = "";

    mkpasswd_login_bytes(bytes, 1, bytes, 1, 6, 0, 1, &report);    /* NOLINT: warns */
    mkpasswd_new_bytes(bytes, 1, 6, 0, 1, out, 145, &report);      /* NOLINT: warns */
    mkpasswd_needs_rehash_bytes(bytes, 1, 6, 0, &report);          /* NOLINT: warns */
    mkpasswd_audit_bytes(bytes, 1, 6, 0, 0, &report);              /* NOLINT: warns */
    mkpasswd_limit_bytes(6, 0, 0, &report);                        /* NOLINT: warns */
    mkpasswd_rounds_bytes(1, 6, 0, 0, &report);                    /* NOLINT: warns */
    mkpasswd_verify_bytes(bytes, 1, bytes, 1, 1, &report);         /* NOLINT: warns */
    mkpasswd_hash_bytes(bytes, 1, bytes, 1, 1, out, 145, &report); /* NOLINT: warns */
    mkpasswd_setting_bytes(6, 0, bytes, 1, out, 145, &report);     /* NOLINT: warns */
    mkpasswd_bound_bytes(bytes, 1, 1, &report);                    /* NOLINT: warns */
    mkpasswd_message_bytes(1, out, 145);
    mkpasswd_scheme_name_bytes(1, out, 145);
}

int main(void)
{
    const uint8_t none = 0;

    ignore_the_headers_own(mkpasswd_password(""), mkpasswd_field(""));
    ignore_the_exported(&none);
    return 0;
}
