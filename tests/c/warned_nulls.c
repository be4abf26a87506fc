/* Calls of exported functions with a null pointer in each argument that needs an object. A compiler
 * must warn about each marked line. The method 6 is sha512crypt, and 145 is MKPASSWD_TEXT_SIZE. */
#include <mkpasswd.h>

int main(void)
{
    struct mkpasswd_report report;
    uint8_t out[MKPASSWD_TEXT_SIZE] = "", *bytes = out;
    int results = 0;

    results += mkpasswd_login_bytes(NULL, 1, bytes, 1, 6, 0, 1, &report);      /* NOLINT: warns */
    results += mkpasswd_login_bytes(bytes, 1, NULL, 1, 6, 0, 1, &report);      /* NOLINT: warns */
    results += mkpasswd_login_bytes(bytes, 1, bytes, 1, 6, 0, 1, NULL);        /* NOLINT: warns */
    results += mkpasswd_new_bytes(NULL, 1, 6, 0, 1, out, 145, &report);        /* NOLINT: warns */
    results += mkpasswd_new_bytes(bytes, 1, 6, 0, 1, NULL, 145, &report);      /* NOLINT: warns */
    results += mkpasswd_new_bytes(bytes, 1, 6, 0, 1, out, 145, NULL);          /* NOLINT: warns */
    results += mkpasswd_needs_rehash_bytes(NULL, 1, 6, 0, &report);            /* NOLINT: warns */
    results += mkpasswd_needs_rehash_bytes(bytes, 1, 6, 0, NULL);              /* NOLINT: warns */
    results += mkpasswd_audit_bytes(NULL, 1, 6, 0, 0, &report);                /* NOLINT: warns */
    results += mkpasswd_audit_bytes(bytes, 1, 6, 0, 0, NULL);                  /* NOLINT: warns */
    results += mkpasswd_limit_bytes(6, 0, 0, NULL);                            /* NOLINT: warns */
    results += mkpasswd_rounds_bytes(1, 6, 0, 0, NULL);                        /* NOLINT: warns */
    results += mkpasswd_verify_bytes(NULL, 1, bytes, 1, 1, &report);           /* NOLINT: warns */
    results += mkpasswd_verify_bytes(bytes, 1, NULL, 1, 1, &report);           /* NOLINT: warns */
    results += mkpasswd_verify_bytes(bytes, 1, bytes, 1, 1, NULL);             /* NOLINT: warns */
    results += mkpasswd_hash_bytes(NULL, 1, bytes, 1, 1, out, 145, &report);   /* NOLINT: warns */
    results += mkpasswd_hash_bytes(bytes, 1, NULL, 1, 1, out, 145, &report);   /* NOLINT: warns */
    results += mkpasswd_hash_bytes(bytes, 1, bytes, 1, 1, NULL, 145, &report); /* NOLINT: warns */
    results += mkpasswd_hash_bytes(bytes, 1, bytes, 1, 1, out, 145, NULL);     /* NOLINT: warns */
    results += mkpasswd_setting_bytes(6, 0, NULL, 1, out, 145, &report);       /* NOLINT: warns */
    results += mkpasswd_setting_bytes(6, 0, bytes, 1, NULL, 145, &report);     /* NOLINT: warns */
    results += mkpasswd_setting_bytes(6, 0, bytes, 1, out, 145, NULL);         /* NOLINT: warns */
    results += mkpasswd_bound_bytes(NULL, 1, 1, &report);                      /* NOLINT: warns */
    results += mkpasswd_bound_bytes(bytes, 1, 1, NULL);                        /* NOLINT: warns */
    results += mkpasswd_message_bytes(1, NULL, 145);                           /* NOLINT: warns */
    results += mkpasswd_scheme_name_bytes(1, NULL, 145);                       /* NOLINT: warns */
    return results;
}
