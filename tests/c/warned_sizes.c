/* Calls whose size argument, MKPASSWD_TEXT_SIZE, is larger than `out`. gcc must warn about each
 * marked line. */
#include <mkpasswd.h>

int main(void)
{
    struct mkpasswd_password password = mkpasswd_password("");
    struct mkpasswd_field field = mkpasswd_field("");
    uint8_t bytes[64];
    char text[64];
    int results = 0;

    results += mkpasswd_new(password, NULL, text, 145, NULL);      /* NOLINT: warns */
    results += mkpasswd_hash(password, field, 1, text, 145, NULL); /* NOLINT: warns */
    results += mkpasswd_setting(NULL, "salt", text, 145, NULL);    /* NOLINT: warns */
    results += mkpasswd_message(1, text, 145);                     /* NOLINT: warns */
    results += mkpasswd_scheme_name(1, text, 145);                 /* NOLINT: warns */
    results += mkpasswd_message_bytes(1, bytes, 145);              /* NOLINT: warns */
    return results;
}
