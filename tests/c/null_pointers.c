/* Null pointers in each argument of the inline calls, which accept them: no compiler may warn. The
 * program returns 0 if each call does what the header says, and otherwise the line of the first one
 * that doesn't. */
#include <mkpasswd.h>

#define EXPECT(holds) expect((holds), __LINE__)

static const char stored[] = "$1$xxxxxxxx$UYCIxa628.9qXjpQCjM4a.";
static int failed_line; /* the line of the first wrong call */

static void expect(bool holds, int line)
{
    if (!holds && failed_line == 0)
        failed_line = line;
}

static struct mkpasswd_password password(void)
{
    return mkpasswd_password("password");
}

static struct mkpasswd_field field(void)
{
    return mkpasswd_field(stored);
}

/* Each call refuses a null password, as a string and as bytes. */
static void try_null_passwords(void)
{
    const struct mkpasswd_password nulls[] = {mkpasswd_password(NULL),
        mkpasswd_password_bytes(NULL, 0), mkpasswd_password_bytes(NULL, 8)};
    char out[MKPASSWD_TEXT_SIZE];
    struct mkpasswd_report report;

    for (size_t place = 0; place < sizeof nulls / sizeof *nulls; place++) {
        EXPECT(!mkpasswd_login(nulls[place], field(), NULL, &report));
        EXPECT(report.error == MKPASSWD_ERROR_PASSWORD_ZERO_BYTE);
        EXPECT(!mkpasswd_verify(nulls[place], field(), UINT64_MAX, &report));
        EXPECT(report.error == MKPASSWD_ERROR_PASSWORD_ZERO_BYTE);
        EXPECT(!mkpasswd_new(nulls[place], NULL, out, sizeof out, &report));
        EXPECT(report.error == MKPASSWD_ERROR_PASSWORD_ZERO_BYTE);
        EXPECT(!mkpasswd_hash(nulls[place], field(), UINT64_MAX, out, sizeof out, &report));
        EXPECT(report.error == MKPASSWD_ERROR_PASSWORD_ZERO_BYTE);
    }
}

/* A null field is an unknown name, and a null setting is empty, whatever its length argument. */
static void try_null_fields(void)
{
    const struct mkpasswd_field nulls[] = {
        mkpasswd_field(NULL), mkpasswd_field_bytes(NULL, 0), mkpasswd_field_bytes(NULL, 34)};
    const struct mkpasswd_policy cheap = {MKPASSWD_MD5CRYPT, 0, 0};
    char out[MKPASSWD_TEXT_SIZE];
    struct mkpasswd_report report;

    for (size_t place = 0; place < sizeof nulls / sizeof *nulls; place++) {
        EXPECT(!mkpasswd_login(password(), nulls[place], &cheap, &report));
        EXPECT(report.error == MKPASSWD_ERROR_NO_HASH && report.work.digests > 0);
        EXPECT(!mkpasswd_verify(password(), nulls[place], UINT64_MAX, &report));
        EXPECT(report.error == MKPASSWD_ERROR_NO_HASH);
        EXPECT(!mkpasswd_audit(nulls[place], NULL, &report));
        EXPECT(report.error == MKPASSWD_ERROR_NO_HASH);
        EXPECT(!mkpasswd_needs_rehash(nulls[place], NULL, &report));
        EXPECT(report.error == MKPASSWD_ERROR_UNKNOWN_SCHEME);
        EXPECT(!mkpasswd_bound(nulls[place], 8, &report));
        EXPECT(report.error == MKPASSWD_ERROR_UNKNOWN_SCHEME);
        EXPECT(!mkpasswd_hash(password(), nulls[place], UINT64_MAX, out, sizeof out, &report));
        EXPECT(report.error == MKPASSWD_ERROR_UNKNOWN_SCHEME);
    }
}

/* A null policy is the recommended one, and a null report changes no result. */
static void try_null_policies_and_reports(void)
{
    const struct mkpasswd_policy cheap = {MKPASSWD_MD5CRYPT, 0, 0};
    char out[MKPASSWD_TEXT_SIZE];
    struct mkpasswd_report report;

    EXPECT(mkpasswd_login(password(), field(), NULL, NULL));
    EXPECT(mkpasswd_verify(password(), field(), UINT64_MAX, NULL));
    EXPECT(mkpasswd_needs_rehash(field(), NULL, NULL));
    EXPECT(!mkpasswd_needs_rehash(field(), &cheap, NULL));
    EXPECT(!mkpasswd_audit(field(), NULL, NULL));
    EXPECT(mkpasswd_audit(field(), &cheap, NULL));
    EXPECT(mkpasswd_limit(NULL, NULL));
    EXPECT(mkpasswd_limit(NULL, &report) && report.rounds == 656000);
    EXPECT(mkpasswd_rounds(8, NULL, NULL));
    EXPECT(mkpasswd_bound(field(), 8, NULL));
    EXPECT(mkpasswd_new(password(), &cheap, out, sizeof out, NULL));
    EXPECT(mkpasswd_hash(password(), field(), UINT64_MAX, out, sizeof out, NULL));
    EXPECT(strcmp(out, stored) == 0);
    EXPECT(mkpasswd_setting(NULL, "salt", out, sizeof out, NULL));
    EXPECT(strcmp(out, "$6$rounds=656000$salt") == 0);
}

/* A null `out` counts as one of size 0, whatever the size argument says. A compiler that sees a
 * null pointer beside the size may warn, so main takes the one at the end of its arguments. */
static void try_null_outs(char *null)
{
    const struct mkpasswd_policy cheap = {MKPASSWD_MD5CRYPT, 0, 0};
    char out[MKPASSWD_TEXT_SIZE];
    struct mkpasswd_report report;

    EXPECT(!mkpasswd_new(password(), &cheap, null, MKPASSWD_TEXT_SIZE, &report));
    EXPECT(report.error == MKPASSWD_ERROR_TOO_FEW_BYTES && report.length == 0);
    EXPECT(!mkpasswd_hash(password(), field(), UINT64_MAX, null, MKPASSWD_TEXT_SIZE, &report));
    EXPECT(report.error == MKPASSWD_ERROR_TOO_FEW_BYTES && report.length == 0);
    EXPECT(!mkpasswd_setting(&cheap, "salt", null, MKPASSWD_TEXT_SIZE, &report));
    EXPECT(report.error == MKPASSWD_ERROR_TOO_FEW_BYTES && report.length == 0);
    EXPECT(!mkpasswd_setting(&cheap, null, out, sizeof out, &report));
    EXPECT(report.error == MKPASSWD_ERROR_SALT_LENGTH && strcmp(out, "*0") == 0);
    EXPECT(!mkpasswd_message(MKPASSWD_ERROR_DEAD, null, MKPASSWD_TEXT_SIZE));
    EXPECT(!mkpasswd_scheme_name(MKPASSWD_SCRYPT, null, MKPASSWD_TEXT_SIZE));
}

int main(int count, char **arguments)
{
    try_null_passwords();
    try_null_fields();
    try_null_policies_and_reports();
    try_null_outs(arguments[count]);
    return failed_line;
}
