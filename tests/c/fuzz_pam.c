/* Fuzzes pam_mkpasswd.so with any file, conversation and arguments. Checks which logins it accepts,
 * and what the file has after a renewal or a change of password. This program takes PAM's place:
 * what users type and services pass is part of the input. */
#define _GNU_SOURCE /* for memmem */
#include <mkpasswd.h>
#include <security/pam_ext.h>
#include <security/pam_modules.h>
#include <security/pam_modutil.h>
#include <stdarg.h>
#include <stdio.h>
#include <stdlib.h>
#include <string.h>
#include <unistd.h>

#define MUST(holds) ((holds) ? (void)0 : __builtin_trap())
#define PART_SIZE 2048
#define SEPARATOR 0xff
#define FAILURE "authentication failure; " /* how the log entry of a failed login begins */
#define WORDS_OF_FAILURE 10 /* two words, six fields, an empty word and the field user= */
#define BUDGET 300000

/* What the bits of the input's first byte decide. Its value also chooses options and a setting. */
#define REMOVES_FILE 0x10
#define CHANGES_PASSWORD 0x20
#define HAS_MATCHING_FIELD 0x40

/* The parts of the input, each up to a separator. */
struct input {
    char lines_before[PART_SIZE];
    char field[PART_SIZE];
    char behind[PART_SIZE];
    char old_password[PART_SIZE];
    char new_password[PART_SIZE];
    char argument[PART_SIZE];
    char item[PART_SIZE]; /* a PAM item, such as the remote host */
};

/* The password file, and how many bytes it has before ann's field, in it, and after it. */
struct content {
    char text[4 * PART_SIZE];
    size_t before;
    size_t field;
    size_t after;
};

static struct input input;
static char path[64];

int LLVMFuzzerTestOneInput(const uint8_t *data, size_t size);

/* ---- PAM */

/* The handle of these functions is a pointer to an int: whether this is a change of password. */

int pam_get_user(pam_handle_t *pam, const char **user, const char *prompt)
{
    (void)pam;
    (void)prompt;
    *user = "ann";
    return PAM_SUCCESS;
}

int pam_get_authtok(pam_handle_t *pam, int item, const char **password, const char *prompt)
{
    const int *is_change = (const int *)pam;

    (void)prompt;
    *password = item == PAM_AUTHTOK && *is_change ? input.new_password : input.old_password;
    return PAM_SUCCESS;
}

int pam_get_item(const pam_handle_t *pam, int kind, const void **item)
{
    (void)pam;
    (void)kind;
    *item = *input.item != '\0' ? input.item : NULL;
    return PAM_SUCCESS;
}

const char *pam_modutil_getlogin(pam_handle_t *pam)
{
    (void)pam;
    return input.item;
}

int pam_prompt(pam_handle_t *pam, int style, char **response, const char *format, ...)
{
    (void)pam;
    (void)style;
    (void)response;
    MUST(strcmp(format, "%s") == 0);
    return PAM_SUCCESS;
}

/* Takes the place of PAM's function. Counts the words in the log entry of a failed login, since no
 * blank or line feed of the input may get into it. */
void pam_syslog(const pam_handle_t *pam, int priority, const char *format, ...)
{
    char entry[8 * PART_SIZE];
    va_list arguments;
    size_t words = 1;

    (void)pam;
    (void)priority;
    va_start(arguments, format);
    MUST(vsnprintf(entry, sizeof entry, format, arguments) > 0);
    va_end(arguments);
    if (strncmp(entry, FAILURE, strlen(FAILURE)) != 0)
        return;
    MUST(strchr(entry, '\n') == NULL);
    for (const char *place = entry; *place != '\0'; place++)
        words += *place == ' ';
    MUST(words == WORDS_OF_FAILURE);
}

/* ---- The input */

/* Splits the input into its parts, which contain no zero byte. */
static void cut_into_parts(const uint8_t *data, size_t size)
{
    char *part = (char *)&input;
    char *end = part + sizeof input;
    size_t place = 0;

    memset(&input, 0, sizeof input);
    for (; size > 0 && part < end; data++, size--) {
        if (*data == SEPARATOR || place == PART_SIZE - 1) {
            part += PART_SIZE;
            place = 0;
        } else {
            part[place++] = (char)*data;
        }
    }
}

/* Makes the field a hash of the old password, which the fuzzer wouldn't find by chance. */
static void make_matching_field(uint8_t kind)
{
    static const char *const settings[] = {
        "$1$abcdefgh", "$5$rounds=1000$abcd", "$6$rounds=1000$abcd"};
    char hash[MKPASSWD_TEXT_SIZE];

    if (mkpasswd_hash(mkpasswd_password(input.old_password),
            mkpasswd_field(settings[kind % (sizeof settings / sizeof *settings)]), BUDGET, hash,
            sizeof hash, NULL))
        (void)snprintf(input.field, sizeof input.field, "%s", hash);
}

static void put_together(struct content *content)
{
    content->before = (size_t)snprintf(
        content->text, sizeof content->text, "%s\nann:", input.lines_before);
    (void)snprintf(content->text + content->before, sizeof content->text - content->before, "%s%s",
        input.field, input.behind);
    content->field = strcspn(content->text + content->before, ":\n");
    content->after = strlen(content->text) - content->before - content->field;
}

static void write_file(const char *text)
{
    FILE *file = fopen(path, "w");

    MUST(file != NULL && fputs(text, file) >= 0 && fclose(file) == 0);
}

static void read_file(char *text, size_t size)
{
    FILE *file = fopen(path, "r");

    MUST(file != NULL);
    text[fread(text, 1, size - 1, file)] = '\0';
    (void)fclose(file);
}

/* ---- Checks */

static int is_password(const char *password, const char *field, size_t len)
{
    return mkpasswd_verify(
        mkpasswd_password(password), mkpasswd_field_bytes(field, len), UINT64_MAX, NULL);
}

/* Checks that only the field has changed, to a hash of the password. */
static void check_file(const struct content *before, int may_change, const char *password)
{
    char text[sizeof before->text + MKPASSWD_TEXT_SIZE];
    size_t len;

    read_file(text, sizeof text);
    if (strcmp(text, before->text) == 0)
        return;
    len = strlen(text);
    MUST(may_change && memcmp(text, before->text, before->before) == 0);
    MUST(strcmp(text + len - before->after, before->text + before->before + before->field) == 0);
    MUST(is_password(password, text + before->before, len - before->before - before->after));
}

static void check_account(const struct content *content, int status)
{
    char first = content->text[content->before];
    int expected = first == '!' || first == '*' ? PAM_PERM_DENIED : PAM_SUCCESS;

    MUST(status == PAM_SERVICE_ERR || status == expected);
}

static void check_login(const struct content *content, int status)
{
    int is_right = is_password(input.old_password, content->text + content->before, content->field);

    MUST(
        status == PAM_SERVICE_ERR || status == PAM_AUTH_ERR || (status == PAM_SUCCESS && is_right));
}

static void change_password(pam_handle_t *pam, int count, const char **arguments)
{
    const int expired = PAM_CHANGE_EXPIRED_AUTHTOK;
    struct content content;
    int status;

    put_together(&content);
    write_file(content.text);
    status = pam_sm_chauthtok(pam, PAM_PRELIM_CHECK | expired, count, arguments);
    if (status != PAM_SERVICE_ERR)
        check_login(&content, status);
    check_file(&content, 0, "");
    if (status == PAM_SUCCESS)
        status = pam_sm_chauthtok(pam, PAM_UPDATE_AUTHTOK | expired, count, arguments);
    MUST(status != PAM_SUCCESS || *input.new_password != '\0');
    check_file(&content, status == PAM_SUCCESS, input.new_password);
}

static void log_in(pam_handle_t *pam, int count, const char **arguments)
{
    struct content content;
    int status;

    put_together(&content);
    write_file(content.text);
    check_account(&content, pam_sm_acct_mgmt(pam, 0, count, arguments));
    status = pam_sm_authenticate(pam, 0, count, arguments);
    check_login(&content, status);
    check_file(&content, status == PAM_SUCCESS, input.old_password);
}

static void log_in_without_file(pam_handle_t *pam, int count, const char **arguments)
{
    int status;

    MUST(unlink(path) == 0);
    status = pam_sm_authenticate(pam, 0, count, arguments);
    MUST(status == PAM_SERVICE_ERR || status == PAM_AUTHINFO_UNAVAIL);
}

/* Makes an in-memory folder for this process alone, so that no other process renews its hashes. */
static void make_folder(void)
{
    char folder[] = "/dev/shm/fuzz_pam.XXXXXX";

    MUST(mkdtemp(folder) != NULL);
    (void)snprintf(path, sizeof path, "%s/passwords", folder);
}

int LLVMFuzzerTestOneInput(const uint8_t *data, size_t size)
{
    static const char *const others[] = {"debug", "method=md5crypt", "method=scrypt", "rounds=6",
        "rounds=1001", "budget=300000", "budget=1000000"};
    char file[80];
    uint8_t kind = size > 0 ? data[0] : 0;
    const char *other = others[kind % (sizeof others / sizeof *others)];
    const char *arguments[] = {
        file, "renew", "rounds=1000", "budget=300000", other, input.argument};
    int count = 5, is_change = 0; /* without the last argument */

    if (*path == '\0')
        make_folder();
    (void)snprintf(file, sizeof file, "file=%s", path);
    cut_into_parts(data, size);
    if (strstr(input.lines_before, "ann:") != NULL)
        return 0;
    if ((kind & HAS_MATCHING_FIELD) != 0)
        make_matching_field(kind);
    if (*input.argument != '\0')
        count++;
    log_in((pam_handle_t *)&is_change, count, arguments);
    if ((kind & REMOVES_FILE) != 0)
        log_in_without_file((pam_handle_t *)&is_change, count, arguments);
    is_change = 1;
    if ((kind & CHANGES_PASSWORD) != 0)
        change_password((pam_handle_t *)&is_change, count, arguments);
    return 0;
}
