/* The four calls of PAM. A table in pam_mkpasswd(8) says what each returns for which field, name
 * and argument. The module is not proved, but the calls that check and hash are. */
#include "hashes.h"
#include "log.h"
#include "options.h"
#include "password_file.h"
#include "replacement.h"
#include <errno.h>
#include <fcntl.h>
#include <security/pam_ext.h>
#include <security/pam_modules.h>
#include <stdbool.h>
#include <string.h>
#include <syslog.h>
#include <unistd.h>

/* A name and its line in the file. If the file can't be read, no line has the name. */
struct account {
    const char *name;
    struct password_file file;
    struct line line;
    int error; /* why the file can't be read, or 0 */
};

static void open_account(const char *path, const char *name, struct account *account)
{
    account->name = name;
    account->error = read_password_file(AT_FDCWD, path, &account->file);
    account->line = find_line(&account->file, name);
}

static void close_account(struct account *account)
{
    close_password_file(&account->file);
}

static void log_unreadable(
    const pam_handle_t *pam, const struct options *options, const struct account *account)
{
    pam_syslog(pam, LOG_ERR, "%s: %s", options->file, strerror(account->error));
}

/* Logs why a password wasn't accepted. */
static void log_refusal(pam_handle_t *pam, const struct options *options,
    const struct account *account, const struct check *check)
{
    if (check->lacks_memory)
        pam_syslog(pam, LOG_ERR, "out of memory");
    log_field(pam, options, &account->line);
    log_failure(pam, account->name, &account->line);
}

/* Checks the password before anything else. So an unreadable file and an unknown name take as much
 * time as a wrong password. */
static int check_account(pam_handle_t *pam, const struct options *options,
    const struct account *account, const char *password, bool *is_outdated)
{
    struct check check = check_password(&options->policy, password, account->line.field);

    *is_outdated = check.is_outdated;
    if (account->error != 0) {
        log_unreadable(pam, options, account);
        return PAM_AUTHINFO_UNAVAIL;
    }
    if (check.matches)
        return PAM_SUCCESS;
    log_refusal(pam, options, account, &check);
    return PAM_AUTH_ERR;
}

/* Replaces an outdated hash with a new one of the same password. The user gets in even if this
 * fails.
 */
static void renew(pam_handle_t *pam, const struct options *options, const struct account *account,
    const char *password)
{
    struct hash hash;
    struct message message;
    struct replacement replacement = {account->name, account->line.field, hash.text};

    if (!make_hash(&options->policy, password, &hash, &message))
        pam_syslog(pam, LOG_WARNING, "%s: not renewed: %s", options->file, message.text);
    else
        log_replacement(pam, options, "not renewed", replace_field(options->file, &replacement));
    wipe_hash(&hash);
}

int pam_sm_authenticate(pam_handle_t *pam, int flags, int count, const char **arguments)
{
    struct options options;
    struct account account;
    const char *name, *password;
    bool is_outdated;
    int status;

    (void)flags;
    if (!read_options(pam, count, arguments, &options))
        return PAM_SERVICE_ERR;
    if (pam_get_user(pam, &name, NULL) != PAM_SUCCESS
        || pam_get_authtok(pam, PAM_AUTHTOK, &password, NULL) != PAM_SUCCESS)
        return PAM_AUTH_ERR;
    open_account(options.file, name, &account);
    status = check_account(pam, &options, &account, password, &is_outdated);
    if (status == PAM_SUCCESS && is_outdated && options.renews)
        renew(pam, &options, &account, password);
    close_account(&account);
    return status;
}

/* The module has no credentials to set. The arguments have to be valid, as for every call. */
int pam_sm_setcred(pam_handle_t *pam, int flags, int count, const char **arguments)
{
    struct options options;

    (void)flags;
    return read_options(pam, count, arguments, &options) ? PAM_SUCCESS : PAM_SERVICE_ERR;
}

/* Returns PAM_SUCCESS if the account may log in with a hash or have it replaced, else why not. */
static int status_of_account(
    const pam_handle_t *pam, const struct options *options, const struct account *account)
{
    if (account->error != 0) {
        log_unreadable(pam, options, account);
        return PAM_AUTHINFO_UNAVAIL;
    }
    if (account->line.number == 0)
        return PAM_USER_UNKNOWN;
    return is_locked(account->line.field) ? PAM_PERM_DENIED : PAM_SUCCESS;
}

int pam_sm_acct_mgmt(pam_handle_t *pam, int flags, int count, const char **arguments)
{
    struct options options;
    struct account account;
    const char *name;
    int status;

    (void)flags;
    if (!read_options(pam, count, arguments, &options))
        return PAM_SERVICE_ERR;
    if (pam_get_user(pam, &name, NULL) != PAM_SUCCESS)
        return PAM_USER_UNKNOWN;
    open_account(options.file, name, &account);
    status = status_of_account(pam, &options, &account);
    close_account(&account);
    return status;
}

/* Shows the user a sentence, unless the service wants silence. */
static void show_error(pam_handle_t *pam, int flags, const char *text)
{
    if ((flags & PAM_SILENT) == 0)
        (void)pam_prompt(pam, PAM_ERROR_MSG, NULL, "%s", text);
}

/* The superuser's own programs may set a password without the old one. But a login that found the
 * password expired runs as the superuser too. */
static bool needs_old_password(int flags)
{
    return getuid() != 0 || (flags & PAM_CHANGE_EXPIRED_AUTHTOK) != 0;
}

/* Returns PAM_SUCCESS if the password may be changed, else why not. PAM asks for the old one only
 * in the first round, and keeps it for the second. */
static int check_old_password(
    pam_handle_t *pam, int flags, const struct options *options, const struct account *account)
{
    const char *password;
    bool is_outdated;

    if (!needs_old_password(flags))
        return status_of_account(pam, options, account);
    if (pam_get_authtok(pam, PAM_OLDAUTHTOK, &password, NULL) != PAM_SUCCESS)
        return PAM_AUTHTOK_RECOVERY_ERR;
    return check_account(pam, options, account, password, &is_outdated);
}

/* The first round changes nothing. Each module of a stack only says whether it could. */
static int prepare_change(
    pam_handle_t *pam, int flags, const struct options *options, const struct account *account)
{
    if (account->error == 0 && !can_replace(options->file)) {
        pam_syslog(
            pam, LOG_ERR, "%s: passwords can't be changed: %s", options->file, strerror(errno));
        show_error(pam, flags, "This service can't change passwords.");
        return PAM_AUTHTOK_ERR;
    }
    return check_old_password(pam, flags, options, account);
}

/* Asks twice for the new password, unless an earlier module has done so. */
static int get_new_password(pam_handle_t *pam, int flags, const char **password)
{
    if (pam_get_authtok(pam, PAM_AUTHTOK, password, NULL) != PAM_SUCCESS)
        return PAM_AUTHTOK_ERR;
    if (**password != '\0')
        return PAM_SUCCESS;
    show_error(pam, flags, "No password has been supplied.");
    return PAM_AUTHTOK_ERR;
}

/* Tells the user how replacing the field ended, and returns PAM's status for it. */
static int answer_change(pam_handle_t *pam, int flags, enum outcome outcome)
{
    switch (outcome) {
    case DONE:
        return PAM_SUCCESS;
    case LOCK_IS_HELD:
    case FILE_CHANGED:
        show_error(pam, flags, "The password file is in use. Please try again.");
        return PAM_AUTHTOK_LOCK_BUSY;
    case FAILED:
        break;
    }
    show_error(pam, flags, "The password could not be stored.");
    return PAM_AUTHTOK_ERR;
}

/* Puts a hash of the new password in place of the field that was checked. */
static int store_hash(pam_handle_t *pam, int flags, const struct options *options,
    const struct account *account, const char *hash)
{
    const struct replacement replacement = {account->name, account->line.field, hash};
    enum outcome outcome = replace_field(options->file, &replacement);

    if (outcome == DONE)
        log_change(pam, account->name);
    else
        log_replacement(pam, options, "password not changed", outcome);
    return answer_change(pam, flags, outcome);
}

/* The second round makes the change. It checks the old password again, since the field may have
 * changed. */
static int change(
    pam_handle_t *pam, int flags, const struct options *options, const struct account *account)
{
    struct hash hash;
    struct message message;
    const char *password;
    int status = check_old_password(pam, flags, options, account);

    if (status == PAM_SUCCESS)
        status = get_new_password(pam, flags, &password);
    if (status != PAM_SUCCESS)
        return status;
    if (!make_hash(&options->policy, password, &hash, &message)) {
        pam_syslog(pam, LOG_WARNING, "%s: password not changed: %s", options->file, message.text);
        show_error(pam, flags, "The password can't be hashed. Is it too long?");
        return PAM_AUTHTOK_ERR;
    }
    status = store_hash(pam, flags, options, account, hash.text);
    wipe_hash(&hash);
    return status;
}

int pam_sm_chauthtok(pam_handle_t *pam, int flags, int count, const char **arguments)
{
    struct options options;
    struct account account;
    const char *name;
    int status;

    if (!read_options(pam, count, arguments, &options))
        return PAM_SERVICE_ERR;
    if (pam_get_user(pam, &name, NULL) != PAM_SUCCESS)
        return PAM_USER_UNKNOWN;
    open_account(options.file, name, &account);
    if ((flags & PAM_PRELIM_CHECK) != 0)
        status = prepare_change(pam, flags, &options, &account);
    else
        status = change(pam, flags, &options, &account);
    close_account(&account);
    return status;
}
