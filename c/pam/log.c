/* Writes the entries of the system log. */
#include "log.h"
#include "hashes.h"
#include <errno.h>
#include <security/pam_ext.h>
#include <security/pam_modutil.h>
#include <string.h>
#include <syslog.h>
#include <unistd.h>

#define WORD_SIZE 256
#define DELETE 0x7f

/* A value of the entry for a failed login, as one word. */
struct word {
    char text[WORD_SIZE];
};

/* Turns a text that a stranger may have chosen into one word. With a blank or a line feed, the text
 * could forge the values that follow it, or another entry. */
static struct word word_of(const char *text)
{
    struct word word = {""};
    size_t len = text != NULL ? strnlen(text, WORD_SIZE - 1) : 0;

    for (size_t index = 0; index < len; index++) {
        unsigned char character = (unsigned char)text[index];

        word.text[index] = text[index];
        if (character <= ' ' || character == DELETE)
            word.text[index] = '?';
    }
    return word;
}

static struct word item_word(const pam_handle_t *pam, int item)
{
    const void *value = NULL;

    if (pam_get_item(pam, item, &value) != PAM_SUCCESS)
        value = NULL;
    return word_of(value);
}

void log_failure(pam_handle_t *pam, const char *name, const struct line *line)
{
    struct word login_name = word_of(pam_modutil_getlogin(pam));
    struct word terminal = item_word(pam, PAM_TTY);
    struct word remote_user = item_word(pam, PAM_RUSER);
    struct word remote_host = item_word(pam, PAM_RHOST);
    struct word user = word_of(line->number > 0 ? name : NULL);

    pam_syslog(pam, LOG_NOTICE,
        "authentication failure; logname=%s uid=%d euid=%d tty=%s ruser=%s rhost=%s %s%s",
        login_name.text, (int)getuid(), (int)geteuid(), terminal.text, remote_user.text,
        remote_host.text, line->number > 0 ? " user=" : "", user.text);
}

void log_field(pam_handle_t *pam, const struct options *options, const struct line *line)
{
    struct message message;
    enum field_problem problem = problem_of_field(&options->policy, line->field, &message);
    int priority = problem == NEEDS_NEW_HASH ? LOG_WARNING : LOG_DEBUG;

    if (problem == NO_PROBLEM || (priority == LOG_DEBUG && !options->is_debugging))
        return;
    if (line->number == 0)
        pam_syslog(pam, priority, "%s: no line has this name", options->file);
    else
        pam_syslog(pam, priority, "%s: line %lu: %s", options->file, line->number, message.text);
}

void log_change(const pam_handle_t *pam, const char *name)
{
    struct word user = word_of(name);

    pam_syslog(pam, LOG_NOTICE, "password changed for %s", user.text);
}

void log_replacement(
    pam_handle_t *pam, const struct options *options, const char *what, enum outcome outcome)
{
    if (outcome == LOCK_IS_HELD)
        pam_syslog(pam, LOG_WARNING, "%s: %s: another process keeps the lock", options->file, what);
    if (outcome == FAILED)
        pam_syslog(pam, LOG_WARNING, "%s: %s: %s", options->file, what, strerror(errno));
}
