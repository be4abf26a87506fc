/* Helpers for fuzzing the library: inaccessible pages, and checks of each report and each `out`. */
#include <crypt.h>
#include <mkpasswd.h>
#include <sys/mman.h>

#define PAGE ((size_t)4096)
#define PATTERN 0xa5        /* fills `out` before a call */
#define LONGEST_CRYPTED 511 /* bytes of a password for libxcrypt */

/* Pages, each between two inaccessible ones. */
enum place {
    PASSWORD_PAGE,
    FIELD_PAGE,
    OUT_PAGE,
    PAGES
};

int LLVMFuzzerTestOneInput(const uint8_t *data, size_t size);

/* The library has no coverage counters, so the methods and errors that occur guide the fuzzer. Some
 * bits of a method's digit and of an error's number are the place of a counter. */
#define METHOD_MASK 7
#define ERROR_MASK 31
__attribute__((
    section("__libfuzzer_extra_counters"))) static uint8_t seen[METHOD_MASK + 1][ERROR_MASK + 1];
static uint8_t *pages[PAGES];

static void must(bool holds)
{
    if (!holds)
        __builtin_trap();
}

static uint8_t *page_of(enum place place)
{
    if (!pages[place]) {
        uint8_t *first = mmap(NULL, 3 * PAGE, PROT_NONE, MAP_PRIVATE | MAP_ANONYMOUS, -1, 0);

        pages[place] = first + PAGE;
        must(mprotect(pages[place], PAGE, PROT_READ | PROT_WRITE) == 0);
    }
    return pages[place];
}

/* Puts bytes at the end of a page. */
static uint8_t *at_end(enum place place, const void *bytes, size_t length)
{
    uint8_t *end = page_of(place) + PAGE;

    memcpy(end - length, bytes, length);
    return end - length;
}

/* Returns an `out` of this size, at the end of a page that is full of PATTERN. */
static char *new_out(size_t out_size)
{
    uint8_t *page = page_of(OUT_PAGE);

    memset(page, PATTERN, PAGE);
    return (char *)page + PAGE - out_size;
}

/* Returns a report that no call has filled. */
static struct mkpasswd_report unfilled_report(void)
{
    struct mkpasswd_report report;

    memset(&report, 0xff, sizeof report);
    return report;
}

/* Returns the result of a call, after checking its report: if it has an error, the header defines
 * that and the result is false; `outdated` is 0 or 1. */
static bool checked(bool result, const struct mkpasswd_report *report)
{
    char message[MKPASSWD_TEXT_SIZE];

    if (report->error != 0)
        must(!result && mkpasswd_message(report->error, message, sizeof message));
    must(report->outdated <= 1);
    return result;
}

/* Checks that `out` has a string of the reported length, or after an error the token as far as it
 * fits, and that the call wrote no other byte of the page. */
static void check_out(const struct mkpasswd_report *report, size_t out_size, const char *token)
{
    const uint8_t *page = pages[OUT_PAGE];
    const char *out = (const char *)page + PAGE - out_size;
    size_t length = out_size == 0 ? 0 : strlen(out);
    bool has_all_of_token = out_size > strlen(token);

    if (report->error == 0)
        must(length == report->length && length < out_size);
    else
        must(report->length == 0);
    if (report->error != 0 && out_size != 0) {
        must(length == (has_all_of_token ? strlen(token) : out_size - 1));
        must(memcmp(out, token, length) == 0);
    }
    for (size_t place = 0; place < PAGE - out_size; place++)
        must(page[place] == PATTERN);
    for (size_t place = length + 1; place < out_size; place++)
        must((uint8_t)out[place] == PATTERN);
}

/* Returns libxcrypt's hash of a password with a setting, or NULL if it refuses them. */
static const char *crypted(struct mkpasswd_password password, const char *setting)
{
    static struct crypt_data crypt_data;
    char text[LONGEST_CRYPTED + 1] = "";
    const char *hash;

    if (password.length > LONGEST_CRYPTED || memchr(password.bytes, 0, password.length))
        return NULL;
    memcpy(text, password.bytes, password.length);
    hash = crypt_r(text, setting, &crypt_data);
    return hash && hash[0] == '$' ? hash : NULL;
}
