/* Makes the calls of mkpasswd.h that standard input asks for, and prints a line for each.
 * tests/support/driver.py builds this as C and as C++, writes the rows and reads the lines.
 *
 * A row is the name of a call without `mkpasswd_`, and its arguments with the header's names:
 *
 *     verify_bytes password=70617373 stored=24312461 budget=150000000
 *
 * Bytes are in hexadecimal, or `null`. An inline call gets them from mkpasswd_password_bytes() and
 * mkpasswd_field_bytes(). If `text:` precedes them, they are a string, and an inline call gets them
 * from mkpasswd_password() and mkpasswd_field(). Missing arguments are empty, or 0. `out_size=null`
 * means a null `out`.
 * `new_over` is mkpasswd_new_bytes with the password in `out`.
 *
 * The rows `set threads=N` (the number of threads that make calls), `set refused=N` (the allocation
 * that fails, from 1) and `set entropy=HEX`, `entropy=none` or `entropy=real` apply to the rows
 * after them.
 *
 * A line has the result, the numbers of the report, the counts of counted_calls.h, and the content
 * of `out`: its string, `unchanged`, or `SPILT` if the call wrote other bytes.
 *
 * Input is read-only. Input, `out` and the report each end at an inaccessible page. Each call is
 * made twice, with 26 KiB of stack left above such a page (not with -DSANITIZED), and must give the
 * same answer both times: first with a report full of 0xff, then with one full of zeros. The second
 * time, an inline call gets no report, and a null policy instead of one of zeros. */
#ifndef _GNU_SOURCE
#define _GNU_SOURCE
#endif
#include "counted_calls.h"
#include "guarded_pages.h"
#include <inttypes.h>
#include <pthread.h>
#include <stdio.h>
/* The calls of the header come from a shared library; all names after this are hidden. */
#pragma GCC visibility push(hidden)
#include <mkpasswd.h>

#define PATTERN 0xa5 /* fills `out` before a call */
#define MOST_THREADS 8
#define STACK ((size_t)64 * 1024)
#define STACK_LEFT ((size_t)26 * 1024)
#define LONGEST_ROW (3 * PAGE)
#define TEXT "text:" /* before the digits of a string */
#define SIZE_OF_NULL 100

static void *allocated(void *block)
{
    if (!block)
        abort();
    return block;
}

/* ---- Rows */

/* Bytes that a call reads. */
struct input {
    uint8_t *page; /* the bytes are at its end */
    const uint8_t *bytes;
    size_t length;
    bool is_text; /* whether a zero byte follows */
};

/* The arguments of a call. */
struct arguments {
    struct input password, stored; /* a row calls the second one stored, field, setting or salt */
    struct mkpasswd_policy policy; /* calls without a policy get its budget too */
    uint32_t error, scheme;
    size_t password_length, out_size;
    bool has_out;
};

/* Returns the value of a name in a row, up to the next space, or NULL if the row lacks it. */
static const char *value_of(const char *row, const char *name)
{
    size_t length = strlen(name);
    const char *word = strchr(row, ' ');

    for (; word; word = strchr(word, ' ')) {
        word++;
        if (strncmp(word, name, length) == 0 && word[length] == '=')
            return word + length + 1;
    }
    return NULL;
}

static bool is_value(const char *value, const char *word)
{
    size_t length = strlen(word);

    return value && strncmp(value, word, length) == 0
        && (value[length] == ' ' || value[length] == 0);
}

static uint64_t number_of(const char *row, const char *name)
{
    const char *value = value_of(row, name);

    return value ? strtoull(value, NULL, 10) : 0;
}

static uint8_t digit_of(char hex)
{
    return (uint8_t)(hex <= '9' ? hex - '0' : hex - 'a' + 10);
}

/* Reads the bytes of a value in hexadecimal digits. */
static size_t bytes_of(const char *value, uint8_t *bytes)
{
    size_t length = 0;

    if (!value)
        return 0;
    for (; value[0] > ' ' && value[1] > ' '; value += 2)
        bytes[length++] = (uint8_t)(digit_of(value[0]) << 4 | digit_of(value[1]));
    return length;
}

static void read_input(struct input *input, const char *value)
{
    uint8_t bytes[PAGE];
    size_t size;

    input->is_text = value && strncmp(value, TEXT, strlen(TEXT)) == 0;
    if (input->is_text)
        value += strlen(TEXT);
    input->length = size = bytes_of(value, bytes);
    if (input->is_text)
        bytes[size++] = 0;
    input->bytes = is_value(value, "null") ? NULL : at_end_of(input->page, bytes, size);
}

static const char *stored_value_of(const char *row)
{
    static const char *const names[] = {"stored", "field", "setting", "salt"};
    const char *value = NULL;
    size_t place;

    for (place = 0; place < sizeof names / sizeof *names && !value; place++)
        value = value_of(row, names[place]);
    return value;
}

static void read_row(struct arguments *given, const char *row)
{
    read_input(&given->password, value_of(row, "password"));
    read_input(&given->stored, stored_value_of(row));
    given->policy.method = (uint32_t)number_of(row, "method");
    given->policy.rounds = (uint32_t)number_of(row, "rounds");
    given->policy.budget = number_of(row, "budget");
    given->error = (uint32_t)number_of(row, "error");
    given->scheme = (uint32_t)number_of(row, "scheme");
    given->password_length = (size_t)number_of(row, "password_length");
    given->has_out = !is_value(value_of(row, "out_size"), "null");
    /* A null out has a size, too, which the call must ignore. */
    given->out_size = given->has_out ? (size_t)number_of(row, "out_size") : SIZE_OF_NULL;
}

/* ---- Calls */

/* A call's arguments, and where it writes. */
struct call {
    struct arguments given;
    bool has_null_policy; /* instead of a policy of zeros */
    uint8_t *out;
    char *text_out;
    struct mkpasswd_report *report;
};

typedef int32_t call_maker(const struct call *call);

static struct mkpasswd_password password_of(const struct call *call)
{
    const struct input *input = &call->given.password;

    if (input->is_text)
        return mkpasswd_password((const char *)input->bytes);
    return mkpasswd_password_bytes(input->bytes, input->length);
}

static struct mkpasswd_field field_of(const struct call *call)
{
    const struct input *input = &call->given.stored;

    if (input->is_text)
        return mkpasswd_field((const char *)input->bytes);
    return mkpasswd_field_bytes(input->bytes, input->length);
}

static const struct mkpasswd_policy *policy_of(const struct call *call)
{
    const struct mkpasswd_policy *policy = &call->given.policy;
    bool is_zero = policy->method == 0 && policy->rounds == 0 && policy->budget == 0;

    return is_zero && call->has_null_policy ? NULL : policy;
}

static int32_t login(const struct call *call)
{
    return mkpasswd_login(password_of(call), field_of(call), policy_of(call), call->report);
}

static int32_t login_bytes(const struct call *call)
{
    const struct input *password = &call->given.password, *field = &call->given.stored;
    const struct mkpasswd_policy *policy = &call->given.policy;

    return mkpasswd_login_bytes(password->bytes, password->length, field->bytes, field->length,
        policy->method, policy->rounds, policy->budget, call->report);
}

static int32_t new_hash(const struct call *call)
{
    return mkpasswd_new(
        password_of(call), policy_of(call), call->text_out, call->given.out_size, call->report);
}

static int32_t new_bytes(const struct call *call)
{
    const struct input *password = &call->given.password;
    const struct mkpasswd_policy *policy = &call->given.policy;

    return mkpasswd_new_bytes(password->bytes, password->length, policy->method, policy->rounds,
        policy->budget, call->out, call->given.out_size, call->report);
}

static int32_t new_over(const struct call *call)
{
    const struct input *password = &call->given.password;
    const struct mkpasswd_policy *policy = &call->given.policy;

    memcpy(call->out, password->bytes, password->length);
    return mkpasswd_new_bytes(call->out, password->length, policy->method, policy->rounds,
        policy->budget, call->out, call->given.out_size, call->report);
}

static int32_t needs_rehash(const struct call *call)
{
    return mkpasswd_needs_rehash(field_of(call), policy_of(call), call->report);
}

static int32_t needs_rehash_bytes(const struct call *call)
{
    const struct input *stored = &call->given.stored;
    const struct mkpasswd_policy *policy = &call->given.policy;

    return mkpasswd_needs_rehash_bytes(
        stored->bytes, stored->length, policy->method, policy->rounds, call->report);
}

static int32_t audit(const struct call *call)
{
    return mkpasswd_audit(field_of(call), policy_of(call), call->report);
}

static int32_t audit_bytes(const struct call *call)
{
    const struct input *stored = &call->given.stored;
    const struct mkpasswd_policy *policy = &call->given.policy;

    return mkpasswd_audit_bytes(stored->bytes, stored->length, policy->method, policy->rounds,
        policy->budget, call->report);
}

static int32_t limit(const struct call *call)
{
    return mkpasswd_limit(policy_of(call), call->report);
}

static int32_t limit_bytes(const struct call *call)
{
    const struct mkpasswd_policy *policy = &call->given.policy;

    return mkpasswd_limit_bytes(policy->method, policy->rounds, policy->budget, call->report);
}

static int32_t rounds(const struct call *call)
{
    return mkpasswd_rounds(call->given.password_length, policy_of(call), call->report);
}

static int32_t rounds_bytes(const struct call *call)
{
    const struct mkpasswd_policy *policy = &call->given.policy;

    return mkpasswd_rounds_bytes(
        call->given.password_length, policy->method, policy->rounds, policy->budget, call->report);
}

static int32_t verify(const struct call *call)
{
    uint64_t budget = call->given.policy.budget;

    return mkpasswd_verify(password_of(call), field_of(call), budget, call->report);
}

static int32_t verify_bytes(const struct call *call)
{
    const struct input *password = &call->given.password, *stored = &call->given.stored;

    return mkpasswd_verify_bytes(password->bytes, password->length, stored->bytes, stored->length,
        call->given.policy.budget, call->report);
}

static int32_t hash(const struct call *call)
{
    return mkpasswd_hash(password_of(call), field_of(call), call->given.policy.budget,
        call->text_out, call->given.out_size, call->report);
}

static int32_t hash_bytes(const struct call *call)
{
    const struct input *password = &call->given.password, *setting = &call->given.stored;

    return mkpasswd_hash_bytes(password->bytes, password->length, setting->bytes, setting->length,
        call->given.policy.budget, call->out, call->given.out_size, call->report);
}

static int32_t setting(const struct call *call)
{
    const char *salt = (const char *)call->given.stored.bytes;

    return mkpasswd_setting(
        policy_of(call), salt, call->text_out, call->given.out_size, call->report);
}

static int32_t setting_bytes(const struct call *call)
{
    const struct input *salt = &call->given.stored;
    const struct mkpasswd_policy *policy = &call->given.policy;

    return mkpasswd_setting_bytes(policy->method, policy->rounds, salt->bytes, salt->length,
        call->out, call->given.out_size, call->report);
}

static int32_t bound(const struct call *call)
{
    return mkpasswd_bound(field_of(call), call->given.password_length, call->report);
}

static int32_t bound_bytes(const struct call *call)
{
    const struct input *setting = &call->given.stored;

    return mkpasswd_bound_bytes(
        setting->bytes, setting->length, call->given.password_length, call->report);
}

static int32_t message(const struct call *call)
{
    return mkpasswd_message(call->given.error, call->text_out, call->given.out_size);
}

static int32_t message_bytes(const struct call *call)
{
    return mkpasswd_message_bytes(call->given.error, call->out, call->given.out_size);
}

static int32_t scheme_name(const struct call *call)
{
    return mkpasswd_scheme_name(call->given.scheme, call->text_out, call->given.out_size);
}

static int32_t scheme_name_bytes(const struct call *call)
{
    return mkpasswd_scheme_name_bytes(call->given.scheme, call->out, call->given.out_size);
}

static int32_t version(const struct call *call)
{
    (void)call;
    return (int32_t)mkpasswd_version();
}

/* The kind of a row's call. */
struct kind {
    const char *name;
    call_maker *make;
    bool has_report, takes_nulls;
};

/* Each with the function that makes the call, and whether it fills a report and accepts null
 * pointers. */
static const struct kind kinds[] = {
    {"login", login, true, true},
    {"login_bytes", login_bytes, true, false},
    {"new", new_hash, true, true},
    {"new_bytes", new_bytes, true, false},
    {"new_over", new_over, true, false},
    {"needs_rehash", needs_rehash, true, true},
    {"needs_rehash_bytes", needs_rehash_bytes, true, false},
    {"audit", audit, true, true},
    {"audit_bytes", audit_bytes, true, false},
    {"limit", limit, true, true},
    {"limit_bytes", limit_bytes, true, false},
    {"rounds", rounds, true, true},
    {"rounds_bytes", rounds_bytes, true, false},
    {"verify", verify, true, true},
    {"verify_bytes", verify_bytes, true, false},
    {"hash", hash, true, true},
    {"hash_bytes", hash_bytes, true, false},
    {"setting", setting, true, true},
    {"setting_bytes", setting_bytes, true, false},
    {"bound", bound, true, true},
    {"bound_bytes", bound_bytes, true, false},
    {"message", message, false, true},
    {"message_bytes", message_bytes, false, false},
    {"scheme_name", scheme_name, false, true},
    {"scheme_name_bytes", scheme_name_bytes, false, false},
    {"version", version, false, false},
};

/* Returns the kind of a row's call. An unknown call ends the program. */
static const struct kind *kind_of(const char *row)
{
    size_t place;

    for (place = 0; place < sizeof kinds / sizeof *kinds; place++)
        if (is_value(row, kinds[place].name))
            return &kinds[place];
    (void)fprintf(stderr, "no call: %s\n", row);
    abort();
}

/* ---- One call in one thread */

struct job {
    const struct kind *kind;
    struct call call;
    uint8_t *stack, *out_page, *report_page;
    char line[2 * PAGE], first[2 * PAGE];
};

/* Returns what is in `out` after the call, and in `quote` the quotes if that is a string. Checks
 * that the bytes around `out` are unchanged. */
static const char *left_in(const struct job *job, const char **quote)
{
    const uint8_t *page = job->out_page, *out = job->call.out, *byte, *end = NULL;

    *quote = "";
    if (job->call.given.out_size)
        end = (const uint8_t *)memchr(out, 0, job->call.given.out_size);
    for (byte = page; byte < page + PAGE; byte++)
        if (*byte != PATTERN && !(end && byte >= out && byte <= end))
            return "SPILT";
    if (!end)
        return "unchanged";
    *quote = "\"";
    return (const char *)out;
}

static void print_answer(struct job *job, int32_t result)
{
    const struct mkpasswd_report *report = job->call.report;
    const struct mkpasswd_work *work = &report->work;
    const char *quote, *left = left_in(job, &quote);

    (void)snprintf(job->line, sizeof job->line,
        "result=%" PRId32 " error=%" PRIu32 " outdated=%" PRIu32 " length=%" PRIu32
        " scheme=%" PRIu32 " rounds=%" PRIu32 " n=%" PRIu32 " r=%" PRIu32 " p=%" PRIu32
        " cost=%" PRIu64 " digests=%" PRIu64 " bytes=%" PRIu64 " mixes=%" PRIu64 " table=%" PRIu64
        " scratch=%" PRIu64 " allocations=%ld kept=%ld drawn=%ld out=%s%s%s",
        result, report->error, report->outdated, report->length, report->scheme, report->rounds,
        report->n, report->r, report->p, report->cost, work->digests, work->bytes, work->mixes,
        work->table, work->scratch, allocations, blocks_kept, bytes_drawn, quote, left, quote);
}

/* Makes the call of a job. A report is full of this byte before it; without has_report, the report
 * and the policy are null pointers. */
static int32_t make(struct job *job, bool has_report, int byte)
{
    struct call *call = &job->call;
    uint8_t *out = call->out;
    struct mkpasswd_report *report = call->report;
    int32_t result;

    memset(job->out_page, PATTERN, PAGE);
    if (has_report)
        memset(report, byte, sizeof *report);
    else
        call->report = NULL;
    if (!call->given.has_out)
        call->out = NULL;
    call->has_null_policy = !has_report;
    call->text_out = (char *)call->out;
    begin_counting();
    result = job->kind->make(call);
    end_counting();
    call->report = report;
    call->out = out;
    return result;
}

/* Makes the call of a job twice, with only STACK_LEFT bytes of its stack left. */
__attribute__((noinline)) static void perform(struct job *job)
{
    const struct kind *kind = job->kind;
    bool is_drawn = entropy == ENTROPY_REAL && strncmp(kind->name, "new", 3) == 0;
    size_t length;

#ifndef SANITIZED
    size_t stack_above = (size_t)((uint8_t *)&job - job->stack);
    *(volatile uint8_t *)__builtin_alloca(stack_above - STACK_LEFT) = 0;
#endif
    print_answer(job, make(job, /* has_report */ true, kind->has_report ? 0xff : 0));
    if (is_drawn) /* the second salt would differ */
        return;
    memcpy(job->first, job->line, sizeof job->first);
    print_answer(job, make(job, !kind->takes_nulls, 0));
    if (strcmp(job->first, job->line) == 0)
        return;
    length = strlen(job->line);
    (void)snprintf(
        job->line + length, sizeof job->line - length, " DIFFERS FROM %.4000s", job->first);
}

/* ---- Threads, which share the rows */

static pthread_mutex_t lock = PTHREAD_MUTEX_INITIALIZER;
static char **rows, **lines; /* up to the next row `set` */
static size_t row_count, next_row, row_capacity;

/* Makes calls until no row is left. */
static void *run(void *argument)
{
    struct job *job = (struct job *)argument;

    pthread_mutex_lock(&lock);
    while (next_row < row_count) {
        size_t number = next_row++;

        pthread_mutex_unlock(&lock);
        job->kind = kind_of(rows[number]);
        read_row(&job->call.given, rows[number]);
        job->call.out = job->out_page + PAGE - job->call.given.out_size;
        perform(job);
        lines[number] = (char *)allocated(strdup(job->line));
        pthread_mutex_lock(&lock);
    }
    pthread_mutex_unlock(&lock);
    return NULL;
}

static void prepare(struct job *job)
{
    size_t size = sizeof *job->call.report;

    if (job->stack)
        return;
    job->stack = new_pages(STACK);
    job->out_page = new_pages(PAGE);
    job->report_page = new_pages(PAGE);
    job->call.given.password.page = new_pages(PAGE);
    job->call.given.stored.page = new_pages(PAGE);
    job->call.report = (struct mkpasswd_report *)(void *)(job->report_page + PAGE - size);
}

/* Makes the calls of the rows, and prints their lines. */
static void run_rows(size_t thread_count)
{
    static struct job jobs[MOST_THREADS];
    pthread_t threads[MOST_THREADS];
    pthread_attr_t attributes;
    size_t place;

    pthread_attr_init(&attributes);
    for (place = 0; place < thread_count; place++) {
        prepare(&jobs[place]);
#ifndef SANITIZED
        pthread_attr_setstack(&attributes, jobs[place].stack, STACK);
#endif
        if (pthread_create(&threads[place], &attributes, run, &jobs[place]) != 0)
            abort();
    }
    for (place = 0; place < thread_count; place++)
        pthread_join(threads[place], NULL);
    for (place = 0; place < row_count; place++) {
        puts(lines[place]);
        free(lines[place]);
        free(rows[place]);
    }
    row_count = next_row = 0;
}

static void keep_row(const char *row)
{
    if (row_count == row_capacity) {
        row_capacity += 1024;
        rows = (char **)allocated(realloc(rows, row_capacity * sizeof *rows));
        lines = (char **)allocated(realloc(lines, row_capacity * sizeof *lines));
    }
    rows[row_count++] = (char *)allocated(strdup(row));
}

static void set_entropy(const char *value)
{
    if (!value)
        return;
    entropy = ENTROPY_GIVEN;
    if (is_value(value, "none"))
        entropy = ENTROPY_NONE;
    else if (is_value(value, "real"))
        entropy = ENTROPY_REAL;
    else
        bytes_of(value, given_entropy);
}

int main(void)
{
    static char row[LONGEST_ROW];
    size_t threads = 1;

    while (fgets(row, sizeof row, stdin)) {
        row[strcspn(row, "\n")] = 0;
        if (!is_value(row, "set")) {
            keep_row(row);
            continue;
        }
        run_rows(threads);
        if (value_of(row, "threads"))
            threads = (size_t)number_of(row, "threads");
        if (value_of(row, "refused"))
            refused_allocation = (long)number_of(row, "refused");
        set_entropy(value_of(row, "entropy"));
    }
    run_rows(threads);
    return 0;
}
#pragma GCC visibility pop
