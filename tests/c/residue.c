/* Makes a call three times and stops after each, so that a test can read the memory of the process.
 * The third password differs from the others in every byte.
 *
 * usage: residue CALL TEXT METHOD ROUNDS LENGTH LOCKED
 *
 * CALL is verify, login, hash or new; TEXT is the stored hash or the setting; LENGTH is the
 * password's; with 1 for LOCKED all memory is locked. What this program itself keeps of a password
 * is in a shared page, which the test ignores. */
#define _GNU_SOURCE
#include <mkpasswd.h>
#include <stdlib.h>
#include <sys/mman.h>
#include <unistd.h>

#define ARGUMENTS 7
#define CALLS 3

struct held {
    uint8_t password[MKPASSWD_PASSWORD_LIMIT];
    char out[MKPASSWD_TEXT_SIZE];
    struct mkpasswd_report report;
};

struct call {
    const char *name;
    struct mkpasswd_field field;
    size_t password_length;
    struct mkpasswd_policy policy;
};

static uint32_t number_of(const char *digits)
{
    return (uint32_t)strtoul(digits, NULL, 10);
}

/* Writes a password of printable characters. With another offset below 90, every byte differs. */
static void write_password(struct held *held, size_t length, size_t offset)
{
    for (size_t place = 0; place < length; place++)
        held->password[place] = (uint8_t)('!' + (place * place + place / 7 + offset) % 90);
}

/* Makes the call. Its result doesn't matter, since the call has done its work. */
static void make(const struct call *call, struct held *held)
{
    struct mkpasswd_password password = mkpasswd_password_bytes(
        held->password, call->password_length);
    const uint64_t any = call->policy.budget;
    bool result;

    if (strcmp(call->name, "verify") == 0)
        result = mkpasswd_verify(password, call->field, any, &held->report);
    else if (strcmp(call->name, "login") == 0)
        result = mkpasswd_login(password, call->field, &call->policy, &held->report);
    else if (strcmp(call->name, "hash") == 0)
        result = mkpasswd_hash(
            password, call->field, any, held->out, sizeof held->out, &held->report);
    else
        result = mkpasswd_new(password, &call->policy, held->out, sizeof held->out, &held->report);
    (void)result;
}

/* Writes a dot, and waits for a byte of standard input. */
static int has_stopped(struct held *held)
{
    return write(1, ".", 1) == 1 && read(0, held->out, 1) == 1;
}

int main(int argc, char **argv)
{
    struct held *held = mmap(
        NULL, sizeof *held, PROT_READ | PROT_WRITE, MAP_SHARED | MAP_ANONYMOUS, -1, 0);
    struct call call;

    if (argc != ARGUMENTS || held == MAP_FAILED)
        return 2;
    call = (struct call){argv[1], mkpasswd_field(argv[2]), number_of(argv[5]),
        {number_of(argv[3]), number_of(argv[4]), UINT64_MAX}};
    if (number_of(argv[6]) == 1 && mlockall(MCL_CURRENT | MCL_FUTURE) != 0)
        return 2;
    for (int number = 1; number <= CALLS; number++) {
        write_password(held, call.password_length, number == CALLS ? 31 : 0);
        make(&call, held);
        if (held->report.work.digests == 0 || !has_stopped(held))
            return 1;
    }
    return 0;
}
