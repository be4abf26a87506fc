/* The exported functions that hash. Each calls its proved counterpart, mkpasswd_proved_*(), and
 * then wipes the stack that was used, which held the password and what was computed from it. heap.c
 * wipes memory. The proved code itself (crates/crypt_c) exports the functions that don't hash.
 *
 * mkpasswd_new_bytes() also draws the random numbers for a salt, since the proved code has no
 * random device. */
#define _DEFAULT_SOURCE /* for getentropy */
#include <mkpasswd.h>
#include <unistd.h>

/* More bytes of stack than any proved function uses. */
#define STACK_BYTES ((size_t)24 * 1024)

/* How many random numbers, of 64 bits each, a salt is made from. */
#define NUMBERS_OF_A_SALT 3

/* The proved functions (crates/crypt_c/src/lib.rt). */
int32_t mkpasswd_proved_verify(const uint8_t *password, size_t password_length,
    const uint8_t *stored, size_t stored_length, uint64_t budget, struct mkpasswd_report *report);
int32_t mkpasswd_proved_login(const uint8_t *password, size_t password_length, const uint8_t *field,
    size_t field_length, uint32_t method, uint32_t rounds, uint64_t budget,
    struct mkpasswd_report *report);
int32_t mkpasswd_proved_hash(const uint8_t *password, size_t password_length,
    const uint8_t *setting, size_t setting_length, uint64_t budget, uint8_t *out, size_t out_size,
    struct mkpasswd_report *report);
int32_t mkpasswd_proved_new_from(const uint8_t *password, size_t password_length, uint32_t method,
    uint32_t rounds, uint64_t budget, const uint64_t *numbers, size_t numbers_count, uint8_t *out,
    size_t out_size, struct mkpasswd_report *report);

/* Wipes the stack below its caller's frame, where the frames of the proved function were, and the
 * registers that a call may change. (Compilers before gcc 11 and clang 15 warn about the attribute,
 * and don't wipe registers.) It returns the result that it is given, so that its caller need do
 * nothing afterwards. It must not call anything: the dynamic linker leaves registers on the stack
 * when it resolves a name. */
__attribute__((noinline, zero_call_used_regs("all"))) static int32_t wipe_stack(int32_t result)
{
    volatile uint64_t stack[STACK_BYTES / sizeof(uint64_t)];

    for (size_t index = 0; index < sizeof stack / sizeof *stack; index++)
        stack[index] = 0;
    return result;
}

int32_t mkpasswd_verify_bytes(const uint8_t *password, size_t password_length,
    const uint8_t *stored, size_t stored_length, uint64_t budget, struct mkpasswd_report *report)
{
    int32_t result = mkpasswd_proved_verify(
        password, password_length, stored, stored_length, budget, report);

    return wipe_stack(result);
}

int32_t mkpasswd_login_bytes(const uint8_t *password, size_t password_length, const uint8_t *field,
    size_t field_length, uint32_t method, uint32_t rounds, uint64_t budget,
    struct mkpasswd_report *report)
{
    int32_t result = mkpasswd_proved_login(
        password, password_length, field, field_length, method, rounds, budget, report);

    return wipe_stack(result);
}

int32_t mkpasswd_hash_bytes(const uint8_t *password, size_t password_length, const uint8_t *setting,
    size_t setting_length, uint64_t budget, uint8_t *out, size_t out_size,
    struct mkpasswd_report *report)
{
    int32_t result = mkpasswd_proved_hash(
        password, password_length, setting, setting_length, budget, out, out_size, report);

    return wipe_stack(result);
}

/* First tries without random numbers, so that an error that comes before they are needed, such as a
 * bad password, is reported without drawing any. The trial writes to its own buffer: only the last
 * call writes to `out`. */
__attribute__((noinline)) static int32_t hash_anew(const uint8_t *password, size_t password_length,
    uint32_t method, uint32_t rounds, uint64_t budget, uint8_t *out, size_t out_size,
    struct mkpasswd_report *report)
{
    uint64_t numbers[NUMBERS_OF_A_SALT] = {0};
    uint8_t unread[MKPASSWD_TEXT_SIZE];
    size_t unread_size = out_size < sizeof unread ? out_size : sizeof unread;
    struct mkpasswd_report trial;
    size_t numbers_count = 0;

    mkpasswd_proved_new_from(
        password, password_length, method, rounds, budget, numbers, 0, unread, unread_size, &trial);
    if (trial.error == MKPASSWD_ERROR_NO_RANDOM_NUMBERS && getentropy(numbers, sizeof numbers) == 0)
        numbers_count = NUMBERS_OF_A_SALT;
    return mkpasswd_proved_new_from(password, password_length, method, rounds, budget, numbers,
        numbers_count, out, out_size, report);
}

int32_t mkpasswd_new_bytes(const uint8_t *password, size_t password_length, uint32_t method,
    uint32_t rounds, uint64_t budget, uint8_t *out, size_t out_size, struct mkpasswd_report *report)
{
    int32_t result = hash_anew(
        password, password_length, method, rounds, budget, out, out_size, report);

    return wipe_stack(result);
}
