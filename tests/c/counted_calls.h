/* Counts the allocations and random bytes of a library call, for tests/c/calls.c. It can make one
 * allocation fail, and choose the random bytes.
 *
 * With -DWRAP, link with --wrap for malloc, realloc, free and getentropy. With -DREPLACE these
 * functions replace the C library's. If neither is defined, all counts stay 0. */
#include <stdint.h>
#include <stdlib.h>
#include <string.h>
#include <sys/syscall.h>
#include <unistd.h>

enum entropy {
    ENTROPY_REAL,
    ENTROPY_NONE,
    ENTROPY_GIVEN
};

/* The settings for the next calls. */
static long refused_allocation; /* from 1; 0 for none */
static enum entropy entropy = ENTROPY_REAL;
static uint8_t given_entropy[24]; /* as many bytes as a call draws for a salt */

/* The counts of this thread's call. */
static __thread int is_counting;
static __thread long allocations, blocks_kept, bytes_drawn;

static void begin_counting(void)
{
    allocations = blocks_kept = bytes_drawn = 0;
    is_counting = 1;
}

static void end_counting(void)
{
    is_counting = 0;
}

#if defined WRAP || defined REPLACE
#ifdef WRAP
#define NAMED(name) __wrap_##name
#define SYSTEM(name) __real_##name
#else
#define NAMED(name) name
#define SYSTEM(name) __libc_##name
#endif

#ifdef __cplusplus
extern "C" {
#endif
void *SYSTEM(malloc)(size_t size);
void *SYSTEM(realloc)(void *old, size_t size);
void SYSTEM(free)(void *block);
void *NAMED(realloc)(void *old, size_t size) __THROW;
void *NAMED(malloc)(size_t size) __THROW;
void NAMED(free)(void *block) __THROW;
int NAMED(getentropy)(void *bytes, size_t len);

static int is_refused(void)
{
    return is_counting && ++allocations == refused_allocation;
}

void *__NTH(NAMED(malloc)(size_t size))
{
    void *block = is_refused() ? NULL : SYSTEM(malloc)(size);

    blocks_kept += is_counting && block;
    return block;
}

void *__NTH(NAMED(realloc)(void *old, size_t size))
{
    void *block = is_refused() ? NULL : SYSTEM(realloc)(old, size);

    blocks_kept += is_counting && block && !old;
    return block;
}

void __NTH(NAMED(free)(void *block))
{
    blocks_kept -= is_counting && block != NULL;
    SYSTEM(free)(block);
}

int NAMED(getentropy)(void *bytes, size_t len)
{
    size_t place = (size_t)bytes_drawn % sizeof given_entropy;

    bytes_drawn += (long)len;
    if (entropy == ENTROPY_REAL)
        return syscall(SYS_getrandom, bytes, len, 0) == (long)len ? 0 : -1;
    if (entropy == ENTROPY_NONE || place + len > sizeof given_entropy)
        return -1;
    memcpy(bytes, given_entropy + place, len);
    return 0;
}
#ifdef __cplusplus
}
#endif
#endif
