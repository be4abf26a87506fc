/* Memory between two inaccessible pages, for tests/c/calls.c. */
#include <stdint.h>
#include <stdlib.h>
#include <string.h>
#include <sys/mman.h>

#define PAGE ((size_t)4096)

/* Returns `size` bytes between two inaccessible pages. The size must be a multiple of PAGE. */
static uint8_t *new_pages(size_t size)
{
    int flags = MAP_PRIVATE | MAP_ANONYMOUS;
    uint8_t *pages = (uint8_t *)mmap(NULL, size + 2 * PAGE, PROT_NONE, flags, -1, 0);

    if (pages == (uint8_t *)MAP_FAILED)
        abort();
    if (mprotect(pages + PAGE, size, PROT_READ | PROT_WRITE) != 0)
        abort();
    return pages + PAGE;
}

/* Copies bytes to the end of a page, makes the page read-only, and returns the copy's address. */
static uint8_t *at_end_of(uint8_t *page, const uint8_t *bytes, size_t len)
{
    uint8_t *place = page + PAGE - len;

    if (mprotect(page, PAGE, PROT_READ | PROT_WRITE) != 0)
        abort();
    memcpy(place, bytes, len);
    if (mprotect(page, PAGE, PROT_READ) != 0)
        abort();
    return place;
}
