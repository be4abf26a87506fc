/* The allocator of the proved code, over malloc and free. An allocation fails exactly if malloc
 * fails. Only scrypt's table is large. With small pages the system takes up to a fifth of a hash's
 * time to provide it, and the processor takes longer to find its rows. So a large block begins at a
 * huge page, and heap.c asks for as many huge pages as the block fills. A system without huge pages
 * ignores this.
 *
 * The size of a block is stored in front of it, since not every allocator that a service may use
 * can report it.
 *
 * With -DKEEPS=1, for single-threaded programs, the large block that was freed last is kept. The
 * next large allocation reuses it if the size is the same, and otherwise frees it first. Nothing is
 * wiped in this mode (docs/SECURITY.md): the program has the passwords in memory until it ends, and
 * scrypt writes every row of a table before it reads it.
 *
 * Libraries (-DKEEPS=0) keep no block, since a service wants its memory back, and wipe what they
 * free.
 */
/* glibc's checked versions of memcpy and the like would check nothing here, since the compiler
 * doesn't know the size of any block. musl, which the library can also be linked with, doesn't have
 * them. */
#undef _FORTIFY_SOURCE
#define _GNU_SOURCE /* for MADV_HUGEPAGE */
#include <malloc.h>
#include <stdbool.h>
#include <stdint.h>
#include <stdlib.h>
#include <string.h>
#include <sys/mman.h>

/* A block of at least this size is large. */
#define HUGE_PAGE ((uintptr_t)2 << 20)

/* glibc's malloc always gives a block of at least this size a mapping of its own, whatever was
 * freed before. */
#define MAPPED ((size_t)32 << 20)

/* The sizes of a cache line and of the page within which the processor prefetches lines. */
#define CACHE_LINE ((size_t)64)
#define SMALL_PAGE 4096

/* malloc aligns a block to this many bytes if the block's size is a multiple of them. */
#define ALIGNMENT 16

/* The bytes in front of a block: its size, and what malloc returned. */
struct head {
    size_t size;
    void *start;
};
_Static_assert(sizeof(struct head) == ALIGNMENT, "a block is aligned like what malloc returned");

/* A quarter of a cache line. */
typedef uint64_t quarter __attribute__((vector_size(16)));

/* The result of an allocation. Proved code has no null pointers, so if `is_there` is false, `block`
 * points to an arbitrary byte. */
struct allocation {
    bool is_there;
    void *block;
};

static struct head *kept;

static struct allocation block_behind(struct head *head)
{
    static struct head none;

    return (struct allocation){head != NULL, head ? head + 1 : &none};
}

static void write_zeros(char *line)
{
    const quarter zeros = {0, 0};
    volatile quarter *quarters = (volatile quarter *)line;

    quarters[0] = zeros;
    quarters[1] = zeros;
    quarters[2] = zeros;
    quarters[3] = zeros;
}

/* Gives the whole huge pages of a block with a mapping of its own back to the system, which takes
 * less time than writing zeros. Returns the number of bytes in these pages. */
static size_t give_pages_back(char *block, size_t size)
{
    size_t pages = size < MAPPED ? 0 : size / HUGE_PAGE * HUGE_PAGE;

    if (pages != 0 && madvise(block, pages, MADV_DONTNEED) != 0)
        pages = 0;
    return pages;
}

/* Wipes a block. A large one is wiped from its end to its beginning, so that the part that the next
 * table uses first is still in the cache. Meanwhile this prefetches the line a page below, since
 * the processor itself prefetches only within a page. */
static void wipe(char *block, size_t size)
{
    size_t begin = give_pages_back(block, size);
    size_t end = size < HUGE_PAGE ? 0 : size / CACHE_LINE * CACHE_LINE;

    /* All of a small block, or the part of a large one after its last whole line. */
    explicit_bzero(block + end, size - end);
    while (end > begin) {
        char *line = block + end - CACHE_LINE;

        __builtin_prefetch((char *)((uintptr_t)line - SMALL_PAGE), 1);
        write_zeros(line);
        end -= CACHE_LINE;
    }
}

static void give_back(struct head *head)
{
    if (head)
        free(head->start);
}

/* Returns the kept block if it has this size. Otherwise frees it and returns null. */
static struct head *take_kept(size_t size)
{
    struct head *head = kept;

    kept = NULL;
    if (head && head->size == size)
        return head;
    give_back(head);
    return NULL;
}

/* Allocates a block with its head in front of it. A large block begins at a multiple of a huge
 * page; for any other, malloc's memory begins with the head. */
static struct head *allocate(size_t size)
{
    size_t unit = size < HUGE_PAGE ? sizeof(struct head) : HUGE_PAGE;
    size_t whole = (size + ALIGNMENT - 1) / ALIGNMENT * ALIGNMENT;
    char *start = malloc(unit + whole);
    struct head *head;

    if (!start)
        return NULL;
    head = (struct head *)(start + unit - (uintptr_t)start % unit) - 1;
    head->size = size;
    head->start = start;
    if (size >= HUGE_PAGE)
        madvise(head + 1, size / HUGE_PAGE * HUGE_PAGE, MADV_HUGEPAGE);
    return head;
}

/* The size is below 2^63, and the alignment divides 16. */
struct allocation rattle_alloc(size_t size, size_t alignment)
{
    struct head *head = NULL;

    (void)alignment;
    if (KEEPS && size >= HUGE_PAGE) {
        /* Otherwise glibc would raise this threshold, and hold on to blocks below 32 MiB. */
        mallopt(M_MMAP_THRESHOLD, HUGE_PAGE);
        head = take_kept(size);
    }
    return block_behind(head ? head : allocate(size));
}

void rattle_dealloc(void *block)
{
    struct head *head = (struct head *)block - 1;

    if (KEEPS && head->size >= HUGE_PAGE) {
        give_back(kept);
        kept = head;
        return;
    }
    if (!KEEPS)
        wipe(block, head->size);
    give_back(head);
}

/* The new block gets the first `used` bytes of the old one. Neither block is smaller than that. */
struct allocation rattle_realloc(void *block, size_t used, size_t size, size_t alignment)
{
    struct allocation moved = rattle_alloc(size, alignment);

    if (moved.is_there) {
        memcpy(moved.block, block, used);
        rattle_dealloc(block);
    }
    return moved;
}
