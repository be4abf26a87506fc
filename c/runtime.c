/* What the proved program calls besides the C library and c/heap.c, on processors for which the
 * toolchain has no C objects: errno, and the arguments, which glibc passes to constructors even in
 * a static program. */
#include <errno.h>
#include <stddef.h>
#include <stdint.h>
#include <string.h>

static size_t argument_count;
static char **arguments;

__attribute__((constructor)) static void keep(int count, char **words)
{
    argument_count = (size_t)count;
    arguments = words;
}

int32_t rattle_errno(void)
{
    return errno;
}

void rattle_set_errno(int32_t error)
{
    errno = error;
}

size_t rattle_arg_count(void)
{
    return argument_count;
}

/* Copies an argument and returns its length. It returns -1 if there is no such argument, and -2 if
 * the argument has more than `size` bytes; then it copies the first `size` of them. */
ptrdiff_t rattle_arg(size_t place, uint8_t *bytes, size_t size)
{
    size_t length;

    if (place >= argument_count || !arguments[place])
        return -1;
    length = strlen(arguments[place]);
    memcpy(bytes, arguments[place], length < size ? length : size);
    return length <= size ? (ptrdiff_t)length : -2;
}
