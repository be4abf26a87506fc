/* A library for LD_PRELOAD that writes all private, writable memory of a service to the file MEMORY
 * when the service calls pam_end. */
#define _GNU_SOURCE /* for RTLD_NEXT */
#include <dlfcn.h>
#include <fcntl.h>
#include <stdbool.h>
#include <stdint.h>
#include <stdlib.h>
#include <string.h>
#include <sys/stat.h>
#include <unistd.h>

int pam_end(void *pam, int status);

/* The content of /proc/self/maps. The array is static, since a block of malloc or a larger stack
 * could overwrite what the test looks for. */
static char maps[1 << 20];

static void read_maps(void)
{
    int file = open("/proc/self/maps", O_RDONLY | O_CLOEXEC);
    size_t size = 0;
    ssize_t len;

    while ((len = read(file, maps + size, sizeof maps - 1 - size)) > 0)
        size += (size_t)len;
    (void)close(file);
}

static void write_part(int file, const char *start, const char *end)
{
    while (start < end) {
        ssize_t len = write(file, start, (size_t)(end - start));

        if (len <= 0)
            abort();
        start += len;
    }
}

/* Writes the memory of a line of /proc/self/maps, such as `7f..-7f.. rw-p`, if it is writable and
 * private. */
static void write_line(int file, const char *line)
{
    char *rest;
    uintptr_t start = strtoul(line, &rest, 16);
    uintptr_t end = strtoul(rest + 1, &rest, 16);
    bool is_private = strncmp(rest, " rw-p", strlen(" rw-p")) == 0;
    bool has_maps = start <= (uintptr_t)maps && (uintptr_t)maps < end;

    if (is_private && !has_maps)
        write_part(file, (const char *)start, (const char *)end);
}

static void write_memory(void)
{
    const char *path = getenv("MEMORY");
    int file;

    if (path == NULL)
        return;
    read_maps();
    file = open(path, O_WRONLY | O_CREAT | O_TRUNC | O_CLOEXEC, S_IRUSR | S_IWUSR);
    for (const char *line = maps; *line != '\0'; line = strchr(line, '\n') + 1)
        write_line(file, line);
    (void)close(file);
}

/* Replaces pam_end. Until PAM's own pam_end, all that PAM holds for a login is still in memory. */
int pam_end(void *pam, int status)
{
    int (*end)(void *, int);

    write_memory();
    *(void **)&end = dlsym(RTLD_NEXT, "pam_end");
    return end(pam, status);
}
