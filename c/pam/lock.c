/* Takes and releases the lock: flock(2) of a file beside the password file. The lock file is never
 * removed. */
#include "lock.h"
#include <errno.h>
#include <fcntl.h>
#include <sys/file.h>
#include <time.h>
#include <unistd.h>

#define TRIES 50
#define PAUSE_NANOSECONDS 20000000 /* 20 ms, so 50 tries take a second */

/* Gives the lock file to the owner of the password file. A service of that user can then take the
 * lock even if a service of the superuser was the first to change the file. */
static bool give_to_owner(int lock, const struct place *place)
{
    struct stat file;

    return fstatat(place->folder, place->name, &file, 0) == 0
        && fchown(lock, file.st_uid, file.st_gid) == 0;
}

static int create_lock(const struct place *place)
{
    const int flags = O_RDWR | O_CREAT | O_EXCL | O_CLOEXEC | O_NOFOLLOW;
    int lock = openat(place->folder, place->lock_name, flags, S_IRUSR | S_IWUSR);

    /* Only the superuser can give it away, and nobody else needs to. */
    if (lock >= 0)
        (void)give_to_owner(lock, place);
    return lock;
}

/* Opens an existing lock. If a FIFO has its name, O_NONBLOCK keeps the call from waiting. */
static int open_existing_lock(const struct place *place)
{
    const int flags = O_RDONLY | O_CLOEXEC | O_NOFOLLOW | O_NONBLOCK | O_NOCTTY;

    return openat(place->folder, place->lock_name, flags);
}

static int open_lock(const struct place *place)
{
    int lock = open_existing_lock(place);

    if (lock < 0 && errno == ENOENT)
        lock = create_lock(place);
    if (lock < 0 && errno == EEXIST) /* another process has just created it */
        lock = open_existing_lock(place);
    return lock;
}

/* Returns whether the lock's name still leads to this file. If somebody has removed it, another
 * process may hold a new one. */
static bool is_in_place(int lock, const struct place *place)
{
    struct stat locked, named;

    return fstat(lock, &locked) == 0
        && fstatat(place->folder, place->lock_name, &named, AT_SYMLINK_NOFOLLOW) == 0
        && is_same_file(&locked, &named);
}

/* Locks an open file if nobody else holds it. It doesn't wait in flock(2), since only a signal
 * could end that wait. */
static enum lock_state lock_file(int lock, const struct place *place)
{
    if (flock(lock, LOCK_EX | LOCK_NB) != 0)
        return errno == EWOULDBLOCK ? LOCK_HELD : LOCK_FAILED;
    return is_in_place(lock, place) ? LOCK_TAKEN : LOCK_HELD;
}

/* Tries once to take the lock. */
static enum lock_state try_lock(const struct place *place, int *lock)
{
    enum lock_state state;

    *lock = open_lock(place);
    if (*lock < 0)
        return LOCK_FAILED;
    state = lock_file(*lock, place);
    if (state != LOCK_TAKEN)
        release_lock(*lock);
    return state;
}

enum lock_state take_lock(const struct place *place, int *lock)
{
    const struct timespec pause = {.tv_nsec = PAUSE_NANOSECONDS};
    enum lock_state state = try_lock(place, lock);

    for (int tries = 1; state == LOCK_HELD && tries < TRIES; tries++) {
        (void)nanosleep(&pause, NULL);
        state = try_lock(place, lock);
    }
    return state;
}

/* Unlocks the file before closing it: a child that the service has started meanwhile has a copy of
 * the descriptor, which would keep the file locked. */
void release_lock(int lock)
{
    int error = errno;

    (void)flock(lock, LOCK_UN);
    (void)close(lock);
    errno = error;
}
