/* The lock that a process holds while it replaces a password file. */
#ifndef PAM_MKPASSWD_LOCK_H
#define PAM_MKPASSWD_LOCK_H

#include "place.h"

enum lock_state {
    LOCK_TAKEN,
    LOCK_HELD,   /* by another process, for about a second */
    LOCK_FAILED, /* errno says why */
};

/* Takes the lock, and waits for it up to a second. If it returns LOCK_TAKEN, the caller releases
 * the lock. */
enum lock_state take_lock(const struct place *place, int *lock);

/* Releases the lock, and leaves errno as it is. */
void release_lock(int lock);

#endif
