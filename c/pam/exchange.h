/* Puts a new file in place of the old one, so that no version of the file is ever lost. */
#ifndef PAM_MKPASSWD_EXCHANGE_H
#define PAM_MKPASSWD_EXCHANGE_H

#include "place.h"
#include "replacement.h"

/* Ends an exchange whose process was killed: puts back somebody else's version, and removes
 * whatever else the exchange left. If this fails, errno says why. */
bool end_earlier_exchange(const struct place *place);

/* Exchanges the new file, which has the place's new_name, for the old one, and removes the old one.
 * If another file or a changed one comes out, it is put back, and the new file is removed. */
enum outcome exchange_files(
    const struct place *place, const struct stat *old, const struct stat *new);

#endif
