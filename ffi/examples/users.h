/* The users of a server that negotiates, by name. */
#ifndef NEWAKSU_EXAMPLE_USERS_H
#define NEWAKSU_EXAMPLE_USERS_H

#include <stddef.h>

#include "fault.h"

struct users {
    const char **names;
    size_t *lengths;
    size_t count;
    char *text; /* what the names point into */
};

/* Reads a file of lines DOMAIN:user:password, whose name is DOMAIN\user, and of lines user@REALM.
 * Empty lines are skipped. FAULT_FILE for a file that cannot be read. */
enum fault users_read(struct users *users, const char *file);

/* Overwrites the text, which contains passwords. */
void users_release(struct users *users);

#endif
