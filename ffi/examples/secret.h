/* A password, read where no other user of the machine sees it. */
#ifndef NEWAKSU_EXAMPLE_SECRET_H
#define NEWAKSU_EXAMPLE_SECRET_H

#include "fault.h"

enum { PASSWORD_BYTES = 512 };

/* Reads one line, from the file descriptor, or at a prompt without echo if `fd` is below 0. A
 * signal at the prompt, such as Ctrl-C sends, is handled once the terminal echoes again. The caller
 * overwrites the line. */
enum fault read_password(int fd, const char *prompt, char password[PASSWORD_BYTES + 1]);

#endif
