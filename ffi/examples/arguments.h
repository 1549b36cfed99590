/* The words of a command line, each filling one place in a program's settings. */
#ifndef NEWAKSU_EXAMPLE_ARGUMENTS_H
#define NEWAKSU_EXAMPLE_ARGUMENTS_H

#include <stdbool.h>
#include <stddef.h>
#include <stdint.h>

/* What follows the word, and what the place is: nothing and a bool, a text and a pointer to
 * const char, or a decimal number and a uint32_t. */
enum argument_kind { ARGUMENT_FLAG, ARGUMENT_TEXT, ARGUMENT_NUMBER };

struct argument {
    const char *name; /* without the hyphens; NULL ends the list */
    enum argument_kind kind;
    size_t place; /* its offset in the settings */
};

/* Whether all words after the program's name are arguments in the list. */
bool arguments_read(char **words, const struct argument *list, void *settings);

#endif
