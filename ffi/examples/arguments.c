/* Reading the words of a command line. */
#include "arguments.h"

#include <ctype.h>
#include <errno.h>
#include <stdlib.h>
#include <string.h>

static bool read_number(const char *text, uint32_t *number) {
    char *end;
    errno = 0;
    unsigned long value = strtoul(text, &end, 10);
    if (!isdigit((unsigned char)*text) || *end || errno || value > UINT32_MAX)
        return false;
    *number = (uint32_t)value;
    return true;
}

static const struct argument *find(const struct argument *list, const char *word) {
    if (strncmp(word, "--", 2) != 0)
        return NULL;
    while (list->name && strcmp(list->name, word + 2) != 0)
        list++;
    return list->name ? list : NULL;
}

bool arguments_read(char **words, const struct argument *list, void *settings) {
    for (char **word = words + 1; *word; word++) {
        const struct argument *argument = find(list, *word);
        if (!argument || (argument->kind != ARGUMENT_FLAG && !*++word))
            return false;
        void *place = (char *)settings + argument->place;
        if (argument->kind == ARGUMENT_NUMBER && !read_number(*word, place))
            return false;
        if (argument->kind == ARGUMENT_TEXT)
            *(const char **)place = *word;
        if (argument->kind == ARGUMENT_FLAG)
            *(bool *)place = true;
    }
    return true;
}
