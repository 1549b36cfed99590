/* Reads a file of users. */
#include "users.h"

#include <stdio.h>
#include <stdlib.h>
#include <string.h>

static enum fault read_all(struct users *users, FILE *file, size_t *length) {
    size_t room = 4096, got;
    users->text = malloc(room + 1);
    *length = 0;
    while (users->text && (got = fread(users->text + *length, 1, room - *length, file)) > 0) {
        *length += got;
        if (*length < room)
            continue;
        char *more = malloc(2 * room + 1);
        if (more)
            memcpy(more, users->text, *length);
        explicit_bzero(users->text, *length);
        free(users->text);
        users->text = more;
        room *= 2;
    }
    if (!users->text)
        return FAULT_MEMORY;
    users->text[*length] = 0;
    return ferror(file) ? FAULT_FILE : FAULT_NONE;
}

/* The name of a line, in place: what comes before the second colon, with the first made a
 * backslash. */
static size_t name_of(char *line) {
    char *first = strchr(line, ':');
    if (!first)
        return strlen(line);
    char *second = strchr(first + 1, ':');
    *first = '\\';
    return second ? (size_t)(second - line) : strlen(line);
}

static enum fault split(struct users *users, size_t length) {
    size_t lines = 1;
    for (size_t i = 0; i < length; i++)
        lines += users->text[i] == '\n';
    users->names = calloc(lines, sizeof *users->names);
    users->lengths = calloc(lines, sizeof *users->lengths);
    if (!users->names || !users->lengths)
        return FAULT_MEMORY;
    char *rest = NULL;
    for (char *line = strtok_r(users->text, "\r\n", &rest); line;
         line = strtok_r(NULL, "\r\n", &rest)) {
        users->names[users->count] = line;
        users->lengths[users->count] = name_of(line);
        users->count++;
    }
    return FAULT_NONE;
}

enum fault users_read(struct users *users, const char *path) {
    size_t length;
    FILE *file = fopen(path, "rb");
    if (!file)
        return FAULT_FILE;
    enum fault fault = read_all(users, file, &length);
    fclose(file);
    if (fault == FAULT_NONE)
        fault = split(users, length);
    return fault;
}

void users_release(struct users *users) {
    if (users->text && users->count) {
        char *last = (char *)users->names[users->count - 1];
        explicit_bzero(users->text, (size_t)(last - users->text) + strlen(last));
    }
    free(users->text);
    free(users->names);
    free(users->lengths);
    *users = (struct users){0};
}
