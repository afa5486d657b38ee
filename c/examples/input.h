/* input.h: reads a whole file, for the examples. */
#ifndef EXAMPLES_INPUT_H
#define EXAMPLES_INPUT_H

#include <stddef.h>
#include <stdio.h>
#include <stdlib.h>

/* Reads a file to its end. The caller frees the result. Returns NULL if the file can't be read or an allocation fails, and only then: the
 * result for an empty file isn't NULL. */
static unsigned char *read_all(FILE *file, size_t *length)
{
    size_t room = 1 << 16, count = 0;
    unsigned char *bytes = malloc(room);

    while (bytes != NULL) {
        count += fread(bytes + count, 1, room - count, file);
        if (count < room) {
            break;
        }
        if (room > (size_t)-1 / 2) {
            free(bytes);
            return NULL;
        }
        room *= 2;
        unsigned char *grown = realloc(bytes, room);
        if (grown == NULL) {
            free(bytes);
        }
        bytes = grown;
    }
    if (bytes != NULL && ferror(file)) {
        free(bytes);
        return NULL;
    }
    *length = count;
    return bytes;
}

#endif
