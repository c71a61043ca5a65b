/* A whole file in memory, for the examples. */
#include <stdint.h>
#include <stdio.h>
#include <stdlib.h>

/* All bytes of a file, to be freed; NULL where it cannot be read, as a folder. */
static uint8_t *read_whole(const char *path, size_t *length)
{
    FILE *file = fopen(path, "rb");
    uint8_t *bytes = NULL;
    size_t room = 0;
    for (*length = 0; file != NULL && !feof(file) && !ferror(file);) {
        if (*length == room) {
            room = 2 * room + 4096;
            uint8_t *longer = realloc(bytes, room);
            if (longer == NULL)
                break;
            bytes = longer;
        }
        *length += fread(bytes + *length, 1, room - *length, file);
    }
    int whole = file != NULL && feof(file);
    if (file != NULL)
        fclose(file);
    if (!whole)
        free(bytes);
    return whole ? bytes : NULL;
}
