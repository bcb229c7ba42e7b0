/* What the programs of this folder share: a file read whole, R of a description, and room for the lines of any call. */
#ifndef FILES_H
#define FILES_H
#include <stdint.h>
#include <stdio.h>
#include <stdlib.h>

/* No call of a description within the limits prints more: 28 groups of 16 lines, and at most two page
 * changes, with a heading and a footing of 16 lines each, for every body group of a call (17); 142 bytes a line. */
enum { ROOM = (28 * 16 + 17 * 2 * 2 * 16) * 142 };

static inline size_t read_file(const char *name, uint8_t *bytes, size_t room)
{
    FILE *file = fopen(name, "rb");
    if (file == NULL) {
        perror(name);
        exit(1);
    }
    size_t count = fread(bytes, 1, room, file);
    fclose(file);
    return count;
}

/* R stands last but one in the trailer. */
static inline size_t record_length(const uint8_t *description, size_t length)
{
    return description[length - 4] + 256u * description[length - 3];
}

#endif
