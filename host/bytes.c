#include "bytes.h"

#include <errno.h>
#include <stdio.h>
#include <stdlib.h>
#include <string.h>

struct bytes read_file(const char *path)
{
    uint8_t *at = NULL;
    size_t len = 0, room = 0;
    FILE *file = fopen(path, "rb");
    for (size_t got = 1; file && got > 0; len += got) {
        if (len == room && !(at = realloc(at, room = room ? 2 * room : 1 << 16)))
            fail("%s: no memory for the file", path);
        got = fread(at + len, 1, room - len, file);
    }
    if (!file || ferror(file))
        fail("%s: %s", path, strerror(errno));
    fclose(file);
    return (struct bytes){at, len};
}
