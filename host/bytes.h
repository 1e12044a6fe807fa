/* Bytes that lie somewhere, and those of a file. */
#ifndef BYTES_H
#define BYTES_H

#include "program.h"

#include <stddef.h>
#include <stdint.h>

struct bytes {
    const uint8_t *at;
    size_t len;
};

/* The whole file, which is kept until the program ends; one that cannot be read ends it. */
struct bytes read_file(const char *path);

#endif
