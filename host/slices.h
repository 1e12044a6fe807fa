/* A file of slices: host/pack.py says what it is. */
#ifndef SLICES_H
#define SLICES_H

#include "bytes.h"

#include <cart_plain.h>
#include <stdbool.h>

/* The numbers are as the file has them: nothing is known of them but that the payloads lie in the file, and that
   a slice without a kind has no alpha. */
struct slice {
    uint32_t id, kind, samples;
    struct cart_shape shape;
    struct cart_payloads payloads;
    struct bytes alpha;
};

struct slices {
    const char *path;
    struct bytes rest; /* those that were not taken yet */
};

/* The file's slices. A file that is none, or that cannot be read, ends the program. */
struct slices slices_open(const char *path);

/* Takes the next slice, or gives false where none is left. A file that ends within a slice, or has
   alpha without a kind, ends the program. */
bool slices_next(struct slices *slices, struct slice *s);

#endif
