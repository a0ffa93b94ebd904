/* What the examples read: files and arguments. */
#ifndef INPUTS_H
#define INPUTS_H

#include <stddef.h>
#include <stdint.h>

/* Bytes: no copy, and no NUL at the end. */
struct slice {
    const uint8_t *bytes;
    size_t length;
};

/* The machine and the flavour of these names, as the program has them. They give 0 where there is none. */
int machine_named(const char *name, uint16_t *machine);
int flavor_named(const char *name, uint32_t *flavor);

/* All bytes of a file, and one behind them, which the caller frees. Null where it cannot be read. */
uint8_t *read_file(const char *path, size_t *length);

#endif
