#include "inputs.h"

#include <stdio.h>
#include <stdlib.h>
#include <string.h>

#include "implib.h"

int machine_named(const char *name, uint16_t *machine)
{
    static const struct {
        const char *name;
        uint16_t number;
    } machines[] = {
        {"I386", IMPLIB_MACHINE_I386},
        {"ARMNT", IMPLIB_MACHINE_ARMNT},
        {"AMD64", IMPLIB_MACHINE_AMD64},
        {"ARM64", IMPLIB_MACHINE_ARM64},
    };
    for (size_t index = 0; index < sizeof machines / sizeof *machines; index++) {
        if (strcmp(name, machines[index].name) == 0) {
            *machine = machines[index].number;
            return 1;
        }
    }
    return 0;
}

int flavor_named(const char *name, uint32_t *flavor)
{
    int is_gnu = strcmp(name, "gnu") == 0;
    *flavor = is_gnu ? IMPLIB_FLAVOR_GNU : IMPLIB_FLAVOR_MSVC;
    return is_gnu || strcmp(name, "msvc") == 0;
}

uint8_t *read_file(const char *path, size_t *length)
{
    FILE *file = fopen(path, "rb");
    if (file == NULL)
        return NULL;
    size_t room = 4096;
    uint8_t *bytes = malloc(room);
    *length = 0;
    while (bytes != NULL) {
        *length += fread(bytes + *length, 1, room - *length, file);
        if (*length < room)
            break;
        room *= 2;
        uint8_t *more = realloc(bytes, room);
        if (more == NULL)
            free(bytes);
        bytes = more;
    }
    if (ferror(file)) {
        free(bytes);
        bytes = NULL;
    }
    fclose(file);
    return bytes;
}
