/*
 * Makes the import library of a DLL as a linker does that links it: by the rules of implib_dlltool, and under
 * the name that the DLL has by then.
 *
 *     linker MACHINE FLAVOUR IN.def DLL OUT
 *     linker MACHINE FLAVOUR - DLL OUT EXPORT..
 *
 * MACHINE is I386, ARMNT, AMD64 or ARM64, FLAVOUR is msvc or gnu, DLL is the name of the DLL, or `-` for the
 * definition's own. An EXPORT is NAME or NAME==TARGET: a linker knows its exports, and needs no text of them. The
 * exit status is 0 where the library is written, 1 where it is not, and 2 for other arguments. dlltool.c shows how
 * an old library at OUT is kept until there is a new one.
 */
#include <errno.h>
#include <stdio.h>
#include <stdlib.h>
#include <string.h>

#include "implib.h"
#include "inputs.h"

/* What a library is made of: a definition, or, where its text is null, exports. */
struct source {
    struct slice definition;
    struct implib_export *exports;
    size_t count;
};

static uint32_t put_library(const struct implib_options *options, const struct source *source, uint8_t *buffer,
                            size_t room, size_t *length, size_t *place)
{
    if (source->definition.bytes == NULL)
        return implib_library_of(options, source->exports, source->count, buffer, room, length, place);
    return implib_library_with(options, source->definition.bytes, source->definition.length, buffer, room, length,
                               place);
}

/* Makes the library, and gives a status. Where it is IMPLIB_SUCCESS, *library is memory with it, which the
 * caller frees; else it is null. */
static uint32_t make_library(const struct implib_options *options, const struct source *source, uint8_t **library,
                             size_t *length, size_t *place)
{
    /* A first call for the length. */
    *library = NULL;
    uint32_t status = put_library(options, source, NULL, 0, length, place);
    if (status != IMPLIB_BUFFER_TOO_SMALL)
        return status;
    uint8_t *buffer = malloc(*length);
    if (buffer == NULL)
        return IMPLIB_OUT_OF_MEMORY;
    status = put_library(options, source, buffer, *length, length, place);
    if (status == IMPLIB_SUCCESS)
        *library = buffer;
    else
        free(buffer);
    return status;
}

/* Tells why there is no library. Of a definition each place is an offset, so each message has a line and a column;
 * of exports it is an index. */
static void tell(const char *path, const struct source *source, uint32_t status, size_t place)
{
    char text[IMPLIB_STATUS_TEXT_SIZE];
    implib_status_text(status, text, sizeof text);
    if (source->definition.bytes == NULL) {
        fprintf(stderr, "linker: export %zu: %s\n", place + 1, text);
        return;
    }
    size_t line, column;
    implib_position(source->definition.bytes, source->definition.length, place, &line, &column);
    fprintf(stderr, "%s:%zu:%zu: error: %s\n", path, line, column, text);
}

/* Words as exports, in memory that the caller frees, or null. They keep pointers to the words. */
static struct implib_export *exports_of(char *words[], size_t count)
{
    struct implib_export *exports = calloc(count + 1, sizeof *exports);
    for (size_t index = 0; exports != NULL && index < count; index++) {
        const char *equal = strstr(words[index], "==");
        const char *target = equal == NULL ? "" : equal + 2;
        exports[index].name = (const uint8_t *)words[index];
        exports[index].name_length = equal == NULL ? strlen(words[index]) : (size_t)(equal - words[index]);
        exports[index].target = (const uint8_t *)target;
        exports[index].target_length = strlen(target);
    }
    return exports;
}

static int write_file(const char *path, const uint8_t *bytes, size_t length)
{
    FILE *file = fopen(path, "wb");
    if (file == NULL)
        return 0;
    int is_written = fwrite(bytes, 1, length, file) == length;
    return fclose(file) == 0 && is_written;
}

int main(int count, char *words[])
{
    struct implib_options options = {.size = sizeof options};
    int has_text = count > 3 && strcmp(words[3], "-") != 0;
    if (count < 6 || (has_text && count > 6) || !machine_named(words[1], &options.machine)
        || !flavor_named(words[2], &options.flavor)) {
        fprintf(stderr, "usage: linker MACHINE FLAVOUR IN.def DLL OUT\n"
                        "       linker MACHINE FLAVOUR - DLL OUT EXPORT..\n");
        return 2;
    }
    if (strcmp(words[4], "-") != 0) {
        options.dll = (const uint8_t *)words[4];
        options.dll_length = strlen(words[4]);
    }
    struct source source = {.count = (size_t)count - 6};
    uint8_t *text = has_text ? read_file(words[3], &source.definition.length) : NULL;
    source.definition.bytes = text;
    source.exports = has_text ? NULL : exports_of(words + 6, source.count);
    if (text == NULL && source.exports == NULL) {
        fprintf(stderr, "linker: %s: %s\n", words[3], strerror(errno));
        return 1;
    }
    uint8_t *library;
    size_t length, place;
    uint32_t status = make_library(&options, &source, &library, &length, &place);
    int is_made = 0;
    if (status != IMPLIB_SUCCESS)
        tell(words[3], &source, status, place);
    else if (!(is_made = write_file(words[5], library, length)))
        fprintf(stderr, "linker: %s: %s\n", words[5], strerror(errno));
    free(library);
    free(source.exports);
    free(text);
    return is_made ? 0 : 1;
}
