/*
 * Makes an import library of a module definition file.
 *
 *     dlltool MACHINE FLAVOUR IN.def OUT
 *
 * MACHINE is I386, ARMNT, AMD64 or ARM64, FLAVOUR is msvc or gnu. The exit status is 0 where the library is
 * made, 1 where it is not, and 2 for other arguments.
 *
 * OUT is replaced by a whole library or stays as it was. Only a regular file is replaced: no folder, device,
 * FIFO or symbolic link.
 */
#define _POSIX_C_SOURCE 200809L

#include <errno.h>
#include <stdio.h>
#include <stdlib.h>
#include <string.h>
#include <sys/stat.h>
#include <unistd.h>

#include "implib.h"
#include "inputs.h"

/* Tells what is wrong, and gives 0. */
static int failed(const char *what, const char *why)
{
    fprintf(stderr, "dlltool: %s: %s\n", what, why);
    return 0;
}

/* Makes the library of a definition, and gives a status. Where it is IMPLIB_SUCCESS, *library is memory with
 * it, which the caller frees; else it is null. */
static uint32_t make_library(struct slice definition, uint16_t machine, uint32_t flavor, uint8_t **library,
                             size_t *length, size_t *place)
{
    /* A first call for the length. */
    *library = NULL;
    uint32_t status =
        implib_library(definition.bytes, definition.length, machine, flavor, NULL, 0, length, place);
    if (status != IMPLIB_BUFFER_TOO_SMALL)
        return status;
    uint8_t *buffer = malloc(*length);
    if (buffer == NULL)
        return IMPLIB_OUT_OF_MEMORY;
    status = implib_library(definition.bytes, definition.length, machine, flavor, buffer, *length, length,
                            place);
    if (status == IMPLIB_SUCCESS)
        *library = buffer;
    else
        free(buffer);
    return status;
}

/* Whether a library can be put at this path: nothing is there, or a regular file. The new file gets the
 * permissions of the old one, or the usual ones. */
static int is_replaceable(const char *path, mode_t *permissions)
{
    struct stat found;
    mode_t mask = umask(0);
    umask(mask);
    *permissions = 0666 & ~mask;
    if (lstat(path, &found) != 0)
        return errno == ENOENT || failed(path, strerror(errno));
    *permissions = found.st_mode & 0777;
    return S_ISREG(found.st_mode) || failed(path, "is no regular file");
}

/* Writes all bytes to a new file, and closes it. */
static int write_whole(int number, mode_t permissions, struct slice bytes)
{
    FILE *file = fdopen(number, "wb");
    if (file == NULL) {
        close(number);
        return 0;
    }
    int is_written = fchmod(number, permissions) == 0
                     && fwrite(bytes.bytes, 1, bytes.length, file) == bytes.length && fflush(file) == 0
                     && fsync(number) == 0;
    int fault = errno;
    int is_closed = fclose(file) == 0;
    if (!is_written)
        errno = fault;
    return is_written && is_closed;
}

/* Puts the library at this path: it is written to a new file beside it, and moved there once it is whole. */
static int put(const char *path, struct slice library)
{
    mode_t permissions;
    if (!is_replaceable(path, &permissions))
        return 0;
    size_t room = strlen(path) + sizeof "-XXXXXX";
    char *made = malloc(room);
    if (made == NULL)
        return failed(path, strerror(ENOMEM));
    snprintf(made, room, "%s-XXXXXX", path);
    int number = mkstemp(made);
    int is_put = number != -1 && write_whole(number, permissions, library) && rename(made, path) == 0;
    if (!is_put) {
        failed(path, strerror(errno));
        if (number != -1)
            remove(made);
    }
    free(made);
    return is_put;
}

/* Tells why there is no library. */
static void tell(const char *path, struct slice definition, uint32_t status, size_t place)
{
    char text[IMPLIB_STATUS_TEXT_SIZE];
    size_t line, column;
    implib_status_text(status, text, sizeof text);
    switch (status) {
    case IMPLIB_NOT_UTF8:
    case IMPLIB_UNKNOWN_DIRECTIVE:
    case IMPLIB_EXPECTED_IDENTIFIER:
    case IMPLIB_EXPECTED_EQUAL:
    case IMPLIB_EXPECTED_INTEGER:
    case IMPLIB_INVALID_ORDINAL:
    case IMPLIB_LONE_AT:
        implib_position(definition.bytes, definition.length, place, &line, &column);
        fprintf(stderr, "dlltool: %s:%zu:%zu: %s\n", path, line, column, text);
        break;
    case IMPLIB_EMPTY_NAME:
    case IMPLIB_NUL_IN_EXPORT:
    case IMPLIB_EMPTY_ASKED_NAME:
        fprintf(stderr, "dlltool: %s: %s (export %zu)\n", path, text, place);
        break;
    default:
        failed(path, text);
    }
}

int main(int count, char *words[])
{
    uint16_t machine;
    uint32_t flavor;
    if (count != 5 || !machine_named(words[1], &machine) || !flavor_named(words[2], &flavor)) {
        fprintf(stderr, "usage: dlltool MACHINE FLAVOUR IN.def OUT\n");
        return 2;
    }
    struct slice definition, library;
    uint8_t *text = read_file(words[3], &definition.length);
    if (text == NULL)
        return !failed(words[3], strerror(errno));
    definition.bytes = text;
    uint8_t *buffer;
    size_t place;
    uint32_t status = make_library(definition, machine, flavor, &buffer, &library.length, &place);
    int is_made = 0;
    if (status == IMPLIB_SUCCESS) {
        library.bytes = buffer;
        is_made = put(words[4], library);
    } else {
        tell(words[3], definition, status, place);
    }
    free(buffer);
    free(text);
    return is_made ? 0 : 1;
}
