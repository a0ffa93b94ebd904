/*
 * Tells the warnings of a definition, each with its line and column, and writes its import library piece by piece.
 *
 *     warn MACHINE FLAVOUR IN.def OUT
 *
 * MACHINE is I386, ARMNT, AMD64 or ARM64, FLAVOUR is msvc or gnu. The exit status is 0 where the library is
 * written, 1 where it is not, and 2 for other arguments. Where writing fails, OUT has a beginning of the library.
 */
#include <errno.h>
#include <stdio.h>
#include <stdlib.h>
#include <string.h>

#include "implib.h"
#include "inputs.h"

/* Writes a line with a place of the definition. */
static void tell(const char *path, size_t line, size_t column, const char *kind, struct slice words)
{
    fprintf(stderr, "%s:%zu:%zu: %s: ", path, line, column, kind);
    fwrite(words.bytes, 1, words.length, stderr);
    fputc('\n', stderr);
}

/* Writes a line about the whole definition. */
static void tell_whole(const char *path, const char *kind, struct slice words)
{
    fprintf(stderr, "%s: %s: ", path, kind);
    fwrite(words.bytes, 1, words.length, stderr);
    fputc('\n', stderr);
}

/* Tells the next warning of an encoding, and gives 0 where there is none. */
static int tell_warning(const char *path, struct implib_reader *reader)
{
    size_t kind, offset, line, column;
    struct slice words;
    if (!implib_read_number(reader, &kind) || !implib_read_number(reader, &offset) || !implib_read_number(reader, &line)
        || !implib_read_number(reader, &column) || !implib_read_text(reader, &words.bytes, &words.length))
        return 0;
    if (kind == IMPLIB_WARNING_NO_EXPORT || kind == IMPLIB_WARNING_OTHER_KIND)
        tell_whole(path, "warning", words);
    else
        tell(path, line, column, "warning", words);
    return 1;
}

/* Tells the warnings. A definition that has none, as it is none, is refused when its library is made. */
static uint32_t tell_warnings(const char *path, const struct implib_options *options, struct slice definition)
{
    size_t length, count;
    uint32_t status = implib_warnings(options, definition.bytes, definition.length, NULL, 0, &length, NULL);
    if (status != IMPLIB_BUFFER_TOO_SMALL)
        return status;
    uint8_t *buffer = malloc(length);
    if (buffer == NULL)
        return IMPLIB_OUT_OF_MEMORY;
    status = implib_warnings(options, definition.bytes, definition.length, buffer, length, &length, NULL);
    struct implib_reader reader = {buffer, status == IMPLIB_SUCCESS ? length : 0};
    if (implib_read_number(&reader, &count))
        while (count > 0 && tell_warning(path, &reader))
            count--;
    free(buffer);
    return status;
}

/* Takes a piece of the library: it goes to a file. */
static int write_piece(void *file, const uint8_t *bytes, size_t count)
{
    return fwrite(bytes, 1, count, file) == count ? 0 : -1;
}

/* Writes the library, and tells why there is none. */
static int write_library(const char *path, const struct implib_options *options, struct slice definition, FILE *file)
{
    char text[IMPLIB_STATUS_TEXT_SIZE];
    size_t place, line, column;
    uint32_t status = implib_write(options, definition.bytes, definition.length, write_piece, file, NULL, &place);
    if (status == IMPLIB_SUCCESS)
        return 1;
    struct slice words = {(const uint8_t *)text, implib_status_text(status, text, sizeof text)};
    implib_position(definition.bytes, definition.length, place, &line, &column);
    tell(path, line, column, "error", words);
    return 0;
}

int main(int count, char *words[])
{
    struct implib_options options = {.size = sizeof options};
    if (count != 5 || !machine_named(words[1], &options.machine) || !flavor_named(words[2], &options.flavor)) {
        fprintf(stderr, "usage: warn MACHINE FLAVOUR IN.def OUT\n");
        return 2;
    }
    struct slice definition;
    uint8_t *text = read_file(words[3], &definition.length);
    FILE *file = text == NULL ? NULL : fopen(words[4], "wb");
    if (file == NULL) {
        fprintf(stderr, "warn: %s: %s\n", words[text == NULL ? 3 : 4], strerror(errno));
        free(text);
        return 1;
    }
    definition.bytes = text;
    tell_warnings(words[3], &options, definition);
    int is_written = write_library(words[3], &options, definition, file);
    if (fclose(file) != 0) {
        fprintf(stderr, "warn: %s: %s\n", words[4], strerror(errno));
        is_written = 0;
    }
    free(text);
    return is_written ? 0 : 1;
}
