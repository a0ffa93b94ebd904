/*
 * The calls of implib.h for checks/c, as functions of a shared library, and allocations that are counted, of which one
 * may fail. The linker puts __wrap_malloc and its kin in the place of malloc (--wrap).
 */
#include <stdlib.h>

#include "implib.h"

long until_failure = -1; /* how many allocations are left until one fails, and none does where it is negative */
long held;               /* how many blocks are not freed */
int has_failed;

void *__real_malloc(size_t size);
void *__real_realloc(void *block, size_t size);
void __real_free(void *block);

static int fails_now(void)
{
    if (until_failure > 0 && --until_failure == 0)
        has_failed = 1;
    return until_failure == 0;
}

void *__wrap_malloc(size_t size)
{
    void *block = fails_now() ? NULL : __real_malloc(size);
    held += block != NULL;
    return block;
}

void *__wrap_realloc(void *block, size_t size)
{
    if (fails_now())
        return NULL;
    void *other = __real_realloc(block, size);
    held += block == NULL && other != NULL;
    return other;
}

void __wrap_free(void *block)
{
    held -= block != NULL;
    __real_free(block);
}

/* What a call is given. Of implib_imports the text is the library, of implib_exports and implib_check_dll the DLL. */
struct given {
    struct implib_options options;
    const uint8_t *text;
    size_t text_length;
    const uint8_t *library;
    size_t library_length;
    const struct implib_export *exports;
    size_t count;
};

/* The calls, in the order of their names in checks/c. */
enum name { MEMBERS, LIBRARY, DEFINITION, IMPORTS, EXPORTS, WITH, WARNINGS, LIBRARY_OF, CHECK_LIBRARY, CHECK_DLL,
            OF_DLL, ARM64EC };

uint32_t called(int name, const struct given *it, uint8_t *buffer, size_t room, size_t *length, size_t *place)
{
    const struct implib_options *of = &it->options;
    const uint8_t *text = it->text, *library = it->library;
    size_t count = it->text_length, size = it->library_length;
    switch ((enum name)name) {
    case MEMBERS:
        return implib_members(text, count, of->machine, of->flavor, buffer, room, length, place);
    case LIBRARY:
        return implib_library(text, count, of->machine, of->flavor, buffer, room, length, place);
    case DEFINITION:
        return implib_definition(text, count, of->machine, buffer, room, length, place);
    case IMPORTS:
        if (place != NULL)
            *place = 0;
        return implib_imports(text, count, buffer, room, length);
    case EXPORTS:
        return implib_exports(text, count, buffer, room, length, place);
    case WITH:
        return implib_library_with(of, text, count, buffer, room, length, place);
    case WARNINGS:
        return implib_warnings(of, text, count, buffer, room, length, place);
    case LIBRARY_OF:
        return implib_library_of(of, it->exports, it->count, buffer, room, length, place);
    case CHECK_LIBRARY:
        return implib_check_library(library, size, text, count, of, buffer, room, length, place);
    case CHECK_DLL:
        return implib_check_dll(library, size, text, count, of->dll, of->dll_length, buffer, room, length, place);
    case OF_DLL:
        return implib_library_of_dll(of, text, count, buffer, room, length, place);
    default:
        return implib_library_arm64ec(of, text, count, library, size, buffer, room, length, place);
    }
}

uint32_t written(const struct given *it, implib_writer *write, size_t *length, size_t *place)
{
    return implib_write(&it->options, it->text, it->text_length, write, NULL, length, place);
}

void position(const uint8_t *text, size_t text_length, size_t offset, size_t *line, size_t *column)
{
    implib_position(text, text_length, offset, line, column);
}

size_t status_text(uint32_t status, char *buffer, size_t room)
{
    return implib_status_text(status, buffer, room);
}
