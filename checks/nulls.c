/*
 * Holds the inline functions of implib.h to what they pass on: the library's own functions, in whose place these
 * stop at a null pointer, get every argument as it is, or a variable where it is null. Each call has a null pointer
 * in some of the places that allow one, and options of each size.
 */
#include <stdio.h>
#include <stdlib.h>
#include <string.h>

#include "implib.h"

_Static_assert(sizeof(struct implib_export) == 40 && offsetof(struct implib_export, flags) == 36, "as in Rattle");
_Static_assert(sizeof(struct implib_options) == 40 && sizeof(size_t) == 8, "as callers were built");
#define MACHINE IMPLIB_MACHINE_ARM64
#define FLAVOR IMPLIB_FLAVOR_GNU
#define FLAGS 0x80000003u
#define ANSWERED IMPLIB_BUFFER_TOO_SMALL

/* What the last call passed on: to which function, and its pointers and numbers, in the order of its stub. */
static struct {
    const char *function;
    const void *pointers[6];
    uint64_t numbers[8];
} passed;

static void hold(int holds, const char *function, const char *what)
{
    if (!holds) {
        fprintf(stderr, "nulls: %s: %s\n", function, what);
        exit(1);
    }
}

/* ---- the library's own functions */

#define LIST(...) __VA_ARGS__
#define TEXT const uint8_t *text, size_t text_length
#define OPTIONS const uint8_t *dll, size_t dll_length, uint32_t has_dll, uint16_t machine, uint32_t flavor, \
                uint32_t flags
#define BUFFER uint8_t *buffer, size_t buffer_length
#define ANSWER BUFFER, size_t *length, size_t *place

static uint32_t pass(const char *function, const void *const pointers[6], const uint64_t numbers[8], size_t *first,
                     size_t *second)
{
    const struct implib_export *exports = pointers[0];
    if (strcmp(function, "library_of") == 0)
        hold(exports->name != NULL && exports->target != NULL, function, "an export has a null pointer");
    passed.function = function;
    memcpy(passed.pointers, pointers, sizeof passed.pointers);
    memcpy(passed.numbers, numbers, sizeof passed.numbers);
    if (first != NULL)
        *first = 11;
    if (second != NULL)
        *second = 12;
    return ANSWERED;
}

/* A function that passes these on. */
#define STUB(TYPE, NAME, PARAMETERS, POINTERS, NUMBERS, FIRST, SECOND) \
    TYPE implib_##NAME##_nonnull PARAMETERS \
    { \
        return pass(#NAME, (const void *const[6]){POINTERS}, (const uint64_t[8]){NUMBERS}, FIRST, SECOND); \
    }
/* Those with options have the same, in the same order. */
#define STUB_WITH(NAME, PARAMETERS, ITS, COUNT, MORE, LENGTH) \
    STUB(uint32_t, NAME, PARAMETERS, LIST(ITS, dll, buffer, length, place, MORE), \
         LIST(COUNT, dll_length, has_dll, machine, flavor, flags, buffer_length, LENGTH), length, place)

STUB_WITH(library_with, (TEXT, OPTIONS, ANSWER), text, text_length, NULL, 0)
STUB_WITH(delayed_library, (TEXT, OPTIONS, ANSWER), text, text_length, NULL, 0)
STUB_WITH(named_library, (TEXT, OPTIONS, ANSWER), text, text_length, NULL, 0)
STUB_WITH(warnings, (TEXT, OPTIONS, ANSWER), text, text_length, NULL, 0)
STUB_WITH(library_of, (const struct implib_export *exports, size_t count, OPTIONS, ANSWER), exports, count, NULL, 0)
STUB_WITH(library_of_dll, (TEXT, OPTIONS, ANSWER), text, text_length, NULL, 0)
STUB_WITH(library_arm64ec, (TEXT, const uint8_t *native, size_t size, uint32_t has_native, OPTIONS, ANSWER), text,
          text_length, native, 2 * size + has_native)
STUB_WITH(check_library, (const uint8_t *bytes, size_t size, TEXT, OPTIONS, ANSWER), text, text_length, bytes, size)
STUB(uint32_t, library, (TEXT, uint16_t machine, uint32_t flavor, ANSWER), LIST(text, buffer, length, place),
     LIST(text_length, buffer_length, machine, flavor), length, place)
STUB(uint32_t, members, (TEXT, uint16_t machine, uint32_t flavor, ANSWER), LIST(text, buffer, length, place),
     LIST(text_length, buffer_length, machine, flavor), length, place)
STUB(uint32_t, definition, (TEXT, uint16_t machine, ANSWER), LIST(text, buffer, length, place),
     LIST(text_length, buffer_length, machine), length, place)
STUB(uint32_t, exports, (TEXT, ANSWER), LIST(text, buffer, length, place), LIST(text_length, buffer_length), length,
     place)
STUB(uint32_t, imports, (TEXT, BUFFER, size_t *length), LIST(text, buffer, length), LIST(text_length, buffer_length),
     length, NULL)
STUB(uint32_t, check_dll, (TEXT, const uint8_t *dll, size_t size, const uint8_t *name, size_t name_length, ANSWER),
     LIST(text, dll, name, buffer, length, place), LIST(text_length, size, name_length, buffer_length), length, place)
STUB(size_t, status_text, (uint32_t status, char *buffer, size_t buffer_length), LIST(buffer),
     LIST(status, buffer_length), NULL, NULL)

void implib_position_nonnull(TEXT, size_t offset, size_t *line, size_t *column)
{
    pass("position", (const void *const[6]){text, line, column}, (const uint64_t[8]){text_length, offset}, line,
         column);
}

/* ---- what a call passes on */

/* The status is given, and so many pointers and the numbers are passed on, a null pointer as another one. */
static void hold_passed(const char *function, uint64_t status, size_t count, const void *const pointers[6],
                        const uint64_t numbers[8])
{
    hold(passed.function != NULL && strcmp(passed.function, function) == 0, function, "it is not called");
    hold(status == ANSWERED, function, "another status is returned");
    for (size_t at = 0; at < count; at++) {
        hold(passed.pointers[at] != NULL, function, "a null pointer is passed on");
        hold(pointers[at] == NULL || pointers[at] == passed.pointers[at], function, "another pointer is passed on");
    }
    hold(memcmp(passed.numbers, numbers, sizeof passed.numbers) == 0, function, "another number is passed on");
    passed.function = NULL;
}

#define HOLD(FUNCTION, STATUS, COUNT, POINTERS, NUMBERS) \
    hold_passed(FUNCTION, STATUS, COUNT, (const void *const[6]){POINTERS}, (const uint64_t[8]){NUMBERS})
#define TRY(NAME, ARGUMENTS, COUNT, POINTERS, NUMBERS) \
    hold_passed(#NAME, implib_##NAME ARGUMENTS, COUNT, (const void *const[6]){POINTERS}, (const uint64_t[8]){NUMBERS})

/* What is given to a call. */
struct given {
    const uint8_t *text, *other, *name;
    size_t text_length, other_length, name_length;
    const struct implib_export *exports;
    size_t count;
    uint8_t *buffer;
    size_t buffer_length, *first, *second;
};

static void hold_plain(struct given it)
{
#define ITS it.text, it.text_length
#define ROOM it.buffer, it.buffer_length, it.first
#define ANSWERS LIST(it.text, it.buffer, it.first, it.second)
    TRY(library, (ITS, MACHINE, FLAVOR, ROOM, it.second), 4, ANSWERS,
        LIST(it.text_length, it.buffer_length, MACHINE, FLAVOR));
    TRY(members, (ITS, MACHINE, FLAVOR, ROOM, it.second), 4, ANSWERS,
        LIST(it.text_length, it.buffer_length, MACHINE, FLAVOR));
    TRY(definition, (ITS, MACHINE, ROOM, it.second), 4, ANSWERS, LIST(it.text_length, it.buffer_length, MACHINE));
    TRY(exports, (ITS, ROOM, it.second), 4, ANSWERS, LIST(it.text_length, it.buffer_length));
    TRY(imports, (ITS, ROOM), 3, ANSWERS, LIST(it.text_length, it.buffer_length));
    TRY(check_dll, (ITS, it.other, it.other_length, it.name, it.name_length, ROOM, it.second), 6,
        LIST(it.text, it.other, it.name, it.buffer, it.first, it.second),
        LIST(it.text_length, it.other_length, it.name_length, it.buffer_length));
    TRY(status_text, (IMPLIB_NO_NAME_TYPE, (char *)it.buffer, it.buffer_length), 1, LIST(it.buffer),
        LIST(IMPLIB_NO_NAME_TYPE, it.buffer_length));
    implib_position(ITS, 5, it.first, it.second);
    HOLD("position", ANSWERED, 3, LIST(it.text, it.first, it.second), LIST(it.text_length, 5));
}

static const char *const WITH[] = {"library_with", "warnings", "check_library", "library_of", "library_of_dll",
                                   "library_arm64ec"};

static uint32_t called_with(unsigned call, const struct implib_options *options, struct given it)
{
    if (it.first != NULL)
        *it.first = 5;
    if (it.second != NULL)
        *it.second = 5;
    if (call == 0)
        return implib_library_with(options, ITS, ROOM, it.second);
    if (call == 1)
        return implib_warnings(options, ITS, ROOM, it.second);
    if (call == 2)
        return implib_check_library(it.other, it.other_length, ITS, options, ROOM, it.second);
    if (call == 3)
        return implib_library_of(options, it.exports, it.count, ROOM, it.second);
    if (call == 4)
        return implib_library_of_dll(options, ITS, ROOM, it.second);
    return implib_library_arm64ec(options, ITS, it.other, it.other_length, ROOM, it.second);
}

/* A call that is refused by the header alone, at this place. */
static void hold_refused(unsigned call, uint32_t status, uint32_t wanted, size_t place, struct given it)
{
    hold(status == wanted && passed.function == NULL, WITH[call], "a wrong call is passed on");
    int is_told = (it.first == NULL || *it.first == 0) && (it.second == NULL || *it.second == place);
    hold(is_told, WITH[call], "it tells more");
}

/* A call with options of a size. Libraries of another kind go to functions of their own, without the flag. */
static void hold_sized(unsigned call, size_t size, uint32_t kind, struct given it)
{
    struct implib_options options = {size, MACHINE, FLAVOR, FLAGS + kind, it.name, it.name_length};
    uint32_t status = called_with(call, &options, it);
    if (size < 16 || size > 40) {
        hold_refused(call, status, IMPLIB_UNKNOWN_OPTIONS, 0, it);
        return;
    }
    const char *name = kind == 0 ? WITH[call] : kind == IMPLIB_DELAYED ? "delayed_library" : "named_library";
    const uint8_t *dll = size == 40 ? it.name : NULL;
    const void *text = call == 3 ? (const void *)it.exports : it.text;
    size_t other = call == 2 ? it.other_length : call == 5 ? 2 * it.other_length + (it.other != NULL) : 0;
    HOLD(name, status, call == 2 || call == 5 ? 6 : 5, LIST(text, dll, it.buffer, it.first, it.second, it.other),
         LIST(call == 3 ? it.count : it.text_length, dll == NULL ? 0 : it.name_length, dll != NULL, MACHINE, FLAVOR,
              size < 20 ? 0 : FLAGS, it.buffer_length, other));
}

/* Exports of which one has a null pointer. */
static void hold_exports(struct given it)
{
    struct implib_options options = {sizeof options, MACHINE, FLAVOR, FLAGS, it.name, it.name_length};
    for (unsigned null = 0; null < 4; null++) {
        struct implib_export exports[2] = {it.exports[0], it.exports[1]};
        *(null % 2 == 0 ? &exports[null / 2].name : &exports[null / 2].target) = NULL;
        it.exports = exports;
        hold_refused(3, called_with(3, &options, it), IMPLIB_NULL_IN_EXPORT, null / 2, it);
        exports[null / 2] = (struct implib_export){(const uint8_t *)"a", 1, (const uint8_t *)"b", 0, 5, 8};
        hold(called_with(3, &options, it) == ANSWERED, WITH[3], "exports are refused");
        passed.function = NULL;
    }
}

int main(void)
{
    static const uint8_t text[] = {'a', 'b'};
    static const struct implib_export exports[] = {{text, 2, text, 0, 5, 8}, {text, 1, text, 2, 0, 0}};
    uint8_t buffer[3];
    size_t first, second;

    /* Which of a text, a buffer, the first number, the second, another text, a name and exports are there. */
    for (unsigned bits = 0; bits < 128; bits++) {
        struct given it = {
            bits & 1 ? text : NULL, bits & 16 ? text + 1 : NULL, bits & 32 ? text : NULL, bits & 1 ? 2 : 0,
            bits & 16 ? 1 : 0, bits & 32 ? 1 + (bits & 1) : 0, bits & 64 ? exports : NULL, bits & 64 ? 2 : 0,
            bits & 2 ? buffer : NULL, bits & 2 ? 3 : 0, bits & 4 ? &first : NULL, bits & 8 ? &second : NULL,
        };
        hold_plain(it);
        for (unsigned call = 0; call < 6; call++) {
            hold_refused(call, called_with(call, NULL, it), IMPLIB_UNKNOWN_OPTIONS, 0, it);
            for (size_t size = 0; size < sizeof(struct implib_options) + 9; size++)
                hold_sized(call, size, 0, it);
        }
        hold_sized(0, sizeof(struct implib_options), IMPLIB_NULL_NAMED, it);
        hold_sized(0, sizeof(struct implib_options), IMPLIB_DELAYED, it);
        if (it.exports != NULL)
            hold_exports(it);
    }
    /* A pointer that is not null is passed on where the length is 0 too, or a variable in its place. */
    TRY(library, (text, 0, MACHINE, FLAVOR, buffer, 0, NULL, NULL), 4, LIST(NULL), LIST(0, 0, MACHINE, FLAVOR));
    /* A text of an encoding, and nothing behind it. */
    static const uint8_t encoding[] = {2, 0, 0, 0, 0, 0, 0, 0, 'h', 'i'};
    struct implib_reader reader = {encoding, sizeof encoding}, cut = {encoding, sizeof encoding - 1};
    const uint8_t *read;
    hold(implib_read_text(&reader, &read, &first) && first == 2 && read == encoding + 8, "read_text", "another text");
    hold(!implib_read_number(&reader, &first) && !implib_read_text(&cut, &read, &first), "reader", "it reads more");
    return 0;
}
