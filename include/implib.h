/*
 * implib.h: import libraries for Windows DLLs, from module definition files (.def).
 *
 * implib_library_with takes the text of a definition, and puts the DLL's import library, a .lib or .a, into a
 * buffer of the caller: the one that the program implib_dlltool makes, with its options. implib_library_of makes
 * the same of exports that the caller has in memory, without a text. implib_library takes a text, too, and goes
 * by the rules of the crate `implib`, which has other names for the DLL and its exports; docs/DECISIONS.md says
 * where the two differ. implib_members puts the members of this archive there one by one: objects and short
 * imports, as files, with their names and the symbols that the index lists for them. implib_library_of_dll makes
 * the library of a DLL's file. examples/c has callers.
 *
 * Linking
 *
 *     cc program.c $(pkg-config --cflags --libs implib)
 *
 * That is libimplib.a, as scripts/install puts it into lib. It allocates by the program's malloc, realloc and free.
 * There is nothing else to link, and nothing to set up. The library is for x86-64 Linux; size_t has 64 bits. Its code
 * wants a processor of the level x86-64-v2, with SSE4.2 and POPCNT.
 *
 * Ownership
 *
 * The library keeps no pointer after a call, and hands none out: the caller owns all that it passes. What a
 * call allocates it frees before it returns.
 *
 * Pointers
 *
 * A text or a buffer of length 0 may be null, and so may length, place, line and column where the caller does
 * not want what they get. What a call writes to (the buffer and what these four point to) must overlap
 * neither each other nor the text or the options, and the four are aligned as a size_t. Nothing else may write
 * to the text or the options, or read or write the rest, during a call. What is written to may hold anything
 * before a call.
 *
 * The library's own functions, which end in _nonnull, take no null pointer, also where a length is 0. Those
 * without this ending are inline functions of this header, which put a variable of their own in its place.
 *
 * Threads
 *
 * The library has no state: calls in several threads at once are independent, where malloc, realloc and free
 * may be called so. It must not be called from a signal handler, or in the forked child of a process with
 * several threads. The three functions are of one allocator, and align what they give to 16 bytes.
 */
#ifndef IMPLIB_H
#define IMPLIB_H

#include <stddef.h>
#include <stdint.h>
#include <stdlib.h>

#ifdef __cplusplus
extern "C" {
#endif

/* The machines, by their numbers in the PE/COFF specification, "Machine Types" (IMAGE_FILE_MACHINE_..). */
#define IMPLIB_MACHINE_I386 0x014C
#define IMPLIB_MACHINE_ARMNT 0x01C4
#define IMPLIB_MACHINE_AMD64 0x8664
#define IMPLIB_MACHINE_ARM64 0xAA64 /* for ARM64EC there is implib_library_arm64ec */

/* The linkers. */
#define IMPLIB_FLAVOR_MSVC 0 /* Microsoft's: objects for the DLL, and short imports. */
#define IMPLIB_FLAVOR_GNU 1  /* GNU's: objects alone. */

/* The version of this header, which grows with every change of what it declares or says. implib_version()
 * gives that of the library. */
#define IMPLIB_VERSION 14
uint32_t implib_version(void);

/* What a call answers. New statuses get new numbers. */
enum implib_status {
    IMPLIB_SUCCESS = 0,
    IMPLIB_BUFFER_TOO_SMALL = 1, /* *length is the length that is needed */
    IMPLIB_OUT_OF_MEMORY = 2,    /* an allocation failed; the call can be repeated */
    IMPLIB_NOT_UTF8 = 3,         /* *place is the offset of the first byte that is not UTF-8 */
    IMPLIB_UNKNOWN_MACHINE = 4,
    IMPLIB_UNKNOWN_FLAVOR = 5,

    /* The text is no definition. *place is the offset in bytes, from 0, of the token at which it is
     * refused; of a name in quotes, that of its value, behind the quote and white space. A byte order mark at
     * the text's beginning, which implib_library_with allows, counts. */
    IMPLIB_UNKNOWN_DIRECTIVE = 16,   /* a statement begins with something that is no directive */
    IMPLIB_EXPECTED_IDENTIFIER = 17, /* something else is where an identifier was expected */
    IMPLIB_EXPECTED_EQUAL = 18,      /* something else is where `=` was expected */
    IMPLIB_EXPECTED_INTEGER = 19,    /* an identifier is no number of the expected range */
    IMPLIB_INVALID_ORDINAL = 20,     /* what follows the attribute `@` is no number of 16 bits */
    IMPLIB_LONE_AT = 21,             /* the target of an export, after `=`, is `@` */

    /* The definition has no members. Where the status is of an export, *place is its index among all exports
     * of the text, private ones counted, from 0, and after implib_library_of among those that are passed; after
     * implib_library_with it is the offset of its name, and after implib_library_of_dll its index among the names that
     * lead somewhere and, behind these, the ordinals without a name. */
    IMPLIB_EMPTY_IMPORT_NAME = 22,  /* the name of the DLL is empty, or there is none */
    IMPLIB_NUL_IN_IMPORT_NAME = 23, /* the name of the DLL holds a NUL */
    IMPLIB_EMPTY_NAME = 24,         /* of an export: its name is empty */
    IMPLIB_NUL_IN_EXPORT = 25,      /* of an export: one of its names holds a NUL */
    IMPLIB_EMPTY_ASKED_NAME = 26,   /* of an export: the name that the DLL is asked for is empty */
    IMPLIB_MEMBER_TOO_LONG = 27,    /* a member has more than 2^32 - 1 bytes */
    IMPLIB_NO_NAME_TYPE = 28,       /* of an export, and of no text: no name type makes the asked name */

    /* The members have no archive. *place is 0. */
    IMPLIB_EMPTY_MEMBER_NAME = 29,       /* of a member: its name is empty */
    IMPLIB_NUL_IN_MEMBER_NAME = 30,      /* of a member: its name holds a NUL */
    IMPLIB_LINE_END_IN_MEMBER_NAME = 31, /* of a member: its name holds a line feed; for GNU's linker */
    IMPLIB_EMPTY_SYMBOL = 32,            /* of a member: a symbol is empty */
    IMPLIB_NUL_IN_SYMBOL = 33,           /* of a member: a symbol holds a NUL */
    IMPLIB_TOO_MANY_MEMBERS = 34,        /* 65,535 members or more; for Microsoft's linker */
    IMPLIB_ARCHIVE_TOO_LONG = 35,        /* a member would begin at an offset of 2^32 or more */

    /* The library has a name of its own that no library can have: implib_library_with makes one of the name of
     * the DLL. *place is 0. */
    IMPLIB_EMPTY_LIBRARY_NAME = 36,       /* it is empty; of no text */
    IMPLIB_NUL_IN_LIBRARY_NAME = 37,      /* it holds a NUL; of no text */
    IMPLIB_LINE_END_IN_LIBRARY_NAME = 38, /* it holds a line feed, as the name of the DLL does */

    /* Of the calls with options; *place is 0. */
    IMPLIB_NO_DLL_NAME = 39,     /* no name of the DLL is given, but for a directory */
    IMPLIB_UNKNOWN_OPTIONS = 40, /* the size of the options is of none that this header knows */
    IMPLIB_UNKNOWN_FLAGS = 41,   /* an unknown flag is set */
    IMPLIB_DLL_NOT_UTF8 = 42,    /* the name of the DLL in the options, or in its export directory, is not UTF-8 */

    /* Of implib_library_of; *place is the index of the export, from 0. */
    IMPLIB_UNKNOWN_EXPORT_FLAGS = 43, /* an unknown flag of an export is set */
    IMPLIB_EXPORT_NOT_UTF8 = 44,      /* the name or the target of an export is not UTF-8; after implib_library_of_dll
                                       * *place is the position in the name table */
    IMPLIB_NULL_IN_EXPORT = 45,       /* the name or the target of an export is a null pointer */

    /* Of implib_imports, implib_check_library and implib_check_dll; *place is 0. */
    IMPLIB_NOT_A_LIBRARY = 46, /* the bytes are no archive, or a thin one */

    /* Of implib_write alone; *place is 0. */
    IMPLIB_WRITE_FAILED = 47, /* the caller's function did not take a piece */

    /* Of implib_exports, implib_check_dll and implib_library_of_dll. */
    IMPLIB_NOT_AN_IMAGE = 48,       /* the bytes are no PE32 or PE32+ image, or a part of it is cut; *place is the
                                     * offset of the field for which they are none */
    IMPLIB_NO_EXPORT_DIRECTORY = 49, /* the image exports nothing; *place is 0 */

    /* Of implib_library_with under IMPLIB_DELAYED. */
    IMPLIB_DELAY_FLAVOR = 50,  /* Microsoft's linkers delay imports of an ordinary library; *place is 0 */
    IMPLIB_DELAY_MACHINE = 51, /* the machine has no code for delayed imports; *place is 0 */
    IMPLIB_DELAY_DATA = 52,    /* no longer: data and constants are left out of a delayed library */
    IMPLIB_DELAY_ALIAS = 53,   /* of an export, and of no text: it is a weak name for another; *place is the offset of its name */

    /* Of implib_library_of_dll. */
    IMPLIB_OTHER_MACHINE = 54,      /* the DLL is for another machine than the options; *place is 0 */
    IMPLIB_EXPORT_OUT_OF_RANGE = 55, /* of an export: its position in the name table, or its ordinal without a name,
                                      * is above 65,535; *place is this number */

    /* Of implib_library_arm64ec. */
    IMPLIB_UNREADABLE_NAME = 56, /* of an export: it begins as a name of C++, and is none; *place is its offset */
    IMPLIB_NATIVE_REFUSED = 57   /* the native definition is refused, *place is the offset in it; or, with one, the
                                  * name of the DLL, and *place is 0 */
};

/* The flags of the options, and the options of the program that they stand for. */
#define IMPLIB_KILL_AT 1u               /* -k: on I386 the DLL is asked for names without `@` and the rest */
#define IMPLIB_NO_LEADING_UNDERSCORE 2u /* --no-leading-underscore: on I386 symbols are as they are written */
#define IMPLIB_EXPORTAS 4u              /* --export-as: a name that is not made of its symbol is beside it */
#define IMPLIB_KEEP_DECORATED 8u        /* --lib: on I386 a name with an `@` is decorated already */
#define IMPLIB_DELAYED 16u              /* -y: of implib_library_with and implib_write alone, for GNU's linker: the
                                         * DLL is loaded at the first call of one of its functions */
#define IMPLIB_NULL_NAMED 32u           /* of implib_library_with and implib_write alone, without IMPLIB_DELAYED: for
                                         * Microsoft's linkers the null descriptor's symbol is
                                         * __NULL_IMPORT_DESCRIPTOR_NAME, by the library's name without .dll or .exe, so
                                         * that whole archives can be linked together; for GNU's of no effect */

/*
 * For which machine, linker and DLL a library is made.
 *
 * size is the size of the struct, by which a later header tells what the caller knows of: a field that it does
 * not cover whole counts as 0, but the machine and the flavour have to be covered. A struct in which all other
 * bytes are 0 has no flags, and the definition's own name of the DLL.
 */
struct implib_options {
    size_t size;        /* sizeof(struct implib_options) */
    uint16_t machine;   /* an IMPLIB_MACHINE_.. */
    uint32_t flavor;    /* an IMPLIB_FLAVOR_.. */
    uint32_t flags;     /* a sum of the flags above, or 0 */
    const uint8_t *dll; /* the name of the DLL, in UTF-8, as -D; null for the definition's own */
    size_t dll_length;  /* the length of this name in bytes; of no effect where it is null */
};

/*
 * Puts the import library that the program implib_dlltool makes of a definition with these options at the
 * beginning of the buffer, and returns a status. The program's rules are in docs/DLLTOOL.md: the text's name of the
 * DLL gets an ending if it has none, of the exports of one name the first counts, what follows `==` is what the DLL is
 * asked for, and for Microsoft's linker an archive of more members than its kind can number is of GNU's kind.
 *
 * options      as above
 * text         the definition, in UTF-8 but for comments, with a byte order mark or none, without a NUL at its end
 * length       gets the length of the library in bytes, where the status is IMPLIB_SUCCESS or
 *              IMPLIB_BUFFER_TOO_SMALL; else 0
 * place        gets an offset in the text, for implib_position: of the first byte that is not UTF-8, comments
 *              apart, of the token at which it is refused, or of the name of the export that is at fault; else 0
 *
 * The buffer is as of implib_library. Options are refused before the text: their size first, then the machine,
 * the flavour, the flags and the name.
 */
static inline uint32_t implib_library_with(const struct implib_options *options, const uint8_t *text,
                                           size_t text_length, uint8_t *buffer, size_t buffer_length,
                                           size_t *length, size_t *place);

/* The flags of an export, here and in implib_definition: what a definition says of it by these words. */
#define IMPLIB_EXPORT_NONAME 1u   /* it is imported by its ordinal */
#define IMPLIB_EXPORT_DATA 2u     /* it is data: only its __imp_ symbol is declared */
#define IMPLIB_EXPORT_CONSTANT 4u /* it is a constant */
#define IMPLIB_EXPORT_PRIVATE 8u  /* it is left out */

/*
 * An export of a DLL, as the statement `name @ordinal == target` has it in a definition.
 *
 * Neither pointer is null, also where its length is 0: pass "" for no target.
 */
struct implib_export {
    const uint8_t *name;   /* the name, in UTF-8: in `a = b`, which exports b by another name, that is a */
    size_t name_length;    /* its length in bytes */
    const uint8_t *target; /* what follows `==`, in UTF-8: what the DLL is asked for */
    size_t target_length;  /* its length in bytes; 0 for none */
    uint16_t ordinal;      /* the ordinal, or the hint of an import by name; 0 for none */
    uint32_t flags;        /* a sum of the flags above, or 0 */
};

/*
 * Puts the import library of these exports at the beginning of the buffer, and returns a status: the one that
 * implib_library_with makes, with these options, of a definition of the same exports in the same order. So an export
 * whose target is one without a name in the DLL (IMPLIB_EXPORT_NONAME) asks for the ordinal.
 *
 * options      as above; the name of the DLL has to be given
 * exports      count exports; may be null where count is 0
 * length       gets what implib_library_with says of it
 * place        gets the index of the export, from 0, that is at fault; else 0
 *
 * The buffer is as of implib_library. Options of an unknown size are refused first, then the first
 * export with a null pointer, then other options, then the first export whose flags are unknown or whose name or
 * target is not UTF-8.
 */
static inline uint32_t implib_library_of(const struct implib_options *options, const struct implib_export *exports,
                                         size_t count, uint8_t *buffer, size_t buffer_length, size_t *length,
                                         size_t *place);

/*
 * Puts the import library of all that a DLL exports at the beginning of the buffer, and returns a status: the one that
 * the program implib_dlltool makes of the DLL's file with these options. Data is told from code by its section, and
 * each hint is the position in the DLL's name table. Nothing in the file is trusted.
 *
 * options      as above; the machine has to be the DLL's; without a name of the DLL it is that of its export directory
 * bytes        the DLL: the file, whole
 * length       gets what implib_library_with says of it
 * place        gets what the status says of it; else 0
 *
 * The buffer is as of implib_library. Options are refused first, then the file (IMPLIB_NOT_AN_IMAGE,
 * IMPLIB_NO_EXPORT_DIRECTORY), its machine, and its exports.
 */
static inline uint32_t implib_library_of_dll(const struct implib_options *options, const uint8_t *bytes,
                                             size_t bytes_length, uint8_t *buffer, size_t buffer_length,
                                             size_t *length, size_t *place);

/*
 * Puts the import library for ARM64EC of a definition at the beginning of the buffer, and returns a status: the one
 * that the program implib_dlltool makes under -m arm64ec, for Microsoft's linkers.
 *
 * options      as above; the machine and the flavour have to be known, and are of no effect
 * native       the definition of what the DLL exports to programs for ARM64, as -N; null for none
 *
 * All else is as of implib_library_with, but for the last two statuses.
 */
static inline uint32_t implib_library_arm64ec(const struct implib_options *options, const uint8_t *text,
                                              size_t text_length, const uint8_t *native, size_t native_length,
                                              uint8_t *buffer, size_t buffer_length, size_t *length, size_t *place);

/*
 * Takes some bytes of a library, in implib_write. context is what the caller passed. It returns 0 to go on, and any
 * other number to end the call. The bytes are the caller's until it returns.
 */
typedef int implib_writer(void *context, const uint8_t *bytes, size_t count);

/* No piece that implib_write hands over is longer. */
#define IMPLIB_PIECE_SIZE 65536u

/*
 * Hands the library that implib_library_with has for these arguments to a function of the caller, piece by piece
 * from its beginning on, and returns a status.
 *
 * write        takes the pieces; it is called only once the whole library is made
 * context      is passed to it
 * length       gets how many bytes it took: where the status is IMPLIB_SUCCESS the length of the library, and where
 *              it is IMPLIB_WRITE_FAILED that of the pieces before the one that it did not take; else 0
 * place        as of implib_library_with
 *
 * The library is in memory of malloc, of a size that fits most definitions, so that their members are made once;
 * those of others are made twice. It is freed before the call returns, but not where write does not return.
 */
static inline uint32_t implib_write(const struct implib_options *options, const uint8_t *text, size_t text_length,
                                    implib_writer *write, void *context, size_t *length, size_t *place);

/*
 * Puts the warnings that the program implib_dlltool has of a definition with these options, under -v, at the
 * beginning of the buffer, and returns a status. It is IMPLIB_SUCCESS where there are none, too, and where the
 * definition has no name of the DLL, no members or no archive; what is no definition by the grammar has no warnings.
 * A quote that its line does not close, and a wrong ordinal, are told by implib_library_with alone.
 *
 * The arguments and the buffer are as of implib_library_with, with the encoding in the library's place. It has
 * numbers and texts as that of implib_members:
 *
 *     number               how many warnings there are, and then of each, those of the form of the text (kinds 11
 *                          to 15) before the others, and both in the order of their offsets
 *       number             its kind, an IMPLIB_WARNING_..
 *       number             its offset in the text, for implib_position
 *       number, number     its line and its column as the program writes them, in which a byte order mark does not
 *                          count; 1 and 1 for a warning about the whole text, for which the program writes none
 *       text               the words that the program writes behind `warning: `, in UTF-8
 *
 * The place of a warning about the whole text is its beginning, behind a byte order mark.
 */
static inline uint32_t implib_warnings(const struct implib_options *options, const uint8_t *text,
                                       size_t text_length, uint8_t *buffer, size_t buffer_length, size_t *length,
                                       size_t *place);

/* The kinds of warnings. New kinds get new numbers. */
#define IMPLIB_WARNING_NO_EXPORT 1u
#define IMPLIB_WARNING_OTHER_KIND 2u       /* too many members for an archive of the flavour's kind */
#define IMPLIB_WARNING_REPEATED 3u         /* an export has the name of another, and is left out */
#define IMPLIB_WARNING_REPEATED_ORDINAL 4u /* an export has the ordinal of another */
#define IMPLIB_WARNING_OPENS_LINE 5u       /* an attribute is the first word of a line */
#define IMPLIB_WARNING_LOWERED 6u          /* a name would be an attribute in capitals */
#define IMPLIB_WARNING_ORDINAL_LIKE 7u     /* a name begins as an ordinal */
#define IMPLIB_WARNING_STDCALL 8u          /* the DLL is asked for a name of stdcall */
#define IMPLIB_WARNING_NOT_EXPORTED 9u     /* what follows `==` is no export */
#define IMPLIB_WARNING_SECOND_HEADING 10u  /* the name of the DLL is given twice */
#define IMPLIB_WARNING_SKIPPED 11u         /* a statement is skipped: an import library has no use for it */
#define IMPLIB_WARNING_ENDS_EARLY 12u      /* a NUL ends the text, and something follows it */
#define IMPLIB_WARNING_STANDS_ALONE 13u    /* a keyword of other tools is a name here */
#define IMPLIB_WARNING_LATE 14u            /* an attribute follows the name of EXPORTAS */
#define IMPLIB_WARNING_COMMENT_LIKE 15u    /* a name begins as a comment of other tools */
#define IMPLIB_WARNING_WEAK 16u            /* GNU ld leaves the symbol of `==` undefined; GNU's flavour serves it */

/*
 * Puts what each member of a library is for, and imports, at the beginning of the buffer, and returns a status:
 * IMPLIB_SUCCESS, IMPLIB_BUFFER_TOO_SMALL, IMPLIB_OUT_OF_MEMORY or IMPLIB_NOT_A_LIBRARY. The library may be of any
 * maker: a short import says what it imports, and an object for GNU's linker is followed as a linker does it.
 *
 * bytes        the library: the file, whole
 * length       gets the length of the encoding in bytes, where the status is IMPLIB_SUCCESS or
 *              IMPLIB_BUFFER_TOO_SMALL; else 0
 *
 * The buffer is as of implib_library, with the encoding in the archive's place. It has numbers and texts as that of
 * implib_members; the texts here are of any bytes. What a member does not say is 0 or empty.
 *
 *     number               how many members there are, and then of each, in their order
 *       number             its kind, an IMPLIB_IMPORT_..; those up to 4, and 10, are imports
 *       number             the offset of its header in the library
 *       text               of an import, the name of the DLL
 *       text               its symbol: of an import, that of its address without `__imp_`; of an alias, the alias
 *       number             of an import, its machine, by its number in the PE/COFF specification
 *       number             1 where a name is asked for, or a symbol by an alias; 0 where an ordinal is
 *       text               this name, or the symbol that an alias stands for
 *       number             the hint of the name, or the ordinal
 */
static inline uint32_t implib_imports(const uint8_t *bytes, size_t bytes_length, uint8_t *buffer,
                                      size_t buffer_length, size_t *length);

/* What a member of a library is for. New kinds get new numbers. */
#define IMPLIB_IMPORT_CODE 1u
#define IMPLIB_IMPORT_DATA 2u
#define IMPLIB_IMPORT_CONSTANT 3u
#define IMPLIB_IMPORT_CODE_OR_CONSTANT 4u /* objects for GNU's linker do not tell the two */
#define IMPLIB_IMPORT_ALIAS 5u            /* a symbol that stands for another one */
#define IMPLIB_IMPORT_TABLES 6u           /* a part of the import tables, as the descriptor of a DLL */
#define IMPLIB_IMPORT_DELAYED 7u          /* a part of delayed imports that is not followed, as of data */
#define IMPLIB_IMPORT_OTHER 8u            /* an object without import tables */
#define IMPLIB_IMPORT_NOT_UNDERSTOOD 9u   /* neither, or import tables that lead nowhere */
#define IMPLIB_IMPORT_DELAYED_CODE 10u    /* an import of code, whose DLL is loaded at the first call */

/*
 * Puts what a DLL exports at the beginning of the buffer, and returns a status: IMPLIB_SUCCESS, IMPLIB_BUFFER_TOO_SMALL,
 * IMPLIB_OUT_OF_MEMORY, IMPLIB_NOT_AN_IMAGE or IMPLIB_NO_EXPORT_DIRECTORY. Nothing in the file is trusted; time and
 * memory are linear in its length.
 *
 * bytes        the DLL: the file, whole
 * length       gets the length of the encoding in bytes, where the status is IMPLIB_SUCCESS or
 *              IMPLIB_BUFFER_TOO_SMALL; else 0
 * place        gets what the status says of it; else 0
 *
 * The buffer is as of implib_library, with the encoding in the archive's place. It has numbers and texts as that of
 * implib_members; the texts here are of any bytes.
 *
 *     number               the machine, by its number in the PE/COFF specification
 *     text                 the name that the export directory gives the DLL
 *     number               how many entries the export address table has, and then of each, in their order
 *       number             its ordinal
 *       number             what it leads to, an IMPLIB_LEADS_..
 *       number             its address from the image's base, or 0
 *       text               of a forwarder, the export of another DLL, as `NTDLL.RtlAllocateHeap` or `NTDLL.#27`
 *       number             how many names it has, and then each, a text, in the order of the name table
 */
static inline uint32_t implib_exports(const uint8_t *bytes, size_t bytes_length, uint8_t *buffer,
                                      size_t buffer_length, size_t *length, size_t *place);

/* What an ordinal of a DLL leads to. New kinds get new numbers. */
#define IMPLIB_LEADS_NOWHERE 0u      /* no export has this ordinal */
#define IMPLIB_LEADS_TO_CODE 1u      /* an address in a section that may be executed */
#define IMPLIB_LEADS_TO_DATA 2u      /* an address in another section */
#define IMPLIB_LEADS_OUTSIDE 3u      /* an address in no section */
#define IMPLIB_LEADS_TO_FORWARDER 4u /* an export of another DLL */

/*
 * Puts how a library compares with what a definition means under these options at the beginning of the buffer, and
 * returns a status, which is IMPLIB_SUCCESS whatever the verdict. The library may be of any maker. It is compared as the
 * program implib_check does it (docs/CHECK.md): with the library that implib_library_with makes, by their imports and
 * aliases, in any order, as many times each. The case of letters in the DLL's name and the hint do not count, nor does
 * whether an import is of code or of a constant, where one of the libraries does not tell it.
 *
 * bytes        the library: the file, whole
 * options      as of implib_library_with; the machine and the flavour are those of the definition's library
 * length       gets the length of the encoding in bytes, where the status is IMPLIB_SUCCESS or
 *              IMPLIB_BUFFER_TOO_SMALL; else 0
 *
 * The text, the place and the buffer are as of implib_library_with, with the encoding in the library's place. Options
 * are refused first, then bytes that are no archive (IMPLIB_NOT_A_LIBRARY), and then the text.
 *
 *     number               the verdict: IMPLIB_CHECK_SAME, IMPLIB_CHECK_DIFFERENT or IMPLIB_CHECK_NOT_DECIDED
 *     number               whether the library works: IMPLIB_CHECK_WORKS, IMPLIB_CHECK_BROKEN or
 *                          IMPLIB_CHECK_NOT_DECIDED
 *     number               how many members of the library have an import or an alias that the definition's lacks, and
 *                          then of each a row as of implib_imports
 *     number               how many members of the definition's library have one that the library lacks, and then of
 *                          each such a row; the offset in it is of no file that the caller has
 *
 * The verdict is not decided where a member of the library is not understood, also as one of delayed imports, whatever
 * else differs, and where no import or alias differs, but another object may define one.
 */
static inline uint32_t implib_check_library(const uint8_t *bytes, size_t bytes_length, const uint8_t *text,
                                            size_t text_length, const struct implib_options *options,
                                            uint8_t *buffer, size_t buffer_length, size_t *length, size_t *place);

/* What implib_check_library finds. A library works where its indexes lead to the first members that declare their
 * symbols, and each part of its import tables is there once; of two or more DLLs that is not decided. */
#define IMPLIB_CHECK_SAME 1u
#define IMPLIB_CHECK_DIFFERENT 2u
#define IMPLIB_CHECK_NOT_DECIDED 3u
#define IMPLIB_CHECK_WORKS 1u
#define IMPLIB_CHECK_BROKEN 2u

/*
 * Puts what the imports of a library come to in a DLL at the beginning of the buffer, and returns a status, which is
 * IMPLIB_SUCCESS whatever they come to. The library may be of any maker. Each import is looked up as the program
 * implib_check does it (docs/CHECK.md), which is as a loader does: a name at its hint and then by a binary search, an
 * ordinal by its index. Forwarders are not followed. Nothing in either file is trusted.
 *
 * bytes        the library: the file, whole
 * dll          the DLL: the file, whole
 * name         the name of the DLL, without a folder, by which imports have to name it, in letters of any case; of
 *              length 0 for the one that its export directory gives it. Without a full stop it ends in .dll
 * length       gets the length of the encoding in bytes, where the status is IMPLIB_SUCCESS or
 *              IMPLIB_BUFFER_TOO_SMALL; else 0
 * place        gets what the status says of it; else 0
 *
 * The buffer is as of implib_library, with the encoding in the archive's place. A library that is none is refused first
 * (IMPLIB_NOT_A_LIBRARY), then a DLL that is none (IMPLIB_NOT_AN_IMAGE, IMPLIB_NO_EXPORT_DIRECTORY).
 *
 *     number               how many members the library has, and then of each, in the order of implib_imports
 *       number             what it comes to, an IMPLIB_FOUND_.. or an IMPLIB_LOST_..
 *     number               how many exports of the DLL no import asks for, and then of each, in order
 *       number             which row of implib_exports it is, from 0
 *
 * A program that is linked with the library starts only where nothing is lost, of what it imports from here; what
 * implib_imports calls not understood or part of delayed imports may ask for more.
 */
static inline uint32_t implib_check_dll(const uint8_t *bytes, size_t bytes_length, const uint8_t *dll,
                                        size_t dll_length, const uint8_t *name, size_t name_length,
                                        uint8_t *buffer, size_t buffer_length, size_t *length, size_t *place);

/* What a member of a library comes to in a DLL. New ways to be lost get new numbers. */
#define IMPLIB_FOUND_NO_IMPORT 0u        /* it imports nothing */
#define IMPLIB_FOUND_AT_ONCE 1u          /* a loader finds the name at its hint, or the ordinal */
#define IMPLIB_FOUND_BY_SEARCH 2u        /* a loader finds the name elsewhere */
#define IMPLIB_LOST_OTHER_DLL 3u         /* the import is of another DLL */
#define IMPLIB_LOST_OTHER_MACHINE 4u     /* it is for another machine than the DLL */
#define IMPLIB_LOST_NOT_EXPORTED 5u      /* a loader finds nothing */
#define IMPLIB_LOST_DATA_AS_FUNCTION 6u  /* the DLL has data there, into which a function's stub would jump */

/*
 * Puts the import library of a definition at the beginning of the buffer, and returns a status: the archive of
 * the members that implib_members gives, of the COFF kind (as of LIB.EXE, a .lib) for Microsoft's linker, and
 * of the GNU kind (as of ar, a .a) for GNU's.
 *
 * text         the definition, in UTF-8, without a NUL at its end
 * machine      an IMPLIB_MACHINE_..
 * flavor       an IMPLIB_FLAVOR_..
 * length       gets the length of the archive in bytes, where the status is IMPLIB_SUCCESS or
 *              IMPLIB_BUFFER_TOO_SMALL; else 0
 * place        gets what the status says of it; else 0
 *
 * Where the status is not IMPLIB_SUCCESS, no byte of the buffer is changed; where it is, those behind the
 * archive are not. A first call with a buffer of length 0 tells the length that a second one needs; each
 * makes the members anew.
 */
static inline uint32_t implib_library(const uint8_t *text, size_t text_length, uint16_t machine,
                                      uint32_t flavor, uint8_t *buffer, size_t buffer_length,
                                      size_t *length, size_t *place);

/*
 * Puts the members of a definition at the beginning of the buffer, and returns a status.
 *
 * The arguments and the buffer are as of implib_library, with the members' encoding in the archive's place.
 *
 * The encoding: a number has 8 bytes, the low one first; a text is its length, a number, and then its bytes,
 * with no NUL at the end.
 *
 *     number               how many members there are, and then of each
 *       text               its name, in UTF-8
 *       number             how many symbols an archive's index lists for it, and then of each
 *         text             the symbol, in UTF-8
 *       text               the file
 *
 * The members are in the order in which an archive has them. Several may have the same name.
 */
static inline uint32_t implib_members(const uint8_t *text, size_t text_length, uint16_t machine,
                                      uint32_t flavor, uint8_t *buffer, size_t buffer_length,
                                      size_t *length, size_t *place);

/*
 * Puts what a definition states on a machine at the beginning of the buffer, and returns a status: the fields and
 * the exports of `ModuleDef::parse`, which gives each of the machine's symbols its underscore.
 *
 * The arguments and the buffer are as of implib_library, with the encoding in the archive's place. The status is one
 * of the first four, IMPLIB_UNKNOWN_MACHINE or one of a text that is no definition.
 *
 * The encoding has numbers and texts as that of implib_members. What no statement gives is 0 or empty.
 *
 *     text                 the name of the DLL, as it is written
 *     number               BASE
 *     number, number       STACKSIZE: what to reserve, and what to commit
 *     number, number       HEAPSIZE: the same
 *     number, number       VERSION: before the full stop, and after it
 *     number               how many exports there are, and then of each, in the order of the text
 *       text               its name; where there is an external name, the one inside the DLL
 *       number             1 where there is an external name, `a` in `a = b`; else 0
 *         text             this name; only after a 1
 *       text               what follows `==`
 *       number             its ordinal
 *       number             a sum of the flags IMPLIB_EXPORT_.. of its attributes
 */
static inline uint32_t implib_definition(const uint8_t *text, size_t text_length, uint16_t machine,
                                         uint8_t *buffer, size_t buffer_length, size_t *length,
                                         size_t *place);

/* What is left of an encoding: at first the buffer, and the length that the call gave. */
struct implib_reader {
    const uint8_t *bytes;
    size_t left;
};

/* Takes a number, or a text, from the front of an encoding. Returns 0, and takes nothing, where none is left. */
static inline int implib_read_number(struct implib_reader *reader, size_t *number);
static inline int implib_read_text(struct implib_reader *reader, const uint8_t **text, size_t *length);

/*
 * Gives the line and the column of an offset in a text, as *place is one, both from 1. A line ends behind its
 * line feed, and a column counts bytes, whatever they are, but not those of a byte order mark. An offset behind
 * the end of the text has the position of the end. So the place of a refused text is where implib_dlltool writes.
 */
static inline void implib_position(const uint8_t *text, size_t text_length, size_t offset, size_t *line,
                                   size_t *column);

/* No text of a status is longer than this, its NUL counted. */
#define IMPLIB_STATUS_TEXT_SIZE 32

/*
 * Puts the text of a status, in ASCII and ended by a NUL, at the beginning of the buffer, where there is room
 * for both; else no byte of the buffer is changed. Returns the length of the text without the NUL. A number
 * that is no status has the text "unknown status".
 */
static inline size_t implib_status_text(uint32_t status, char *buffer, size_t buffer_length);

/* The library's own functions: the same, but for null pointers. The options are single arguments; has_dll is 0
 * where no name of the DLL is given. */
uint32_t implib_library_with_nonnull(const uint8_t *text, size_t text_length, const uint8_t *dll,
                                     size_t dll_length, uint32_t has_dll, uint16_t machine, uint32_t flavor,
                                     uint32_t flags, uint8_t *buffer, size_t buffer_length, size_t *length,
                                     size_t *place);
uint32_t implib_delayed_library_nonnull(const uint8_t *text, size_t text_length, const uint8_t *dll,
                                        size_t dll_length, uint32_t has_dll, uint16_t machine, uint32_t flavor,
                                        uint32_t flags, uint8_t *buffer, size_t buffer_length, size_t *length,
                                        size_t *place);
uint32_t implib_named_library_nonnull(const uint8_t *text, size_t text_length, const uint8_t *dll,
                                      size_t dll_length, uint32_t has_dll, uint16_t machine, uint32_t flavor,
                                      uint32_t flags, uint8_t *buffer, size_t buffer_length, size_t *length,
                                      size_t *place);
uint32_t implib_library_of_nonnull(const struct implib_export *exports, size_t count, const uint8_t *dll,
                                   size_t dll_length, uint32_t has_dll, uint16_t machine, uint32_t flavor,
                                   uint32_t flags, uint8_t *buffer, size_t buffer_length, size_t *length,
                                   size_t *place);
uint32_t implib_library_arm64ec_nonnull(const uint8_t *text, size_t text_length, const uint8_t *native,
                                        size_t native_length, uint32_t has_native, const uint8_t *dll,
                                        size_t dll_length, uint32_t has_dll, uint16_t machine, uint32_t flavor,
                                        uint32_t flags, uint8_t *buffer, size_t buffer_length, size_t *length,
                                        size_t *place);
uint32_t implib_library_of_dll_nonnull(const uint8_t *bytes, size_t bytes_length, const uint8_t *dll,
                                       size_t dll_length, uint32_t has_dll, uint16_t machine, uint32_t flavor,
                                       uint32_t flags, uint8_t *buffer, size_t buffer_length, size_t *length,
                                       size_t *place);
uint32_t implib_warnings_nonnull(const uint8_t *text, size_t text_length, const uint8_t *dll, size_t dll_length,
                                 uint32_t has_dll, uint16_t machine, uint32_t flavor, uint32_t flags,
                                 uint8_t *buffer, size_t buffer_length, size_t *length, size_t *place);
uint32_t implib_imports_nonnull(const uint8_t *bytes, size_t bytes_length, uint8_t *buffer, size_t buffer_length,
                                size_t *length);
uint32_t implib_exports_nonnull(const uint8_t *bytes, size_t bytes_length, uint8_t *buffer, size_t buffer_length,
                                size_t *length, size_t *place);
uint32_t implib_check_library_nonnull(const uint8_t *bytes, size_t bytes_length, const uint8_t *text,
                                      size_t text_length, const uint8_t *dll, size_t dll_length, uint32_t has_dll,
                                      uint16_t machine, uint32_t flavor, uint32_t flags, uint8_t *buffer,
                                      size_t buffer_length, size_t *length, size_t *place);
uint32_t implib_check_dll_nonnull(const uint8_t *bytes, size_t bytes_length, const uint8_t *dll, size_t dll_length,
                                  const uint8_t *name, size_t name_length, uint8_t *buffer, size_t buffer_length,
                                  size_t *length, size_t *place);
uint32_t implib_library_nonnull(const uint8_t *text, size_t text_length, uint16_t machine, uint32_t flavor,
                                uint8_t *buffer, size_t buffer_length, size_t *length, size_t *place);
uint32_t implib_members_nonnull(const uint8_t *text, size_t text_length, uint16_t machine, uint32_t flavor,
                                uint8_t *buffer, size_t buffer_length, size_t *length, size_t *place);
uint32_t implib_definition_nonnull(const uint8_t *text, size_t text_length, uint16_t machine, uint8_t *buffer,
                                   size_t buffer_length, size_t *length, size_t *place);
void implib_position_nonnull(const uint8_t *text, size_t text_length, size_t offset, size_t *line,
                             size_t *column);
size_t implib_status_text_nonnull(uint32_t status, char *buffer, size_t buffer_length);

/* For this header alone: copies the options with 0 for what their size does not cover, and says whether the size is
 * known. */
static inline int implib_private_options(const struct implib_options *options, struct implib_options *all)
{
    size_t size = options == NULL ? 0 : options->size;
    if (size < offsetof(struct implib_options, flags) || size > sizeof(struct implib_options))
        return 0;
    all->size = sizeof(struct implib_options);
    all->machine = options->machine;
    all->flavor = options->flavor;
    all->flags = size < offsetof(struct implib_options, flags) + sizeof(uint32_t) ? 0 : options->flags;
    all->dll = size < sizeof(struct implib_options) ? NULL : options->dll;
    all->dll_length = all->dll == NULL ? 0 : options->dll_length;
    return 1;
}

static inline int implib_read_number(struct implib_reader *reader, size_t *number)
{
    if (reader->left < 8)
        return 0;
    *number = 0;
    for (int place = 7; place >= 0; place--)
        *number = *number << 8 | reader->bytes[place];
    reader->bytes += 8;
    reader->left -= 8;
    return 1;
}

static inline int implib_read_text(struct implib_reader *reader, const uint8_t **text, size_t *length)
{
    struct implib_reader behind = *reader;
    size_t stated;
    if (!implib_read_number(&behind, &stated) || behind.left < stated)
        return 0;
    *text = behind.bytes;
    *length = stated;
    reader->bytes = behind.bytes + stated;
    reader->left = behind.left - stated;
    return 1;
}

static inline uint32_t implib_library_with(const struct implib_options *options, const uint8_t *text,
                                           size_t text_length, uint8_t *buffer, size_t buffer_length,
                                           size_t *length, size_t *place)
{
    uint8_t no_text = 0, no_dll = 0, no_buffer = 0;
    size_t no_length, no_place;
    size_t *own_length = length == NULL ? &no_length : length, *own_place = place == NULL ? &no_place : place;
    struct implib_options all;
    *own_length = *own_place = 0;
    if (!implib_private_options(options, &all))
        return IMPLIB_UNKNOWN_OPTIONS;
    if ((all.flags & IMPLIB_DELAYED) != 0)
        return implib_delayed_library_nonnull(text_length == 0 ? &no_text : text, text_length,
                                              all.dll_length == 0 ? &no_dll : all.dll, all.dll_length,
                                              all.dll != NULL, all.machine, all.flavor, all.flags - IMPLIB_DELAYED,
                                              buffer_length == 0 ? &no_buffer : buffer, buffer_length, own_length,
                                              own_place);
    if ((all.flags & IMPLIB_NULL_NAMED) != 0)
        return implib_named_library_nonnull(text_length == 0 ? &no_text : text, text_length,
                                            all.dll_length == 0 ? &no_dll : all.dll, all.dll_length, all.dll != NULL,
                                            all.machine, all.flavor, all.flags - IMPLIB_NULL_NAMED,
                                            buffer_length == 0 ? &no_buffer : buffer, buffer_length, own_length,
                                            own_place);
    return implib_library_with_nonnull(text_length == 0 ? &no_text : text, text_length,
                                       all.dll_length == 0 ? &no_dll : all.dll, all.dll_length, all.dll != NULL,
                                       all.machine, all.flavor, all.flags,
                                       buffer_length == 0 ? &no_buffer : buffer, buffer_length, own_length,
                                       own_place);
}

static inline uint32_t implib_library_of(const struct implib_options *options, const struct implib_export *exports,
                                         size_t count, uint8_t *buffer, size_t buffer_length, size_t *length,
                                         size_t *place)
{
    uint8_t no_dll = 0, no_buffer = 0;
    struct implib_export no_export = {&no_dll, 0, &no_dll, 0, 0, 0};
    size_t no_length, no_place;
    size_t *own_length = length == NULL ? &no_length : length, *own_place = place == NULL ? &no_place : place;
    struct implib_options all;
    *own_length = *own_place = 0;
    if (!implib_private_options(options, &all))
        return IMPLIB_UNKNOWN_OPTIONS;
    for (size_t index = 0; index < count; index++) {
        if (exports[index].name == NULL || exports[index].target == NULL) {
            *own_place = index;
            return IMPLIB_NULL_IN_EXPORT;
        }
    }
    return implib_library_of_nonnull(count == 0 ? &no_export : exports, count,
                                     all.dll_length == 0 ? &no_dll : all.dll, all.dll_length, all.dll != NULL,
                                     all.machine, all.flavor, all.flags,
                                     buffer_length == 0 ? &no_buffer : buffer, buffer_length, own_length, own_place);
}

static inline uint32_t implib_library_arm64ec(const struct implib_options *options, const uint8_t *text,
                                              size_t text_length, const uint8_t *native, size_t native_length,
                                              uint8_t *buffer, size_t buffer_length, size_t *length, size_t *place)
{
    uint8_t no_text = 0, no_native = 0, no_dll = 0, no_buffer = 0;
    size_t no_length, no_place;
    size_t *own_length = length == NULL ? &no_length : length, *own_place = place == NULL ? &no_place : place;
    struct implib_options all;
    *own_length = *own_place = 0;
    if (!implib_private_options(options, &all))
        return IMPLIB_UNKNOWN_OPTIONS;
    return implib_library_arm64ec_nonnull(text_length == 0 ? &no_text : text, text_length,
                                          native == NULL || native_length == 0 ? &no_native : native,
                                          native == NULL ? 0 : native_length, native != NULL,
                                          all.dll_length == 0 ? &no_dll : all.dll, all.dll_length, all.dll != NULL,
                                          all.machine, all.flavor, all.flags,
                                          buffer_length == 0 ? &no_buffer : buffer, buffer_length, own_length,
                                          own_place);
}

static inline uint32_t implib_library_of_dll(const struct implib_options *options, const uint8_t *bytes,
                                             size_t bytes_length, uint8_t *buffer, size_t buffer_length,
                                             size_t *length, size_t *place)
{
    uint8_t no_bytes = 0, no_dll = 0, no_buffer = 0;
    size_t no_length, no_place;
    size_t *own_length = length == NULL ? &no_length : length, *own_place = place == NULL ? &no_place : place;
    struct implib_options all;
    *own_length = *own_place = 0;
    if (!implib_private_options(options, &all))
        return IMPLIB_UNKNOWN_OPTIONS;
    return implib_library_of_dll_nonnull(bytes_length == 0 ? &no_bytes : bytes, bytes_length,
                                         all.dll_length == 0 ? &no_dll : all.dll, all.dll_length, all.dll != NULL,
                                         all.machine, all.flavor, all.flags,
                                         buffer_length == 0 ? &no_buffer : buffer, buffer_length, own_length,
                                         own_place);
}

static inline uint32_t implib_write(const struct implib_options *options, const uint8_t *text, size_t text_length,
                                    implib_writer *write, void *context, size_t *length, size_t *place)
{
    size_t needed, no_length, *written = length == NULL ? &no_length : length;
    size_t room = text_length < SIZE_MAX / 256 ? 4096 + 128 * text_length : 0;
    uint8_t *buffer = room == 0 ? NULL : (uint8_t *)malloc(room);
    if (buffer == NULL)
        room = 0;
    *written = 0;
    uint32_t status = implib_library_with(options, text, text_length, buffer, room, &needed, place);
    if (status == IMPLIB_BUFFER_TOO_SMALL) {
        free(buffer);
        buffer = (uint8_t *)malloc(needed);
        status = buffer == NULL
                     ? (uint32_t)IMPLIB_OUT_OF_MEMORY
                     : implib_library_with(options, text, text_length, buffer, needed, &needed, place);
    }
    while (status == IMPLIB_SUCCESS && *written < needed) {
        size_t count = needed - *written < IMPLIB_PIECE_SIZE ? needed - *written : IMPLIB_PIECE_SIZE;
        if (write(context, buffer + *written, count) == 0)
            *written += count;
        else
            status = IMPLIB_WRITE_FAILED;
    }
    free(buffer);
    return status;
}

static inline uint32_t implib_warnings(const struct implib_options *options, const uint8_t *text,
                                       size_t text_length, uint8_t *buffer, size_t buffer_length, size_t *length,
                                       size_t *place)
{
    uint8_t no_text = 0, no_dll = 0, no_buffer = 0;
    size_t no_length, no_place;
    size_t *own_length = length == NULL ? &no_length : length, *own_place = place == NULL ? &no_place : place;
    struct implib_options all;
    *own_length = *own_place = 0;
    if (!implib_private_options(options, &all))
        return IMPLIB_UNKNOWN_OPTIONS;
    return implib_warnings_nonnull(text_length == 0 ? &no_text : text, text_length,
                                   all.dll_length == 0 ? &no_dll : all.dll, all.dll_length, all.dll != NULL,
                                   all.machine, all.flavor, all.flags,
                                   buffer_length == 0 ? &no_buffer : buffer, buffer_length, own_length, own_place);
}

static inline uint32_t implib_imports(const uint8_t *bytes, size_t bytes_length, uint8_t *buffer,
                                      size_t buffer_length, size_t *length)
{
    uint8_t no_bytes = 0, no_buffer = 0;
    size_t no_length;
    return implib_imports_nonnull(bytes_length == 0 ? &no_bytes : bytes, bytes_length,
                                  buffer_length == 0 ? &no_buffer : buffer, buffer_length,
                                  length == NULL ? &no_length : length);
}

static inline uint32_t implib_exports(const uint8_t *bytes, size_t bytes_length, uint8_t *buffer,
                                      size_t buffer_length, size_t *length, size_t *place)
{
    uint8_t no_bytes = 0, no_buffer = 0;
    size_t no_length, no_place;
    return implib_exports_nonnull(bytes_length == 0 ? &no_bytes : bytes, bytes_length,
                                  buffer_length == 0 ? &no_buffer : buffer, buffer_length,
                                  length == NULL ? &no_length : length, place == NULL ? &no_place : place);
}

static inline uint32_t implib_check_dll(const uint8_t *bytes, size_t bytes_length, const uint8_t *dll,
                                        size_t dll_length, const uint8_t *name, size_t name_length,
                                        uint8_t *buffer, size_t buffer_length, size_t *length, size_t *place)
{
    uint8_t no_bytes = 0, no_dll = 0, no_name = 0, no_buffer = 0;
    size_t no_length, no_place;
    return implib_check_dll_nonnull(bytes_length == 0 ? &no_bytes : bytes, bytes_length,
                                    dll_length == 0 ? &no_dll : dll, dll_length,
                                    name_length == 0 ? &no_name : name, name_length,
                                    buffer_length == 0 ? &no_buffer : buffer, buffer_length,
                                    length == NULL ? &no_length : length, place == NULL ? &no_place : place);
}

static inline uint32_t implib_check_library(const uint8_t *bytes, size_t bytes_length, const uint8_t *text,
                                            size_t text_length, const struct implib_options *options,
                                            uint8_t *buffer, size_t buffer_length, size_t *length, size_t *place)
{
    uint8_t no_bytes = 0, no_text = 0, no_dll = 0, no_buffer = 0;
    size_t no_length, no_place;
    size_t *own_length = length == NULL ? &no_length : length, *own_place = place == NULL ? &no_place : place;
    struct implib_options all;
    *own_length = *own_place = 0;
    if (!implib_private_options(options, &all))
        return IMPLIB_UNKNOWN_OPTIONS;
    return implib_check_library_nonnull(bytes_length == 0 ? &no_bytes : bytes, bytes_length,
                                        text_length == 0 ? &no_text : text, text_length,
                                        all.dll_length == 0 ? &no_dll : all.dll, all.dll_length, all.dll != NULL,
                                        all.machine, all.flavor, all.flags,
                                        buffer_length == 0 ? &no_buffer : buffer, buffer_length, own_length,
                                        own_place);
}

static inline uint32_t implib_library(const uint8_t *text, size_t text_length, uint16_t machine,
                                      uint32_t flavor, uint8_t *buffer, size_t buffer_length,
                                      size_t *length, size_t *place)
{
    uint8_t no_text = 0, no_buffer = 0;
    size_t no_length, no_place;
    return implib_library_nonnull(text_length == 0 ? &no_text : text, text_length, machine, flavor,
                                  buffer_length == 0 ? &no_buffer : buffer, buffer_length,
                                  length == NULL ? &no_length : length, place == NULL ? &no_place : place);
}

static inline uint32_t implib_members(const uint8_t *text, size_t text_length, uint16_t machine,
                                      uint32_t flavor, uint8_t *buffer, size_t buffer_length,
                                      size_t *length, size_t *place)
{
    uint8_t no_text = 0, no_buffer = 0;
    size_t no_length, no_place;
    return implib_members_nonnull(text_length == 0 ? &no_text : text, text_length, machine, flavor,
                                  buffer_length == 0 ? &no_buffer : buffer, buffer_length,
                                  length == NULL ? &no_length : length, place == NULL ? &no_place : place);
}

static inline uint32_t implib_definition(const uint8_t *text, size_t text_length, uint16_t machine,
                                         uint8_t *buffer, size_t buffer_length, size_t *length,
                                         size_t *place)
{
    uint8_t no_text = 0, no_buffer = 0;
    size_t no_length, no_place;
    return implib_definition_nonnull(text_length == 0 ? &no_text : text, text_length, machine,
                                     buffer_length == 0 ? &no_buffer : buffer, buffer_length,
                                     length == NULL ? &no_length : length, place == NULL ? &no_place : place);
}

static inline void implib_position(const uint8_t *text, size_t text_length, size_t offset, size_t *line,
                                   size_t *column)
{
    uint8_t no_text = 0;
    size_t no_line, no_column;
    implib_position_nonnull(text_length == 0 ? &no_text : text, text_length, offset,
                            line == NULL ? &no_line : line, column == NULL ? &no_column : column);
}

static inline size_t implib_status_text(uint32_t status, char *buffer, size_t buffer_length)
{
    char no_buffer = 0;
    return implib_status_text_nonnull(status, buffer_length == 0 ? &no_buffer : buffer, buffer_length);
}

#ifdef __cplusplus
}
#endif

#endif
