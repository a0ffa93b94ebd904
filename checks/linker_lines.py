"""The lines of docs/LINKERS.md, each by its name with what is linked and what is found.

A symbol is named as C names it. What it leads to is the entry of an import, a stub that jumps by this
entry, or nothing that a loader fills: then it is lost.
"""
from collections import namedtuple
from functools import reduce
from itertools import permutations, product
from operator import or_
from typing import NamedTuple

import tools
from targets import LOST, X86, calls, definition, entries

LLD, GNU = ("lld-link", "ld.lld"), ("GNU ld",)
ALL = LLD + GNU
EVERY = ("I386", "ARMNT", "AMD64", "ARM64")
NOT_ARMNT = ("I386", "AMD64", "ARM64")


# A link that fails, of a program that names these symbols: what the linker writes has this, a regular expression.
Fails = namedtuple("Fails", "symbols text")


class Trial(NamedTuple):
    """What is linked, by which linkers for which machines, and what is found: what each symbol of the program leads to,
    or how the link fails; and, where it is given, what the import directory has, that is each DLL with what it is asked
    for. Without `parts` a program that names these symbols is linked with the libraries. A part is an option, in which
    `{_}` is what is in front of a symbol of C, or a file that `Links` makes. A linker may have options in front, and
    may fail, too; lld-link is told that the program is not safe, unless it is."""

    linkers: tuple
    machines: tuple
    libraries: tuple
    found: object
    directory: dict | None = None
    options: dict = {}
    parts: tuple = ()
    or_fails: str | None = None
    is_safe: bool = False


def msvc(*definitions):
    """An archive for each definition, in Microsoft's flavour."""
    return tuple(("library", "msvc", text) for text in definitions)


def gnu(*definitions):
    return tuple(("library", "gnu", text) for text in definitions)


def lost(*names):
    return {f"__imp_{name}": LOST for name in names}


def both(linkers, machines, text, found, **more):
    """The same of each flavour."""
    return [Trial(linkers, machines, libraries, found, **more) for libraries in (msvc(text), gnu(text))]


# ---- aliases and other names

ALIAS = definition("zoo.dll", "zoo_b", "zoo_a == zoo_b")
ALIAS_ALONE = definition("zoo.dll", "zoo_a == zoo_b")
ALIAS_WITH_LEAD = definition("zoo.dll", "zoo_b", "zoo_a == _zoo_b")
ASKS_A, ASKS_B = calls("zoo.dll", "zoo_a"), calls("zoo.dll", "zoo_a:zoo_b")
UNDEFINED = Fails(("__imp_zoo_a", "zoo_a"), r"undefined symbol: _?zoo_a\b")
GUESSED = Fails(UNDEFINED.symbols, "status -11: .*Resolving zoo_b by linking to _zoo_b")
ALTERNATES = ("/alternatename:{_}zoo_a={_}zoo_b", "/alternatename:__imp_{_}zoo_a=__imp_{_}zoo_b")
OPTIONS = {
    "lld-link": ALTERNATES,
    "ld.lld": tuple(f"-Xlink={option}" for option in ALTERNATES),
    "GNU ld": ("--defsym={_}zoo_a={_}zoo_b", "--defsym=__imp_{_}zoo_a=__imp_{_}zoo_b"),
}
OF_C = Fails(("__imp__feed@8", "_feed@8"), "undefined.*feed@8")
I386, ARMNT, LLD_LINK, LD_LLD = ("I386",), ("ARMNT",), ("lld-link",), ("ld.lld",)
FEED, OWN_FEED = definition("zoo.dll", "feed@8"), definition("zoo.dll", "_feed@8")
LINES = {
    "alias-gnu": [
        *(Trial(ALL, NOT_ARMNT, gnu(text), ASKS_A) for text in (ALIAS, ALIAS_ALONE)),
        *(Trial(LLD, ARMNT, gnu(text), entries("zoo.dll", "zoo_a")) for text in (ALIAS, ALIAS_ALONE)),
    ],
    "alias-lld": [
        Trial(LLD, ("ARMNT", "AMD64", "ARM64"), msvc(ALIAS), ASKS_B),
        Trial(LLD, I386, msvc(ALIAS_WITH_LEAD), ASKS_B),
        Trial(LLD, EVERY, msvc(ALIAS_ALONE), UNDEFINED),
    ],
    "alias-lead": [Trial(LLD_LINK, I386, msvc(ALIAS), UNDEFINED), Trial(LD_LLD, I386, msvc(ALIAS), GUESSED)],
    "alias-gnu-ld": [Trial(GNU, X86, msvc(text), ASKS_A) for text in (ALIAS, ALIAS_ALONE)],
    "alias-option": both(ALL, X86, definition("zoo.dll", "zoo_b"), ASKS_B, options=OPTIONS),
    "renamed": both(ALL, X86, definition("zoo.dll", "zoo_a = zoo_b"), ASKS_A),
    "stdcall": [
        *both(ALL, I386, FEED, OF_C), *both(ALL, I386, FEED, calls("zoo.dll", "feed@8")),
        *both(ALL, I386, OWN_FEED, calls("zoo.dll", "_feed@8")),
    ],
}

# ---- constants

CONSTANT = definition("zoo.dll", "zoo_open", "limit CONSTANT")
NOT_RECOGNIZED = [
    Fails(symbols, "file format not recognized")
    for symbols in (("__imp_limit",), ("limit",), ("__imp_zoo_open", "__imp_limit"))
]
LINES |= {
    "constant-gnu": [
        Trial(ALL, NOT_ARMNT, gnu(CONSTANT), calls("zoo.dll", "limit")),
        Trial(LLD, ARMNT, gnu(CONSTANT), entries("zoo.dll", "limit")),
    ],
    "constant-lld": [
        Trial(LLD, EVERY, msvc(CONSTANT), entries("zoo.dll", "limit") | {"limit": "entry of zoo.dll!limit"}),
    ],
    "constant-gnu-ld": [
        *(Trial(GNU, X86, msvc(CONSTANT), fails) for fails in NOT_RECOGNIZED),
        Trial(GNU, X86, msvc(CONSTANT), calls("zoo.dll", "zoo_open")),
    ],
}

# ---- several archives and several DLLs

OPEN, CLOSE = definition("zoo.dll", "zoo_open"), definition("zoo.dll", "zoo_close")
TWO_RIGHT = entries("zoo.dll", "zoo_open", "zoo_close")
SECOND_LOST = entries("zoo.dll", "zoo_open") | lost("zoo_close")
ALIKE = definition("a.b.dll", "zoo_open"), definition("a_b.dll", "zoo_close")
ALIKE_RIGHT = entries("a.b.dll", "zoo_open") | entries("a_b.dll", "zoo_close")
BEGINNINGS = definition("zoo", "zoo_open"), definition("zoo_a_i.dll", "zoo_close")
ONE_BEGUN = {"zoo": ["zoo_close"], "zoo_a_i.dll": ["zoo_close"]}
SECOND_BEGUN = entries("zoo_a_i.dll", "zoo_close")
ONE_ARCHIVE = OPEN + "---\n" + definition("yak.dll", "yak_open")
LINES |= {
    "one-archive": both(ALL, X86, ONE_ARCHIVE, calls("zoo.dll", "zoo_open") | calls("yak.dll", "yak_open")),
    "two-archives": [
        Trial(LLD, EVERY, msvc(OPEN, CLOSE), TWO_RIGHT),
        Trial(LLD, EVERY, gnu(OPEN, CLOSE), SECOND_LOST),
        Trial(GNU, X86, msvc(OPEN, CLOSE), SECOND_LOST),
        Trial(GNU, X86, gnu(OPEN, CLOSE), TWO_RIGHT),
        Trial(ALL, X86, msvc(OPEN) + gnu(CLOSE), TWO_RIGHT),
        Trial(ALL, X86, gnu(OPEN) + msvc(CLOSE), TWO_RIGHT),
    ],
    "one-mangled-name": [
        Trial(LLD, EVERY, gnu(*ALIKE), entries("a.b.dll", "zoo_open") | lost("zoo_close")),
        Trial(GNU, X86, gnu(*ALIKE), entries("a.b.dll", "zoo_open", "zoo_close")),
        Trial(ALL, EVERY, gnu(ALIKE[0]) + msvc(ALIKE[1]), ALIKE_RIGHT),
        Trial(ALL, EVERY, msvc(ALIKE[0]) + gnu(ALIKE[1]), ALIKE_RIGHT),
        Trial(ALL, EVERY, msvc(*ALIKE), ALIKE_RIGHT),
    ],
    "beginnings": [
        Trial(ALL, X86, gnu("---\n".join(BEGINNINGS)), lost("zoo_open") | SECOND_BEGUN, ONE_BEGUN),
        Trial(ALL, X86, gnu(*BEGINNINGS), entries("zoo", "zoo_open") | SECOND_BEGUN),
    ],
}

# ---- tables of ARM64 that are not aligned

ANIMALS = ("zoo", "yak", "emu", "gnu", "lynx")
RUNS = [definition(f"{name}.dll", f"{name}_run", f"{name}_size DATA") for name in ANIMALS]
# What a program finds that calls a function, or names data, of each of the first DLLs.
CALLED = [reduce(or_, (calls(f"{name}.dll", f"{name}_run") for name in ANIMALS[:n]), {}) for n in range(6)]
SIZES = [reduce(or_, (entries(f"{name}.dll", f"{name}_size") for name in ANIMALS[:n]), {}) for n in range(6)]
MISALIGNED = [Fails(tuple(symbols), "misaligned ldr/str offset") for symbols in CALLED]
LINES |= {
    "even": [
        Trial(LLD, ("ARM64",), libraries, found)
        for libraries, found in (
            *((gnu(*RUNS[:count]), MISALIGNED[count]) for count in (2, 4)),
            (gnu(*RUNS[:2]), Fails(("__imp_zoo_run", "__imp_yak_run"), MISALIGNED[0].text)),
            *((gnu(*RUNS[:count]), CALLED[count]) for count in (1, 3, 5)),
            *((gnu(*RUNS[:count]), SIZES[count]) for count in (2, 4)),
            *((msvc(RUNS[0]) + gnu(*RUNS[1:count]), CALLED[count]) for count in (2, 3, 4)),
            (msvc(*RUNS[:4]), CALLED[4]),
        )
    ],
}

# ---- names of DLLs

EXPORTS = ("zoo_open", "secret @9 NONAME", "animals DATA")
ALL_LOST = lost("zoo_open", "secret", "animals")


def of_names(linkers, machines, flavour, *dlls):
    """Libraries of DLLs of these names, of which all that a program names is found."""
    found = {dll: entries(dll, "zoo_open", "secret:#9", "animals") for dll in dlls}
    directory = ["#9", "animals", "zoo_open"]
    return [Trial(linkers, machines, flavour(definition(dll, *EXPORTS)), found[dll], {dll: directory}) for dll in dlls]


def of_lost_names(is_there, *dlls):
    """Libraries of DLLs of these names, all of whose imports are lost; the DLL is there or not."""
    kinds = [(msvc(definition(dll, *EXPORTS)), {dll: []} if is_there else {}) for dll in dlls]
    return [Trial(GNU, X86, library, ALL_LOST, directory) for library, directory in kinds]


OTHER_NAMES = ("zoo.exe", "zoo", "zoo.drv", "zoo.sys", "ZOO.DLL", "zoo.EXE", "a.b.dll")
LINES |= {
    "dll-names": [
        *of_names(LLD, EVERY, msvc, *OTHER_NAMES),
        *of_names(ALL, EVERY, gnu, *OTHER_NAMES),
        *of_names(GNU, X86, msvc, "zoo.dll", "Zoo.dll", "a.b.dll"),
    ],
    "dll-name-exe": of_lost_names(True, "zoo.exe", "zoo"),
    "dll-name-other": of_lost_names(False, "ZOO.DLL", "zoo.EXE", "zoo.drv", "zoo.sys"),
}

# ---- orders, and programs of more than words


def in_order(linkers, machines, parts, directory, found=None, **more):
    """What the import directory has where these parts are linked; or how the link fails."""
    fails = Fails((), directory) if isinstance(directory, str) else None
    return Trial(linkers, machines, (), fails or found or {}, None if fails else directory, parts=parts, **more)


FLAVOURS = ("msvc", "gnu")
# An archive whose object wants what follows.
HELPER = ".data\n.globl {_}helper\n{_}helper: {word} "
OPENS, PROGRAM, ARCHIVE = {"zoo.dll": ["zoo_open"]}, ("words", "helper"), ("archive", HELPER + "{_}zoo_open\n")
LINES["archive-order"] = [
    in_order(linkers, NOT_ARMNT, (PROGRAM, *parts), found)
    for library in msvc(OPEN) + gnu(OPEN)
    for linkers, parts, found in (
        (LLD, (library, ARCHIVE), OPENS), (GNU, (library, ARCHIVE), "undefined reference"),
        (ALL, (ARCHIVE, library), OPENS), (ALL, (library, ARCHIVE, library), OPENS),
        (GNU, ("--start-group", library, ARCHIVE, "--end-group"), OPENS),
    )
]
# A library is searched for `zoo_open`, then the helper names `size`, and the library is searched again.
BOTH = ("words", "helper", "__imp_zoo_open")
LINES["late-data"] = [
    in_order(
        GNU, X86, (BOTH, *[library] * twice, ("archive", HELPER + "__imp_{_}size\n"), library),
        OPENS if name == "msvc" and ask == "#7" and twice else {"zoo.dll": [ask, "zoo_open"]},
    )
    for name, (export, ask), twice in product(
        FLAVOURS, (("size @7 NONAME DATA", "#7"), ("size @7 DATA", "size:7")), (False, True)
    )
    for library in [("library", name, definition("zoo.dll", "zoo_open", export))]
]
# The plain reference and the library first, or GNU ld with the library last, are right.
WEAK = {"weak": ("object", ".data\n.weak {_}bar\n{word} {_}bar\n"), "plain": ("words", "bar")}
LINES["weak-reference"] = [
    in_order(linkers, EVERY, tuple(files[part] for part in order), directory, found)
    for name in FLAVOURS
    for files in [{**WEAK, "library": ("library", name, definition("zoo.dll", "bar"))}]
    for order in permutations(files)
    for linkers, directory, found in (
        (LLD, {"zoo.dll": ["bar"]}, None) if order[2] == "weak" else (LLD, {}, {"bar": "nothing"}),
        (GNU if order[2] == "library" else (), {"zoo.dll": ["bar"]}, None),
    )
]
# A program of data with the one symbol of MinGW's start code that auto-import asks for.
STARTED = (
    "object",
    ".text\n.globl {_}start, {_}_pei386_runtime_relocator\n{_}start:\n{_}_pei386_runtime_relocator:\n"
    ".data\n{word} {_}bar\n",
)
BY_AUTO_IMPORT = {1: {"zoo.dll": ["bar"]}, 2: {"zoo.dll": ["bar", "baz"]}}
LINES["alias-of-data"] = [
    in_order(
        GNU, X86, (*options, STARTED, ("library", name, definition("zoo.dll", *exports))),
        BY_AUTO_IMPORT[len(exports)] if name == "gnu" and not options else "undefined reference to `bar'",
    )
    for name, exports, options in product(
        FLAVOURS, (("baz DATA", "bar == {_}baz DATA"), ("bar == {_}baz DATA",)), ((), ("--disable-auto-import",))
    )
]
# GNU's archiver changes the bytes of short imports, and packs members for GNU's linker as they are.
PACKED = definition("zoo.dll", "zoo_open", "secret @9 NONAME", "animals DATA")
PACKERS = (("I386", "i686-w64-mingw32-ar"), ("AMD64", "x86_64-w64-mingw32-ar"), ("AMD64", "ar"))
NOT_TAKEN = Fails(("__imp_zoo_open",), "unknown file type|file format not recognized")
DEFSYM = "--defsym=_zoo_a=_zoo_b"
LAST = (("words", "__imp_zoo_b", "zoo_a"), *gnu(definition("zoo.dll", "zoo_b")))
# A program that says that it is safe.
SAFE = ".text\n.globl _start\n.set @feat.00, 1\n.globl @feat.00\n_start: call *__imp__zoo_{}\n"
OWN = ("object", ".data\n.globl {_}zoo_b, __imp_{_}zoo_b\n{_}zoo_b: .long 0\n__imp_{_}zoo_b: .long 0\n")
LINES |= {
    "gnu-archiver": [
        Trial(ALL, (machine,), (("library", flavour, PACKED, packer),), found)
        for machine, packer in PACKERS if tools.tool(packer)
        for flavour, found in (("msvc", NOT_TAKEN), ("gnu", calls("zoo.dll", "zoo_open")))
    ],
    "alias-option-last": [
        Trial(GNU, ("I386",), (), {"__imp_zoo_b": "entry of zoo.dll!zoo_b", "zoo_a": led}, parts=parts)
        for parts, led in (((DEFSYM, *LAST), "stub of zoo.dll!zoo_b"), ((*LAST, DEFSYM), "nothing"))
    ],
    "bare-data": [
        Trial(linkers, EVERY, flavour(definition("zoo.dll", "animals DATA")), found, or_fails=or_fails)
        for flavour in (msvc, gnu)
        for linkers, found, or_fails in (
            (("lld-link",), Fails(("animals",), "undefined symbol"), None),
            (("ld.lld",), {"animals": "entry of zoo.dll!animals"}, "_pei386_runtime_relocator"),
            (GNU, Fails(("animals",), "_pei386_runtime_relocator"), None),
        )
    ],
    "cut-prefix": [
        in_order(linkers, (machine,), (("words", f"__imp_{name}"), ("cut", definition("zoo.dll", name))), found)
        for linkers, machine, name, asked in (
            (ALL, "I386", "zoo_f", "zoo_f"), (LLD, "AMD64", "_zoo_f", "zoo_f"), (GNU, "AMD64", "_zoo_f", "_zoo_f")
        )
        for found in [{"zoo.dll": [asked]}]
    ],
    "safe-handlers": [
        in_order(("lld-link",), ("I386",), (("object", SAFE.format(name)), *library), found, is_safe=True)
        for name, library, found in (
            ("b", msvc(ALIAS_WITH_LEAD), {"zoo.dll": ["zoo_b"]}),
            ("a", msvc(ALIAS_WITH_LEAD), "is not compatible with SEH"),
            ("b", gnu(ALIAS_WITH_LEAD), "is not compatible with SEH"),
        )
    ],
    # A library of `implib_dlltool`; the program may define `zoo_b` itself.
    "weak-alias": [
        in_order(linkers, X86, (("words", symbol), *own, ("own", name, ALIAS)), found)
        for name, own, symbol in product(FLAVOURS, ((), (OWN,)), ("zoo_a", "__imp_zoo_a"))
        for linkers, found in (
            (LLD, {"zoo.dll": ["zoo_b"]}),
            (GNU, "undefined reference to" if name == "msvc" else {"zoo.dll": ["zoo_b"]}),
        )
    ],
}
