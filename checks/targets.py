"""What programs are linked from, and what is found in them: the machines as the tools name them, objects that name
imports, the linkers, and a linked file as a loader sees it, by python3-pefile."""
import collections
import os
import shutil
import struct
from typing import NamedTuple

import tools
from tools import pefile


class Target(NamedTuple):
    """A machine as the tools name it: LLVM's assembler, lld-link, `ld.lld -m`, the prefix of GNU's tools, dlltool."""

    triple: str
    lld_link: str
    ld_lld: str
    gnu: str | None
    dlltool: str
    # how an assembler makes an address, and the prefix of each symbol that C names
    word: str
    lead: str = ""


TARGETS = {
    "I386": Target("i686-windows-gnu", "x86", "i386pe", "i686-w64-mingw32", "i386", ".long", "_"),
    "ARMNT": Target("thumbv7-windows-gnu", "arm", "thumb2pe", None, "arm", ".long"),
    "AMD64": Target("x86_64-windows-gnu", "x64", "i386pep", "x86_64-w64-mingw32", "i386:x86-64", ".quad"),
    "ARM64": Target("aarch64-windows-gnu", "arm64", "arm64pe", None, "arm64", ".quad"),
}
X86 = ("I386", "AMD64")
GCCS = {machine: f"{TARGETS[machine].gnu}-gcc" for machine in X86}


def definition(dll, *exports):
    return "\n".join([f"LIBRARY {dll}", "EXPORTS", *exports, ""])


# ---- objects

# In front of a program's words, so that they can be found in the linked file.
MARK = "sixteen letters:"


def assembled(folder, machine, source, name="program"):
    """An object of this source, in which `{_}` is in front of a symbol of C, and `{word}` makes an address."""
    target = TARGETS[machine]
    source = source.replace("{_}", target.lead).replace("{word}", target.word)
    text, made = tools.file_of(folder, f"{name}.s", source), os.path.join(folder, f"{name}.obj")
    tools.done([tools.tool("llvm-mc"), f"-triple={target.triple}", "-filetype=obj", text, "-o", made])
    return made


def program_of_words(folder, machine, symbols, code="", name="program"):
    """An object that has, behind the mark, a word with the address of each of these symbols, and starts with code."""
    words = "".join(f'{{word}} "{symbol}"\n' for symbol in symbols)
    source = f'.text\n.globl {{_}}start\n{{_}}start: {code}\n.data\n.balign 16\n.ascii "{MARK}"\n{words}'
    return assembled(folder, machine, source, name)


def symbol_of(machine, symbol):
    """A symbol of C, as objects have it: on I386 with a `_` in front, unless it has an `@`."""
    address, name = "__imp_" * symbol.startswith("__imp_"), symbol.removeprefix("__imp_")
    return address + (name if "@" in name else TARGETS[machine].lead + name)


def program_of(folder, machine, symbols, code="", name="program"):
    """An object with a word for each of these symbols of C."""
    return program_of_words(folder, machine, [symbol_of(machine, symbol) for symbol in symbols], code, name)


def compiled(folder, machine, source, name="code"):
    """An object of a program in C, by MinGW's gcc, without what a C library has."""
    text, made = tools.file_of(folder, f"{name}.c", source), os.path.join(folder, f"{name}.o")
    flags = ["-O1", "-w", "-ffreestanding", "-fno-ident", f'-DLEAD="{TARGETS[machine].lead}"']
    tools.done([GCCS[machine], *flags, "-c", text, "-o", made])
    return made


# ---- linkers


class Linker(NamedTuple):
    """A linker for a machine: the command, and which of three it is."""

    kind: str
    command: str
    machine: str

    def __str__(self):
        return f"{self.kind} {tools.version_of(self.command)}"

    def link(self, folder, files, options=("/safeseh:no",), name="linked.exe", base=None):
        """Links files to a program, or to a DLL if the name ends so, for this base or the linker's own, and
        gives it. A DLL exports what its objects say; lld-link makes one that does not start. A linker that says
        anything has failed. The options are for lld-link alone."""
        target, image = TARGETS[self.machine], os.path.join(folder, name)
        is_dll = name.endswith(".dll")
        if self.kind == "lld-link":
            flags = [f"/machine:{target.lld_link}", "/nodefaultlib", f"/out:{image}", *options]
            flags += ["/dll", "/noentry"] if is_dll else ["/entry:start", "/subsystem:console"]
            flags += [f"/base:{base:#x}"] if base is not None else []
        else:
            flags = ["-m", target.ld_lld] if self.kind == "ld.lld" else []
            flags += ["-e", f"{target.lead}start"]
            flags += ["-shared"] if is_dll else ["--subsystem", "console"]
            flags += ["--image-base", f"{base:#x}"] if base is not None else []
            flags += ["-o", image]
        run = tools.ran([self.command, *flags, *files])
        said = (run.stderr + run.stdout).strip()
        if run.returncode != 0 or said:
            raise tools.Failed(f"{self.command}, status {run.returncode}: {said}")
        return image


def linkers(machine):
    """The linkers at hand that link for a machine."""
    found = [Linker(kind, command, machine) for kind in ("lld-link", "ld.lld") for command in tools.versions(kind)]
    gnu = f"{TARGETS[machine].gnu}-ld"
    return found + [Linker("GNU ld", gnu, machine)] * (shutil.which(gnu) is not None)


# ---- a linked file


class Wrong(Exception):
    """What is wrong in a linked file."""


# A DLL of the import directory: what its tables ask for, a name and a hint or a number each, and where the address
# table is.
Dll = collections.namedtuple("Dll", "name asks table")


class Image:
    """A linked file in memory; addresses are relative to its base."""

    def __init__(self, path):
        self.data = tools.bytes_of(path)
        file = pefile.PE(data=self.data, fast_load=True)
        header, self.memory = file.OPTIONAL_HEADER, file.get_memory_mapped_image()
        self.machine, self.base = file.FILE_HEADER.Machine, header.ImageBase
        self.directory, self.width = header.DATA_DIRECTORY[1].VirtualAddress, 8 if header.Magic == 0x20B else 4

    def number_at(self, address, width=4):
        return int.from_bytes(self.memory[address : address + width], "little")

    def text_at(self, address):
        return self.memory[address : self.memory.find(b"\0", address)].decode("latin-1")

    def asked_by(self, table):
        """What a table of thunks asks for, up to its end."""
        found = []
        while (thunk := self.number_at(table + self.width * len(found), self.width)) != 0:
            is_number = thunk >> (8 * self.width - 1)
            if not is_number and thunk >> 31:
                raise Wrong(f"a thunk is {thunk:#x}")
            found.append(thunk & 0xFFFF if is_number else (self.text_at(thunk + 2), self.number_at(thunk, 2)))
        return found

    def imports(self):
        """The DLLs of the import directory, up to the null descriptor. Both tables of each ask for the same."""
        found, place = [], self.directory
        while place and any(self.memory[place : place + 20]):
            lookups, _, _, name, addresses = struct.unpack_from("<5I", self.memory, place)
            dll = Dll(self.text_at(name), self.asked_by(addresses), addresses)
            if self.asked_by(lookups) != dll.asks:
                raise Wrong(f"{dll.name}: lookup table {self.asked_by(lookups)}, address table {dll.asks}")
            found.append(dll)
            place += 20
        return found

    def entries(self):
        """The entry of each import: its address, and the DLL and what it is asked for."""
        asks = ((dll, index, ask) for dll in self.imports() for index, ask in enumerate(dll.asks))
        return {dll.table + self.width * index: (dll.name, ask) for dll, index, ask in asks}

    def words(self, count):
        """The words behind the mark of a program, less the base."""
        mark = self.data.index(MARK.encode()) + len(MARK)
        words = struct.unpack_from(f"<{count}{'Q' if self.width == 8 else 'I'}", self.data, mark)
        return [word - self.base for word in words]

    def stub_entry(self, stub):
        """The address at which a stub finds where it jumps to, or nothing where there is no stub."""
        if not 0 <= stub < len(self.memory) - 12:
            return None
        if self.machine == 0x1C4:
            # Thumb code at an odd address: `movw ip, low`, `movt ip, high`, `ldr.w pc, [ip]`. A number of 16 bits has
            # 4, 1, 3 and 8 of them in two halfwords.
            halves = struct.unpack_from("<6H", self.memory, stub & ~1)
            kinds = [half & mask for half, mask in zip(halves, (0xFBF0, 0x8F00, 0xFBF0, 0x8F00, 0xFFFF, 0xFFFF))]
            low, high = (
                (first & 15) << 12 | (first >> 10 & 1) << 11 | (second >> 12 & 7) << 8 | second & 255
                for first, second in (halves[:2], halves[2:4])
            )
            is_stub, entry = kinds == [0xF240, 0x0C00, 0xF2C0, 0x0C00, 0xF8DC, 0xF000], (low | high << 16) - self.base
        elif self.machine == 0xAA64:
            # `adrp x16, page`, `ldr x16, [x16, offset]`, `br x16`
            page, load, jump = struct.unpack_from("<3I", self.memory, stub)
            kinds = page & 0x9F00001F, load & 0xFFC003FF, jump
            pages = (page >> 5 & 0x7FFFF) << 2 | page >> 29 & 3
            pages -= (pages & 0x100000) << 1
            is_stub = kinds == (0x90000010, 0xF9400210, 0xD61F0200)
            entry = (stub & ~0xFFF) + (pages << 12) + (load >> 10 & 0xFFF) * 8
        else:
            # `jmp [address]`, which on AMD64 is relative to the next instruction
            jump, field = struct.unpack_from("<HI", self.memory, stub)
            is_stub = jump == 0x25FF
            entry = field - self.base if self.machine == 0x14C else (stub + 6 + field) & 0xFFFFFFFF
        return entry if is_stub else None


# ---- what a linked file asks for

# What an address leads to that no loader fills.
LOST = "lost"


def entries(dll, *names):
    """Symbols of addresses, as C has them, each of which is at its entry. A name with a `:` tells behind it what the
    DLL is asked for, a name or `#` and a number; else that is the name."""
    pairs = (name.partition(":")[::2] for name in names)
    return {f"__imp_{symbol}": f"entry of {dll}!{asked or symbol}" for symbol, asked in pairs}


def calls(dll, *names):
    """Symbols of functions, and of their addresses."""
    pairs = [name.partition(":")[::2] for name in names]
    return entries(dll, *names) | {symbol: f"stub of {dll}!{asked or symbol}" for symbol, asked in pairs}


def asked(ask):
    """What a DLL is asked for, without a hint."""
    return f"#{ask}" if isinstance(ask, int) else ask[0]


def hinted(ask):
    """The same, with a hint that is not 0."""
    return asked(ask) + (f":{ask[1]}" if isinstance(ask, tuple) and ask[1] else "")


def asks(image, shown=asked):
    """What each DLL of the import directory is asked for, by all descriptors of the DLL."""
    found = {}
    for dll in image.imports():
        found[dll.name] = sorted([*found.get(dll.name, ()), *map(shown, dll.asks)])
    return found


def found_in(image, symbols, shown=asked):
    """What each symbol leads to, of a program that has words for them: the entry of an import, a stub that jumps by
    it, or something else."""
    words, places, found = image.words(len(symbols)) if symbols else [], image.entries(), {}
    for symbol, word in zip(symbols, words):
        entry = word if word in places else None if symbol.startswith("__imp_") else image.stub_entry(word)
        if entry in places:
            dll, ask = places[entry]
            found[symbol] = f"{'entry' if entry == word else 'stub'} of {dll}!{shown(ask)}"
        else:
            found[symbol] = LOST if word + image.base else "nothing"
    return found


def hold_image(path, named, folds=False):
    """Holds a linked file against what its program names: the import tables ask for just that, each once, and each
    symbol leads where it has to. Names may differ in small and capital letters, if `folds`."""
    image, fold = Image(path), str.lower if folds else str
    dlls = image.imports()
    found = sorted(fold(f"{dll.name}!{asked(ask)}") for dll in dlls for ask in dll.asks)
    wanted = sorted({fold(led.split(" of ")[1]) for led in named.values()})
    if found != wanted:
        lost, more = ([one for one in these if one not in those] for these, those in ((wanted, found), (found, wanted)))
        raise Wrong(f"{f'{LOST} is {lost[:5]}; ' * bool(lost)}asked is for more: {more[:5]}")
    if not all(dll.asks for dll in dlls):
        raise Wrong("a DLL is asked for nothing")
    # a table that runs on into the next has entries that are another DLL's, too
    if len(image.entries()) != len(wanted):
        raise Wrong("a table goes on in another one")
    leads = found_in(image, list(named))
    wrong = {symbol: led for symbol, led in leads.items() if fold(led) != fold(named[symbol])}
    if wrong:
        raise Wrong(f"symbols lead elsewhere: {wrong}")
