"""What the checks share: their options, which tools there are, files and libraries, and runs under Wine."""
import argparse
import functools
import glob
import importlib.machinery
import importlib.util
import itertools
import os
import re
import shutil
import subprocess
import sys

# Debian's pefile is there for Debian's Python alone.
sys.path.append("/usr/lib/python3/dist-packages")
try:
    import pefile
except ImportError:
    pefile = None

ROOT = os.path.dirname(os.path.dirname(os.path.abspath(__file__)))
PROGRAM = os.path.join(ROOT, "crates", "implib_tool", "out", "implib_tool")
DLLTOOL = os.path.join(ROOT, "crates", "implib_dlltool", "out", "implib_dlltool")
CHECK = os.path.join(ROOT, "crates", "implib_check", "out", "implib_check")
PACK = os.path.join(ROOT, "examples", "pack")
MACHINES = ("I386", "ARMNT", "AMD64", "ARM64")
FLAVOURS = ("msvc", "gnu")


class Failed(Exception):
    """A tool that refused its work, with what it said."""


# ---- arguments and tools


def arguments(description, program=PROGRAM, **options):
    """The options of a check: the program and, of each option, its number."""
    parser = argparse.ArgumentParser(description=description, formatter_class=argparse.RawDescriptionHelpFormatter)
    parser.add_argument("--program", default=program, help="the built program; else the one of this clone")
    for name, (default, help_) in options.items():
        parser.add_argument(f"--{name}", type=int, default=default, help=f"{help_}; else {default}")
    options = parser.parse_args()
    options.program = os.path.abspath(options.program)
    need(options.program)
    return options


def need(*programs):
    """Ends the check where one of these programs is not built."""
    for program in programs:
        if not os.access(program, os.X_OK):
            sys.exit(f"no {program}: `rt run` in the folder of its crate builds it")


def loaded(name):
    """A check as a module."""
    loader = importlib.machinery.SourceFileLoader(f"check_{name}", os.path.join(ROOT, "checks", name))
    module = importlib.util.module_from_spec(importlib.util.spec_from_loader(loader.name, loader))
    sys.modules[loader.name] = module
    loader.exec_module(module)
    return module


@functools.cache
def versions(name):
    """The commands on the path that are this tool, with the number of a version behind its name or
    without; of two that are one file, the first."""
    pattern, found = re.compile(re.escape(name) + r"(-\d+)?$"), {}
    for folder in os.environ["PATH"].split(os.pathsep):
        for command in sorted(os.listdir(folder)) if os.path.isdir(folder) else ():
            if pattern.match(command):
                found.setdefault(os.path.realpath(os.path.join(folder, command)), command)
    return sorted(found.values(), key=lambda command: (len(command), command))


def tool(name):
    """One command that is this tool, or nothing."""
    return next(iter(versions(name)), None)


@functools.cache
def version_of(command):
    """What a tool says its version is."""
    found = re.search(r"\d+\.\d+[.\d]*", ran([command, "--version"]).stdout)
    return found[0] if found else "of unknown version"


def missing(*names):
    """Whether one of these tools, or python3-pefile, is missing, which is then said."""
    lacking = [name for name in names if (pefile if name == "python3-pefile" else tool(name)) is None]
    if lacking:
        print(f"skipped: no {' and no '.join(lacking)}")
    return bool(lacking)


# ---- runs, and what is found


def ran(command, **more):
    """A run of a command, with what it wrote."""
    more = {"text": True, "errors": "replace", **more} if more.get("text", True) else more
    return subprocess.run(command, capture_output=True, **more)


def done(command, **more):
    """Runs a command, which has to succeed, and gives what it wrote."""
    run = ran(command, **more)
    if run.returncode != 0:
        raise Failed(f"{command[0]}, status {run.returncode}: {(run.stderr + run.stdout).strip()}")
    return run.stdout


def fail_if(is_wrong, said):
    """Ends the check if something is wrong."""
    if is_wrong:
        sys.exit(said)


def hold(what, found, wanted):
    """Ends the check unless this was found."""
    fail_if(found != wanted, f"{what}: {found!r}, and not {wanted!r}")


def closed(wrong, said):
    """Ends a check: says what is wrong, of much the first, and how much is."""
    for line in wrong[:50]:
        print(line)
    print(f"{said}: {len(wrong)} wrong")
    sys.exit(1 if wrong else 0)


def failing_runs(folder, command, before=lambda: None):
    """Runs of a command with one allocation after the other failing, up to one at which none is left to fail. Each is
    preceded by a call, and is given with the allocation's number."""
    shim = os.path.join(folder, "failing_malloc.so")
    if not os.path.exists(shim):
        done(["gcc", "-shared", "-fPIC", "-o", shim, os.path.join(ROOT, "checks", "failing_malloc.c")])
    for number in itertools.count(1):
        before()
        run = ran(command, env={"LD_PRELOAD": os.path.abspath(shim), "FAIL_AT": str(number)})
        if run.stdout.endswith("not reached\n"):
            return
        yield number, run


# ---- files


def file_of(folder, name, contents):
    """A new file of this text, or of these bytes."""
    path = os.path.join(folder, name)
    with open(path, "wb" if isinstance(contents, bytes) else "w") as file:
        file.write(contents)
    return path


def bytes_of(path):
    with open(path, "rb") as file:
        return file.read()


def text_of(path):
    with open(path, encoding="utf-8", errors="replace") as file:
        return file.read()


# ---- source packages

# How apt-get tells of a source of binary packages as the source of their sources.
SOURCE = "deb-src $(REPO_URI) $(RELEASE) $(COMPONENT)"


def fetch_sources(folder, *packages):
    """Fetches source packages into a folder, from where the system has Debian's packages, by lists of its own there."""
    lines = done(["apt-get", "indextargets", "--format", SOURCE, "Created-By: Packages", "Origin: Debian"]).splitlines()
    lists = os.path.join(folder, "lists")
    os.makedirs(os.path.join(lists, "partial"), exist_ok=True)
    source = file_of(folder, "sources.list", "".join(f"{line}\n" for line in sorted(set(lines))))
    options = [f"Dir::Etc::sourcelist={source}", "Dir::Etc::sourceparts=-", f"Dir::State::lists={lists}"]
    apt = ["apt-get", "-qq", *(word for option in options for word in ("-o", option))]
    subprocess.run([*apt, "update"], check=True)
    subprocess.run([*apt, "source", "--download-only", *packages], cwd=folder, check=True)


def unpacked(folder, package, *patterns):
    """The folder of what these patterns take of a source package, which is fetched into this folder where it is not."""
    found = glob.glob(os.path.join(folder, f"{package}[-_]*", ""))
    if not found:
        tars = os.path.join(folder, f"{package}_*.orig.tar.*")
        if not glob.glob(tars):
            fetch_sources(folder, package)
        tar = next(path for path in glob.glob(tars) if not path.endswith(".asc"))
        subprocess.run(["tar", "xf", tar, "--wildcards", *patterns], cwd=folder, check=True)
        found = glob.glob(os.path.join(folder, f"{package}[-_]*", ""))
    return found[0]


# ---- libraries


def library(command, machine, path, text, *more):
    """The library that a dlltool makes of a definition at a path, in silence; the machine is in its words."""
    source = file_of(os.path.dirname(path), f"{os.path.basename(path)}.def", text)
    run = ran([command, "-m", machine, "-d", source, "-l", path, *more])
    if run.returncode != 0 or run.stdout or run.stderr:
        raise Failed(f"{command} {more}: status {run.returncode}, said {run.stderr}{run.stdout}")
    return path


def packed(program, folder, name, machine, flavour, definition, archiver=None):
    """The archive that `examples/pack` makes of a definition by `implib_tool`, in a folder of its own."""
    os.makedirs(os.path.join(folder, name))
    source = file_of(os.path.join(folder, name), "definition.def", definition)
    archive = os.path.join(folder, name, name)
    chosen = ["--archiver", archiver] if archiver is not None else []
    done([PACK, "--program", program, *chosen, machine, flavour, source, archive])
    return archive


def archive_members(archive):
    """The contents of an archive's members, its own tables left out."""
    data = bytes_of(archive)
    if data[:8] != b"!<arch>\n":
        raise Failed(f"{archive}: no archive")
    place, found = 8, []
    while place < len(data):
        name, size = data[place : place + 16].rstrip(), int(data[place + 48 : place + 58])
        if name not in (b"/", b"//"):
            found.append(data[place + 60 : place + 60 + size])
        place += 60 + size + size % 2
    return found


# ---- Wine

# Where it is for the programs of a machine.
WINES = {"AMD64": ("wine64", "/usr/lib/wine/wine64", "wine"), "I386": ("wine32", "/usr/lib/wine/wine")}


def wine_for(machine):
    """Wine for the programs of a machine; where it is missing, that is said."""
    wine = next((name for name in WINES[machine] if shutil.which(name) is not None), None)
    if wine is None:
        print(f"skipped: no Wine for {machine}, as {' or '.join(WINES[machine])}")
    return wine


def run_by_wine(wine, folder, image):
    """What a program writes under Wine, and its status. Wine keeps its own files in the folder."""
    environment = {**os.environ, "WINEPREFIX": os.path.join(folder, "wine"), "WINEDEBUG": "-all"}
    run = subprocess.run([wine, image], env=environment, stdout=subprocess.PIPE, stderr=subprocess.DEVNULL)
    return run.stdout.strip(), run.returncode
