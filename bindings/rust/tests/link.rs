//! Programs that LLVM's and GNU's linkers link with libraries of this crate: they import what they name, and run
//! where Wine is.
//!
//! Of what is missing a line says that it was skipped.

use implib::{Flavor, ImportLibrary, MachineType};
use std::fs;
use std::path::{Path, PathBuf};
use std::process::Command;

const KERNEL: &str = "LIBRARY kernel32.dll\nEXPORTS\nExitProcess\nGetTickCount\nGetStdHandle\n";
/// It ends with the status 42 by the function that it imports.
const PROGRAM: &str = "void ExitProcess(unsigned); unsigned GetTickCount(void);\n\
                       void start(void) { ExitProcess(GetTickCount() ? 42 : 41); }\n";

/// A command on the path by one of these names.
fn tool(names: &[&'static str]) -> Option<&'static str> {
    let found = names.iter().copied().find(|name| {
        let paths = std::env::var_os("PATH").unwrap_or_default();
        Path::new(name).is_file() || std::env::split_paths(&paths).any(|path| path.join(name).is_file())
    });
    if found.is_none() {
        println!("skipped: no {}", names.join(" or "));
    }
    found
}

/// What a command writes; it has to succeed.
fn done(command: &mut Command) -> String {
    let output = command.output().unwrap();
    let said = String::from_utf8_lossy(&output.stdout).into_owned();
    assert!(output.status.success(), "{command:?}: {said}{}", String::from_utf8_lossy(&output.stderr));
    said
}

fn folder(name: &str) -> PathBuf {
    let folder = std::env::temp_dir().join(format!("implib-{name}-{}", std::process::id()));
    fs::create_dir_all(&folder).unwrap();
    folder
}

/// Links the program with a library, by a linker whose flags are here, and holds what it imports.
fn linked(name: &str, flavor: Flavor, linkers: &[&'static str], flags: &[&str]) {
    let (Some(clang), Some(linker), Some(reader)) = (tool(&["clang"]), tool(linkers), tool(&["llvm-readobj"]))
    else {
        return;
    };
    let folder = folder(name);
    let path = |name: &str| folder.join(name);
    fs::write(path("program.c"), PROGRAM).unwrap();
    let target = ["--target=x86_64-pc-windows-gnu", "-O1", "-ffreestanding", "-c", "-o"];
    done(Command::new(clang).args(target).arg(path("program.o")).arg(path("program.c")));
    let library = ImportLibrary::new(KERNEL, MachineType::AMD64, flavor).unwrap();
    library.write_to(&mut fs::File::create(path("kernel")).unwrap()).unwrap();
    done(Command::new(linker).args(flags).args(["program.o", "kernel"]).current_dir(&folder));
    let said = done(Command::new(reader).arg("--coff-imports").arg(path("program.exe")));
    let named: Vec<_> = said.lines().map(str::trim).filter(|line| line.contains(": ")).collect();
    assert!(named.contains(&"Name: kernel32.dll"), "{said}");
    let symbols: Vec<_> = named.iter().filter(|line| line.starts_with("Symbol: ")).collect();
    assert_eq!(symbols.len(), 2, "{said}");
    for symbol in ["Symbol: ExitProcess (0)", "Symbol: GetTickCount (0)"] {
        assert!(named.contains(&symbol), "{said}");
    }
    if let Some(wine) = tool(&["wine64", "/usr/lib/wine/wine64", "wine"]) {
        let mut run = Command::new(wine);
        run.arg(path("program.exe")).env("WINEPREFIX", path("wine")).env("WINEDEBUG", "-all");
        assert_eq!(run.output().unwrap().status.code(), Some(42));
        println!("{name}: the program runs");
    }
    fs::remove_dir_all(folder).ok();
}

#[test]
fn by_lld_link() {
    let flags = ["/entry:start", "/subsystem:console", "/nodefaultlib", "/out:program.exe"];
    linked("lld-link", Flavor::Msvc, &["lld-link", "lld-link-19", "lld-link-14"], &flags);
}

#[test]
fn by_gnu_ld() {
    let flags = ["-e", "start", "--subsystem", "console", "-o", "program.exe"];
    linked("ld", Flavor::Gnu, &["x86_64-w64-mingw32-ld"], &flags);
}

#[test]
fn by_ld_lld() {
    let flags = ["-m", "i386pep", "-e", "start", "--subsystem", "console", "-o", "program.exe"];
    linked("ld.lld", Flavor::Gnu, &["ld.lld", "ld.lld-19", "ld.lld-14"], &flags);
}
