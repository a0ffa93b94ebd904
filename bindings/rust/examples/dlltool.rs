//! A small dlltool: what build tools call with `-m`, `-d` and `-l`, by the crate.
//!
//!     dlltool [-m MACHINE] -d FILE -l OUT
//!
//! The ending of OUT says whose linker the library is for, and the program's name the machine, where `-m` does not.

use implib::{Flavor, ImportLibrary, MachineType};
use std::process::ExitCode;
use std::{env, fs};

/// The machine of a name, as LLVM's and GNU's tools spell it.
fn machine(name: &str) -> Option<MachineType> {
    match name {
        "i386" => Some(MachineType::I386),
        "i386:x86-64" => Some(MachineType::AMD64),
        "arm" => Some(MachineType::ARMNT),
        "arm64" => Some(MachineType::ARM64),
        _ => None,
    }
}

fn run(words: &[String]) -> Result<(), String> {
    let [program, words @ ..] = words else { return Err("no name".to_owned()) };
    let is_i686 = program.rsplit('/').next().is_some_and(|name| name.starts_with("i686-"));
    let mut chosen = if is_i686 { MachineType::I386 } else { MachineType::AMD64 };
    let (mut definition, mut output) = (None, None);
    for pair in words.chunks(2) {
        match pair {
            [option, value] if option == "-m" => {
                chosen = machine(value).ok_or_else(|| format!("unknown machine {value}"))?
            }
            [option, value] if option == "-d" || option == "--input-def" => definition = Some(value),
            [option, value] if option == "-l" || option == "--output-lib" => output = Some(value),
            _ => return Err(format!("unknown option {}", pair[0])),
        }
    }
    let (Some(definition), Some(output)) = (definition, output) else {
        return Err("usage: dlltool [-m MACHINE] -d FILE -l OUT".to_owned());
    };
    let flavor = if output.ends_with(".lib") { Flavor::Msvc } else { Flavor::Gnu };
    let text = fs::read_to_string(definition).map_err(|error| format!("{definition}: {error}"))?;
    let library = ImportLibrary::new(&text, chosen, flavor).map_err(|error| format!("{definition}:{error}"))?;
    let mut archive = Vec::new();
    library.write_to(&mut archive).map_err(|error| format!("{definition}: {error}"))?;
    fs::write(output, archive).map_err(|error| format!("{output}: {error}"))
}

fn main() -> ExitCode {
    let words: Vec<String> = env::args().collect();
    match run(&words) {
        Ok(()) => ExitCode::SUCCESS,
        Err(said) => {
            eprintln!("dlltool: {said}");
            ExitCode::FAILURE
        }
    }
}
