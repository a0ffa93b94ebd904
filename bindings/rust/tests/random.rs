//! Random definitions, of the file that `IMPLIB_TEXTS` names: each is the length of its text, eight bytes with the low
//! one first, and the text. `checks/rust` makes some.

use implib::{Fault, Flavor, ImportLibrary, MachineType, ModuleDef};
use std::{env, fs, io};

/// The bytes of a library, or why there are none.
fn written(library: &ImportLibrary) -> Result<Vec<u8>, Fault> {
    let mut archive = Vec::new();
    match library.write_to(&mut archive) {
        Ok(()) => Ok(archive),
        Err(error) => Err(fault(&error)),
    }
}

fn fault(error: &io::Error) -> Fault {
    error.get_ref().unwrap().downcast_ref::<implib::Error>().unwrap().fault()
}

/// The texts of the file that are UTF-8.
fn texts(path: &str) -> Vec<String> {
    let bytes = fs::read(path).unwrap();
    let (mut rest, mut found) = (&bytes[..], Vec::new());
    while !rest.is_empty() {
        let (length, after) = rest.split_at(8);
        let (text, after) = after.split_at(u64::from_le_bytes(length.try_into().unwrap()) as usize);
        found.extend(String::from_utf8(text.to_vec()));
        rest = after;
    }
    found
}

/// Whether the fields that are read from a text make its library. Its name is that of the text.
fn is_read(text: &str, machine: MachineType, flavor: Flavor) -> bool {
    let library = match ImportLibrary::new(text, machine, flavor) {
        Ok(library) => library,
        Err(error) => {
            assert_eq!(ModuleDef::parse(text, machine), Err(error), "{text:?}");
            return false;
        }
    };
    let wanted = written(&library);
    let parsed = ModuleDef::parse(text, machine).unwrap();
    assert_eq!(parsed.import_name, library.import_name(), "{text:?}");
    let made = ImportLibrary::from_def(parsed, machine, flavor);
    assert_eq!(written(&made), wanted, "{text:?}, {machine:?}, {flavor:?}");
    wanted.is_ok()
}

#[test]
fn fields_of_random_texts() {
    let Ok(path) = env::var("IMPLIB_TEXTS") else {
        println!("skipped: no IMPLIB_TEXTS");
        return;
    };
    let texts = texts(&path);
    let mut made = 0;
    for text in &texts {
        for machine in [MachineType::I386, MachineType::ARMNT, MachineType::AMD64, MachineType::ARM64] {
            for flavor in [Flavor::Msvc, Flavor::Gnu] {
                made += usize::from(is_read(text, machine, flavor));
            }
        }
    }
    println!("{} random texts, {made} libraries: the same from their fields", texts.len());
}
