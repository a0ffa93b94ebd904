//! Each public call once where it succeeds, and definitions that come from fields.

use implib::{Flavor, ImportLibrary, MachineType, ModuleDef, ShortExport};
use std::io::{self, Write};

const MACHINES: [MachineType; 4] = [MachineType::I386, MachineType::ARMNT, MachineType::AMD64, MachineType::ARM64];
const FLAVORS: [Flavor; 2] = [Flavor::Msvc, Flavor::Gnu];
const ZOO: &str =
    "LIBRARY zoo.dll\nEXPORTS\nfeed\nkeepers DATA\nnight @7 NONAME\nshut == close\nsize @3 CONSTANT\n";

/// The bytes of a library.
fn written(library: &ImportLibrary) -> Vec<u8> {
    let mut archive = Vec::new();
    library.write_to(&mut archive).unwrap();
    archive
}

fn of_text(text: &str, machine: MachineType, flavor: Flavor) -> Vec<u8> {
    written(&ImportLibrary::new(text, machine, flavor).unwrap())
}

fn export(name: &str) -> ShortExport {
    ShortExport { name: name.to_owned(), ..ShortExport::default() }
}

fn zoo(exports: Vec<ShortExport>) -> ModuleDef {
    ModuleDef { import_name: "zoo.dll".to_owned(), exports, ..ModuleDef::default() }
}

#[test]
fn text_makes_an_archive() {
    // The short import of bar, of foo.dll, by the PE/COFF specification, "Import Library Format".
    let short_import = b"\0\0\xff\xff\0\0\x64\x86\0\0\0\0\x0c\0\0\0\0\0\x04\0bar\0foo.dll\0";
    let text = "LIBRARY foo.dll\nEXPORTS\nbar\n";
    let archive = of_text(text, MachineType::AMD64, Flavor::Msvc);
    assert!(archive.starts_with(b"!<arch>\n") && archive.ends_with(short_import));
    // In GNU's there is none, and the import table's entry has a symbol.
    let archive = of_text(text, MachineType::AMD64, Flavor::Gnu);
    assert!(archive.starts_with(b"!<arch>\n") && !archive.windows(4).any(|bytes| bytes == b"\0\0\xff\xff"));
    assert!(archive.windows(10).any(|bytes| bytes == b"__imp_bar\0"));
}

#[test]
fn numbers_are_those_of_the_specification() {
    assert_eq!(MACHINES.map(|machine| machine as u16), [0x14C, 0x1C4, 0x8664, 0xAA64]);
    for machine in MACHINES {
        let archive = of_text("LIBRARY foo.dll\nEXPORTS\nbar", machine, Flavor::Msvc);
        let short_import = [&b"\0\0\xff\xff\0\0"[..], &(machine as u16).to_le_bytes()].concat();
        assert!(archive.windows(8).any(|bytes| bytes == short_import));
    }
}

#[test]
fn import_name_is_that_of_the_definition() {
    for flavor in FLAVORS {
        let library =
            ImportLibrary::new("NAME a.dll\nLIBRARY \" zoo.dll\"\nEXPORTS\nfeed", MachineType::ARM64, flavor);
        assert_eq!(library.unwrap().import_name(), "zoo.dll");
        let unnamed = ImportLibrary::new("EXPORTS\nfeed", MachineType::ARM64, flavor);
        assert_eq!(unnamed.unwrap().import_name(), "");
        let made = ImportLibrary::from_def(zoo(vec![export("")]), MachineType::I386, flavor);
        assert_eq!(made.import_name(), "zoo.dll");
    }
}

#[test]
fn a_library_is_written_twice() {
    let library = ImportLibrary::new(ZOO, MachineType::AMD64, Flavor::Gnu).unwrap();
    assert_eq!(written(&library), written(&library.clone()));
    let writer: &mut dyn Write = &mut io::sink();
    library.write_to(writer).unwrap();
}

#[test]
fn a_writer_that_fails_is_told() {
    let library = ImportLibrary::new(ZOO, MachineType::AMD64, Flavor::Msvc).unwrap();
    let mut short = [0; 100];
    let error = library.write_to(&mut &mut short[..]).unwrap_err();
    assert_eq!(error.kind(), io::ErrorKind::WriteZero);
}

#[test]
fn fields_of_a_text() {
    let parsed = ModuleDef::parse(&format!("{ZOO}old PRIVATE\nswim = dive\n"), MachineType::AMD64).unwrap();
    let wanted = vec![
        export("feed"),
        ShortExport { data: true, ..export("keepers") },
        ShortExport { ordinal: 7, no_name: true, ..export("night") },
        ShortExport { alias_target: "close".to_owned(), ..export("shut") },
        ShortExport { ordinal: 3, constant: true, ..export("size") },
        ShortExport { private: true, ..export("old") },
        ShortExport { ext_name: Some("swim".to_owned()), ..export("dive") },
    ];
    assert_eq!(parsed, zoo(wanted));
    let numbers = "LIBRARY zoo.dll BASE=4294967296\nSTACKSIZE 1,2\nHEAPSIZE 3,4\nVERSION 5.6";
    let wanted = ModuleDef {
        image_base: 1 << 32,
        stack_reserve: 1,
        stack_commit: 2,
        heap_reserve: 3,
        heap_commit: 4,
        major_image_version: 5,
        minor_image_version: 6,
        ..zoo(vec![])
    };
    assert_eq!(ModuleDef::parse(numbers, MachineType::AMD64), Ok(wanted));
    // On I386 a symbol has the underscore of C; a name of eight bytes is in its symbol's record, or in the strings.
    let parsed = ModuleDef::parse("LIBRARY zoo.dll\nEXPORTS\na == seventyy\n@b@4\n?c", MachineType::I386).unwrap();
    let a = ShortExport { alias_target: "seventyy".to_owned(), ..export("_a") };
    assert_eq!(parsed, zoo(vec![a, export("@b@4"), export("?c")]));
}

#[test]
fn a_definition_without_a_name_gets_one() {
    for text in ["EXPORTS\nfeed", "LIBRARY\nEXPORTS\nfeed", "LIBRARY a.dll\nNAME\nEXPORTS\nfeed ; the animals"] {
        let mut parsed = ModuleDef::parse(text, MachineType::AMD64).unwrap();
        assert_eq!(parsed, ModuleDef { import_name: String::new(), ..zoo(vec![export("feed")]) });
        parsed.import_name = "zoo.dll".to_owned();
        for flavor in FLAVORS {
            let library = ImportLibrary::from_def(parsed.clone(), MachineType::AMD64, flavor);
            let wanted = of_text("LIBRARY zoo.dll\nEXPORTS\nfeed", MachineType::AMD64, flavor);
            assert_eq!(written(&library), wanted);
        }
    }
}

#[test]
fn parsed_definitions_make_the_library_of_their_text() {
    let texts = [
        ZOO,
        "LIBRARY \"the zoo.dll\"\nEXPORTS\nf@8\n@f@8\n_f\n__f\n?c\n?f@@YAXXZ\n_f@8 == g @5\n",
        "LIBRARY a.exe\nEXPORTS \"DATA\" \"a b\" x\"y \"@5\"\nEXPORTS \"@5\" a;b\nb, c = d PRIVATE\n",
        "LIBRARY a\nEXPORTS\na == a\nb == \"@\" NONAME",
        "EXPORTS a @ 0 NONAME b @65535 c == \"d e\" DATA\nNAME ..dll\nVERSION 1.2",
        "LIBRARY \u{df}.dll\nEXPORTS\n\u{e9}t\u{e9}\n\"a\u{2003}b\" a\u{c}b\n",
        "LIBRARY a.dll\n",
    ];
    let mut made = 0;
    for text in texts {
        for machine in MACHINES {
            let parsed = match ModuleDef::parse(text, machine) {
                Ok(parsed) => parsed,
                Err(error) => {
                    assert_eq!(ImportLibrary::new(text, machine, Flavor::Msvc).unwrap_err(), error);
                    continue;
                }
            };
            for flavor in FLAVORS {
                let library = ImportLibrary::from_def(parsed.clone(), machine, flavor);
                assert_eq!(written(&library), of_text(text, machine, flavor), "{text}, {machine:?}, {flavor:?}");
                made += 1;
            }
        }
    }
    assert!(made >= 40, "{made} libraries");
}

#[test]
fn exports_made_by_hand() {
    let renamed = ShortExport { ext_name: Some("swim".to_owned()), ..export("dive") };
    let symbol = ShortExport { symbol_name: "feed".to_owned(), ..export("feed") };
    let private = ShortExport { private: true, ..export(" \" ") };
    let all = zoo(vec![renamed, private, symbol, ShortExport { ordinal: 4, data: true, ..export("@4") }]);
    for flavor in FLAVORS {
        let wanted =
            of_text("LIBRARY zoo.dll\nEXPORTS\nswim\nfeed\nEXPORTS @4 @4 DATA", MachineType::AMD64, flavor);
        assert_eq!(written(&ImportLibrary::from_def(all.clone(), MachineType::AMD64, flavor)), wanted);
    }
    // The numbers are in no library.
    let numbers = ModuleDef { image_base: 5, stack_reserve: 6, heap_commit: 7, ..zoo(vec![export("_feed")]) };
    let wanted = of_text("LIBRARY zoo.dll\nEXPORTS\nfeed", MachineType::I386, Flavor::Gnu);
    assert_eq!(written(&ImportLibrary::from_def(numbers, MachineType::I386, Flavor::Gnu)), wanted);
}

#[test]
fn names_of_two_libraries_differ_and_nothing_else() {
    let one = of_text("LIBRARY ab.dll\nEXPORTS\nf", MachineType::AMD64, Flavor::Msvc);
    let other = of_text("LIBRARY cd.dll\nEXPORTS\nf", MachineType::AMD64, Flavor::Msvc);
    assert_eq!(one.len(), other.len());
    assert_ne!(one, other);
}
