//! Each fault that a text or a definition can have, with its place and its text.

use implib::{Error, Fault, Flavor, ImportLibrary, MachineType, ModuleDef, Position, ShortExport};
use std::io;

const ZOO: &str = "LIBRARY zoo.dll\nEXPORTS\n";

/// Why the library of a text is not written. Nothing is written then.
fn refused(library: &ImportLibrary) -> Error {
    let mut archive = Vec::new();
    let error = library.write_to(&mut archive).unwrap_err();
    assert_eq!((error.kind(), archive.len()), (io::ErrorKind::InvalidInput, 0));
    error.get_ref().unwrap().downcast_ref::<Error>().unwrap().clone()
}

fn of_text(text: &str, machine: MachineType, flavor: Flavor) -> Error {
    refused(&ImportLibrary::new(text, machine, flavor).unwrap())
}

#[test]
fn syntax_errors() {
    let faults = [
        ("LIBRARY zoo.dll\n  OTHER", Fault::UnknownDirective, (18, 2, 3), "unknown directive"),
        ("LIBRARY zoo.dll\nEXPORTS\nfeed ==", Fault::ExpectedIdentifier, (31, 3, 8), "expected identifier"),
        ("LIBRARY zoo.dll BASE 5", Fault::ExpectedEqual, (21, 1, 22), "expected equal"),
        ("HEAPSIZE x", Fault::ExpectedInteger, (9, 1, 10), "expected integer"),
        ("LIBRARY zoo.dll\nEXPORTS\nfeed @ x", Fault::InvalidOrdinal, (31, 3, 8), "invalid ordinal"),
        ("LIBRARY zoo.dll\nEXPORTS\nfeed = @", Fault::LoneAt, (31, 3, 8), "lone @ after ="),
    ];
    for (text, fault, (offset, line, column), said) in faults {
        for flavor in [Flavor::Msvc, Flavor::Gnu] {
            let error = ImportLibrary::new(text, MachineType::AMD64, flavor).unwrap_err();
            assert_eq!((error.fault(), error.export_index()), (fault, None));
            assert_eq!(error.position(), Some(Position { offset, line, column }));
            assert_eq!(error.to_string(), format!("{line}:{column}: {said}"));
            assert_eq!(ModuleDef::parse(text, MachineType::AMD64).unwrap_err(), error);
        }
    }
}

#[test]
fn faults_of_a_definition() {
    let amd64 = MachineType::AMD64;
    let faults = [
        (String::new(), amd64, Fault::EmptyImportName, None, "import name is empty"),
        ("EXPORTS feed".to_owned(), amd64, Fault::EmptyImportName, None, "import name is empty"),
        ("LIBRARY \"z\0o.dll\"".to_owned(), amd64, Fault::NulInImportName, None, "import name contains null byte"),
        (format!("{ZOO}feed\n\"\""), amd64, Fault::EmptyName, Some(1), "export name is empty (export 1)"),
        (
            format!("{ZOO}a PRIVATE\nb\n\"c\0\""),
            amd64,
            Fault::NulInExport,
            Some(2),
            "export name contains null byte (export 2)",
        ),
        (
            format!("{ZOO}a\nb\nc\n\"\""),
            MachineType::I386,
            Fault::EmptyAskedName,
            Some(3),
            "asked name is empty (export 3)",
        ),
    ];
    for (text, machine, fault, export, said) in faults {
        for flavor in [Flavor::Msvc, Flavor::Gnu] {
            let error = of_text(&text, machine, flavor);
            assert_eq!((error.fault(), error.export_index(), error.position()), (fault, export, None));
            assert_eq!(error.to_string(), said);
        }
        let parsed = ModuleDef::parse(&text, machine).unwrap();
        let error = refused(&ImportLibrary::from_def(parsed, machine, Flavor::Msvc));
        assert_eq!((error.fault(), error.export_index()), (fault, export));
    }
}

#[test]
fn members_without_an_archive() {
    let text = "LIBRARY \"a\nb.dll\"\nEXPORTS\nbar";
    let error = of_text(text, MachineType::AMD64, Flavor::Gnu);
    assert_eq!(error.fault(), Fault::LineEndInMemberName);
    assert_eq!(error.to_string(), "member name contains line end");
    let library = ImportLibrary::new(text, MachineType::AMD64, Flavor::Msvc).unwrap();
    library.write_to(&mut io::sink()).unwrap();
    // Three members are those of the DLL.
    for (count, fault) in [(65_531, None), (65_532, Some(Fault::TooManyMembers))] {
        let exports: String = (0..count).map(|number| format!("a{number}\n")).collect();
        let text = format!("LIBRARY a.dll\nEXPORTS\n{exports}");
        let library = ImportLibrary::new(&text, MachineType::AMD64, Flavor::Msvc).unwrap();
        match fault {
            None => library.write_to(&mut io::sink()).unwrap(),
            Some(fault) => assert_eq!(refused(&library).fault(), fault),
        }
    }
}

/// The text of each fault, also of those that no text has, as `include/implib.h` orders them.
#[test]
fn texts() {
    let texts = [
        "out of memory",
        "input is not UTF-8",
        "unknown machine",
        "unknown flavour",
        "unknown directive",
        "expected identifier",
        "expected equal",
        "expected integer",
        "invalid ordinal",
        "lone @ after =",
        "import name is empty",
        "import name contains null byte",
        "export name is empty",
        "export name contains null byte",
        "asked name is empty",
        "member too long",
        "no name type for the asked name",
        "member name is empty",
        "member name contains null byte",
        "member name contains line end",
        "symbol is empty",
        "symbol contains null byte",
        "too many members",
        "archive too long",
        "library name is empty",
        "library name contains null byte",
        "library name contains line end",
        "no name of the DLL",
        "no delayed imports on machine",
        "data cannot be delayed",
        "alias cannot be delayed",
        "no definition says this",
        "the library has another version",
        "unknown status",
    ];
    let said: Vec<_> = Fault::ALL.iter().map(Fault::to_string).collect();
    assert_eq!(said, texts);
}

#[test]
fn faults_of_exports_made_by_hand() {
    let named = |name: &str| ShortExport { name: name.to_owned(), ..ShortExport::default() };
    let of = |machine, flavor, export: ShortExport| {
        let exports = vec![named("_first"), export];
        let def = ModuleDef { import_name: "zoo.dll".to_owned(), exports, ..ModuleDef::default() };
        let error = refused(&ImportLibrary::from_def(def, machine, flavor));
        assert_eq!(error.export_index(), Some(1));
        error.fault()
    };
    for machine in [MachineType::I386, MachineType::AMD64] {
        for flavor in [Flavor::Msvc, Flavor::Gnu] {
            // The `@` keeps them as they are on I386.
            for name in [" f@", "f@\n", "\"f@", "f\"@\t0", "f\"@=", "\u{3000}f@"] {
                assert_eq!(of(machine, flavor, named(name)), Fault::NoText, "{name:?}");
                let alias = ShortExport { alias_target: name.to_owned(), ..named("_shut") };
                assert_eq!(of(machine, flavor, alias), Fault::NoText);
            }
            let symbol = ShortExport { symbol_name: "_f@8".to_owned(), ..named("_f") };
            assert_eq!(of(machine, flavor, symbol), Fault::NoText);
            assert_eq!(of(machine, flavor, named("")), Fault::EmptyName);
            let nameless = ShortExport { ext_name: Some(String::new()), ..named("_f") };
            assert_eq!(of(machine, flavor, nameless), Fault::EmptyName);
            assert_eq!(of(machine, flavor, named("_f\0")), Fault::NulInExport);
            let alias = ShortExport { alias_target: "\0".to_owned(), ..named("_f") };
            assert_eq!(of(machine, flavor, alias), Fault::NulInExport);
        }
    }
    // On I386 a word of a text gets an underscore.
    assert_eq!(of(MachineType::I386, Flavor::Gnu, named("feed")), Fault::NoText);
    assert_eq!(of(MachineType::I386, Flavor::Gnu, named("_?feed")), Fault::NoText);
    assert_eq!(of(MachineType::I386, Flavor::Gnu, named("_")), Fault::EmptyAskedName);
    for (name, fault) in [("", Fault::EmptyImportName), ("a\0", Fault::NulInImportName), ("a ", Fault::NoText)] {
        let def = ModuleDef { import_name: name.to_owned(), exports: vec![named(" ")], ..ModuleDef::default() };
        assert_eq!(refused(&ImportLibrary::from_def(def, MachineType::AMD64, Flavor::Msvc)).fault(), fault);
    }
}

#[test]
fn an_error_of_io_has_the_fault() {
    let made = || -> io::Result<ImportLibrary> { Ok(ImportLibrary::new("FOO", MachineType::AMD64, Flavor::Gnu)?) };
    let error = made().unwrap_err();
    assert_eq!(
        (error.kind(), error.to_string()),
        (io::ErrorKind::InvalidInput, "1:1: unknown directive".to_owned())
    );
}
