//! Libraries with a null descriptor of their own name.

use implib::{named, Fault, MachineType, Position};

fn has(library: &[u8], text: &[u8]) -> bool {
    library.windows(text.len()).any(|part| part == text)
}

#[test]
fn null_descriptor_is_named_after_the_library() {
    for machine in [MachineType::I386, MachineType::ARMNT, MachineType::AMD64, MachineType::ARM64] {
        let zoo = named::library("LIBRARY zoo.dll\nEXPORTS\nfeed", machine, None).unwrap();
        assert!(zoo.starts_with(b"!<arch>\n") && has(&zoo, b"\0__NULL_IMPORT_DESCRIPTOR_zoo\0"));
        let other = named::library("LIBRARY zoo.dll\nEXPORTS\nfeed", machine, Some("other.exe")).unwrap();
        assert!(has(&other, b"\0__NULL_IMPORT_DESCRIPTOR_other\0"));
        assert!(!has(&zoo, b"__NULL_IMPORT_DESCRIPTOR\0") && !has(&other, b"__NULL_IMPORT_DESCRIPTOR\0"));
    }
}

#[test]
fn faults_have_their_places() {
    let error = named::library("LIBRARY zoo\nEXPORTS\n\"\"", MachineType::AMD64, None).unwrap_err();
    assert_eq!(error.fault(), Fault::EmptyName);
    assert_eq!(error.position(), Some(Position { offset: 21, line: 3, column: 2 }));
    let error = named::library("EXPORTS\nfeed", MachineType::AMD64, None).unwrap_err();
    assert_eq!((error.fault(), error.position()), (Fault::NoDllName, None));
}
