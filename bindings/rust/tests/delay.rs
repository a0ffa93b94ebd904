//! Libraries of delayed imports.

use implib::{delay, Fault, MachineType, Position};

#[test]
fn library_is_an_archive_of_the_dll() {
    for machine in [MachineType::AMD64, MachineType::I386] {
        let own = delay::library("LIBRARY zoo.dll\nEXPORTS\nfeed", machine, None).unwrap();
        let given = delay::library("EXPORTS\nfeed", machine, Some("zoo.dll")).unwrap();
        assert!(own.starts_with(b"!<arch>\n") && own.windows(8).any(|part| part == b"zoo.dll\0"));
        assert_eq!(own, given);
        let other = delay::library("LIBRARY zoo.dll\nEXPORTS\nfeed", machine, Some("other.dll")).unwrap();
        assert_ne!(own, other);
        // data is left out, but the names of members and symbols are made of all exports
        let rest = delay::library("LIBRARY zoo\nEXPORTS\nfeed\ncount DATA", machine, None).unwrap();
        assert!(rest.len() == own.len() && !rest.windows(5).any(|part| part == b"count"));
    }
}

#[test]
fn what_cannot_be_delayed_is_refused() {
    let faults = [
        ("LIBRARY zoo\nEXPORTS\n\"\"", MachineType::I386, Fault::EmptyAskedName, Some((21, 3, 2))),
        ("LIBRARY zoo\nEXPORTS\n\"\"", MachineType::AMD64, Fault::EmptyName, Some((21, 3, 2))),
        ("LIBRARY zoo\nOTHER", MachineType::I386, Fault::UnknownDirective, Some((12, 2, 1))),
        ("LIBRARY zoo\nEXPORTS\nfeed", MachineType::ARM64, Fault::DelayMachine, None),
        ("EXPORTS\nfeed", MachineType::AMD64, Fault::NoDllName, None),
    ];
    for (text, machine, fault, place) in faults {
        let error = delay::library(text, machine, None).unwrap_err();
        let position = place.map(|(offset, line, column)| Position { offset, line, column });
        assert_eq!((error.fault(), error.position(), error.export_index()), (fault, position, None), "{text}");
    }
}
