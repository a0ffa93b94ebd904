//! What is wrong with a definition, and where.

use crate::c;
use std::fmt;
use std::io;

/// A place in a text.
#[derive(Debug, Clone, Copy, PartialEq, Eq)]
pub struct Position {
    /// The offset in bytes, from 0.
    pub offset: usize,
    /// The line, from 1.
    pub line: usize,
    /// The column in bytes, from 1.
    pub column: usize,
}

/// Why there is no library. The numbers are those of the statuses in `include/implib.h`.
#[derive(Debug, Clone, Copy, PartialEq, Eq)]
#[non_exhaustive]
#[repr(u32)]
pub enum Fault {
    /// An allocation failed.
    OutOfMemory = 2,
    /// The text is not UTF-8. No `&str` has this.
    NotUtf8 = 3,
    /// No machine has the number. No [`MachineType`](crate::MachineType) has this.
    UnknownMachine = 4,
    /// No flavour has the number. No [`Flavor`](crate::Flavor) has this.
    UnknownFlavor = 5,
    /// A statement begins with something that is no directive.
    UnknownDirective = 16,
    /// Something else is where an identifier was expected.
    ExpectedIdentifier = 17,
    /// Something else is where `=` was expected.
    ExpectedEqual = 18,
    /// An identifier is no number of the expected range.
    ExpectedInteger = 19,
    /// What follows the attribute `@` is no number of 16 bits.
    InvalidOrdinal = 20,
    /// The target of an export, after `=`, is `@`.
    LoneAt = 21,
    /// The name of the DLL is empty, or there is none.
    EmptyImportName = 22,
    /// The name of the DLL holds a NUL.
    NulInImportName = 23,
    /// The name of an export is empty.
    EmptyName = 24,
    /// One of the names of an export holds a NUL.
    NulInExport = 25,
    /// The name that an export asks the DLL for is empty.
    EmptyAskedName = 26,
    /// A member has more than 2^32 - 1 bytes.
    MemberTooLong = 27,
    /// No name type makes the name that an export asks for. No text has this.
    NoNameType = 28,
    /// The name of a member is empty.
    EmptyMemberName = 29,
    /// The name of a member holds a NUL.
    NulInMemberName = 30,
    /// The name of a member holds a line feed; for GNU's linker.
    LineEndInMemberName = 31,
    /// A symbol is empty.
    EmptySymbol = 32,
    /// A symbol holds a NUL.
    NulInSymbol = 33,
    /// There are 65,535 members or more; for Microsoft's linker.
    TooManyMembers = 34,
    /// A member would begin at an offset of 2^32 or more.
    ArchiveTooLong = 35,
    /// The library's own name is empty. No text has this.
    EmptyLibraryName = 36,
    /// The library's own name holds a NUL. No text has this.
    NulInLibraryName = 37,
    /// The library's own name holds a line feed. No text has this.
    LineEndInLibraryName = 38,
    /// No name of the DLL is given, of a library of delayed imports.
    NoDllName = 39,
    /// The machine has no code for delayed imports.
    DelayMachine = 51,
    /// An export is data or a constant, which cannot be delayed.
    DelayData = 52,
    /// An export is a weak name for another, which cannot be delayed.
    DelayAlias = 53,
    /// No text says what a definition made by hand holds, as a name that begins with white space.
    NoText = 0x8000_0000,
    /// The library that is linked has another version of its interface than this crate.
    OtherVersion = 0x8000_0001,
    /// The library has a status that this crate does not know.
    UnknownStatus = 0x8000_0002,
}

impl Fault {
    /// Each fault.
    pub const ALL: &'static [Fault] = &[
        Fault::OutOfMemory,
        Fault::NotUtf8,
        Fault::UnknownMachine,
        Fault::UnknownFlavor,
        Fault::UnknownDirective,
        Fault::ExpectedIdentifier,
        Fault::ExpectedEqual,
        Fault::ExpectedInteger,
        Fault::InvalidOrdinal,
        Fault::LoneAt,
        Fault::EmptyImportName,
        Fault::NulInImportName,
        Fault::EmptyName,
        Fault::NulInExport,
        Fault::EmptyAskedName,
        Fault::MemberTooLong,
        Fault::NoNameType,
        Fault::EmptyMemberName,
        Fault::NulInMemberName,
        Fault::LineEndInMemberName,
        Fault::EmptySymbol,
        Fault::NulInSymbol,
        Fault::TooManyMembers,
        Fault::ArchiveTooLong,
        Fault::EmptyLibraryName,
        Fault::NulInLibraryName,
        Fault::LineEndInLibraryName,
        Fault::NoDllName,
        Fault::DelayMachine,
        Fault::DelayData,
        Fault::DelayAlias,
        Fault::NoText,
        Fault::OtherVersion,
        Fault::UnknownStatus,
    ];

    /// The fault of a status.
    pub(crate) fn of_status(status: u32) -> Fault {
        let known = Fault::ALL.iter().copied().find(|fault| *fault as u32 == status);
        known.unwrap_or(Fault::UnknownStatus)
    }

    /// Whether the library says at which offset of the text it is.
    pub(crate) fn is_at_offset(self) -> bool {
        matches!(self as u32, 3 | 16..=21)
    }

    /// Whether the library says of which export it is.
    pub(crate) fn is_of_export(self) -> bool {
        matches!(self as u32, 24..=26 | 28)
    }

    /// Whether the text is a definition, of which no library is made.
    pub(crate) fn is_of_library(self) -> bool {
        matches!(self as u32, 22..=38)
    }
}

impl fmt::Display for Fault {
    fn fmt(&self, f: &mut fmt::Formatter<'_>) -> fmt::Result {
        match self {
            Fault::NoText => f.write_str("no definition says this"),
            Fault::OtherVersion => f.write_str("the library has another version"),
            Fault::UnknownStatus => f.write_str("unknown status"),
            status => f.write_str(&c::status_text(*status as u32)),
        }
    }
}

/// Why there is no library, with the place in the text or the export at fault, where there is one.
///
/// It is displayed as `LINE:COLUMN: fault` or as `fault (export INDEX)`. `?` makes an [`io::Error`] of it.
#[derive(Debug, Clone, PartialEq, Eq)]
pub struct Error {
    fault: Fault,
    position: Option<Position>,
    export: Option<usize>,
}

impl Error {
    pub(crate) fn new(fault: Fault) -> Error {
        Error { fault, position: None, export: None }
    }

    pub(crate) fn at(fault: Fault, position: Position) -> Error {
        Error { position: Some(position), ..Error::new(fault) }
    }

    pub(crate) fn of_export(fault: Fault, index: usize) -> Error {
        Error { export: Some(index), ..Error::new(fault) }
    }

    /// What is wrong.
    pub fn fault(&self) -> Fault {
        self.fault
    }

    /// The place of the token at which a text is refused.
    pub fn position(&self) -> Option<Position> {
        self.position
    }

    /// The index of the export at fault among all exports, private ones counted, from 0.
    pub fn export_index(&self) -> Option<usize> {
        self.export
    }
}

impl fmt::Display for Error {
    fn fmt(&self, f: &mut fmt::Formatter<'_>) -> fmt::Result {
        match (self.position, self.export) {
            (Some(Position { line, column, .. }), _) => write!(f, "{line}:{column}: {}", self.fault),
            (None, Some(index)) => write!(f, "{} (export {index})", self.fault),
            (None, None) => write!(f, "{}", self.fault),
        }
    }
}

impl std::error::Error for Error {}

impl From<Error> for io::Error {
    fn from(error: Error) -> io::Error {
        let kind = match error.fault {
            Fault::OutOfMemory => io::ErrorKind::OutOfMemory,
            Fault::OtherVersion | Fault::UnknownStatus => io::ErrorKind::Unsupported,
            _ => io::ErrorKind::InvalidInput,
        };
        io::Error::new(kind, error)
    }
}
