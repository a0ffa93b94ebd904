//! What a DLL exports, and what the imports of a library come to in it, by the bytes of the files. Nothing in them is
//! trusted: any other file is refused, with the offset of the field at fault.

use crate::c;
use crate::read::{bytes, number};
use std::fmt;

/// Statuses of the header.
const SUCCESS: u32 = 0;
const BUFFER_TOO_SMALL: u32 = 1;
const OUT_OF_MEMORY: u32 = 2;
const NOT_A_LIBRARY: u32 = 46;
const NOT_AN_IMAGE: u32 = 48;
const NO_EXPORT_DIRECTORY: u32 = 49;

/// A DLL.
#[derive(Debug, Clone, PartialEq, Eq)]
pub struct Dll {
    /// Its machine, by its number in the PE/COFF specification, "Machine Types".
    pub machine: u16,
    /// The name that its export directory gives it.
    pub name: Vec<u8>,
    /// The entries of its export address table, in their order.
    pub exports: Vec<Export>,
}

/// An entry of an export address table.
#[derive(Debug, Clone, PartialEq, Eq)]
pub struct Export {
    /// Its ordinal.
    pub ordinal: u32,
    /// What it leads to.
    pub target: Target,
    /// Its names, in the order of the name table: none, one, or several.
    pub names: Vec<Vec<u8>>,
}

/// What an ordinal leads to. Addresses are from the image's base.
#[derive(Debug, Clone, PartialEq, Eq)]
#[non_exhaustive]
pub enum Target {
    /// Nothing: no export has this ordinal.
    Empty,
    /// An address in a section that may be executed.
    Code(u32),
    /// An address in another section.
    Data(u32),
    /// An address in no section.
    Outside(u32),
    /// An export of another DLL, as `NTDLL.RtlAllocateHeap` or `NTDLL.#27`.
    Forwarder(Vec<u8>),
}

/// Why nothing is read of a file.
#[derive(Debug, Clone, Copy, PartialEq, Eq)]
#[non_exhaustive]
pub enum Refusal {
    /// It is no PE32 or PE32+ image, or a part of it is cut: the offset of the field for which it is none.
    NotAnImage(usize),
    /// The image has no export directory.
    NoExportDirectory,
    /// The library is no archive, or a thin one.
    NotALibrary,
    /// An allocation failed.
    OutOfMemory,
    /// The library that is linked has another version of its interface than this crate.
    OtherVersion,
    /// The library has a status, or an encoding, that this crate does not know.
    Unknown,
}

impl fmt::Display for Refusal {
    fn fmt(&self, f: &mut fmt::Formatter<'_>) -> fmt::Result {
        match self {
            Refusal::NotAnImage(offset) => write!(f, "not an image (offset {offset})"),
            Refusal::NoExportDirectory => f.write_str("no export directory"),
            Refusal::NotALibrary => f.write_str("not a library"),
            Refusal::OutOfMemory => f.write_str("out of memory"),
            Refusal::OtherVersion => f.write_str("the library has another version"),
            Refusal::Unknown => f.write_str("unknown status"),
        }
    }
}

impl std::error::Error for Refusal {}

impl Dll {
    /// What the DLL in a file exports, by the bytes of the file, in time linear in their number.
    ///
    /// # Errors
    ///
    /// The file's first fault, as [`Refusal`] has it.
    pub fn read(file: &[u8]) -> Result<Dll, Refusal> {
        let encoding = encoded(|buffer| c::exports(file, buffer))?;
        dll_in(&encoding).ok_or(Refusal::Unknown)
    }
}

/// What a member of a library comes to in a DLL.
#[derive(Debug, Clone, Copy, PartialEq, Eq)]
#[non_exhaustive]
pub enum Found {
    /// It imports nothing.
    NoImport,
    /// A loader finds the name at its hint, or the ordinal.
    AtOnce,
    /// A loader finds the name elsewhere, by a search.
    BySearch,
    /// Lost: the import is of another DLL.
    OtherDll,
    /// Lost: it is for another machine than the DLL.
    OtherMachine,
    /// Lost: a loader finds nothing.
    NotExported,
    /// Lost: the DLL has data there, into which a function's stub would jump.
    DataAsFunction,
}

impl Found {
    /// Whether it is that of an import with which a program does not start, or jumps into data.
    pub fn is_lost(self) -> bool {
        !matches!(self, Found::NoImport | Found::AtOnce | Found::BySearch)
    }
}

/// What a library comes to in a DLL.
#[derive(Debug, Clone, PartialEq, Eq)]
pub struct Check {
    /// What each of its members comes to, in their order.
    pub members: Vec<Found>,
    /// The exports of the DLL that no import asks for: their places in [`Dll::exports`].
    pub unasked: Vec<usize>,
}

impl Check {
    /// Looks up each import of a library, of any maker, in the DLL of a file, as a loader does; forwarders are not
    /// followed. Imports have to name the DLL by this name, which is without a folder, in letters of any case; where
    /// it is empty, by the one that its export directory has.
    ///
    /// # Errors
    ///
    /// The first fault of the library and then of the file, as [`Refusal`] has it.
    pub fn of(library: &[u8], file: &[u8], name: &[u8]) -> Result<Check, Refusal> {
        let encoding = encoded(|buffer| c::check_dll(library, file, name, buffer))?;
        check_in(&encoding).ok_or(Refusal::Unknown)
    }
}

/// The encoding that a call of the library puts into a buffer.
fn encoded(call: impl Fn(&mut [u8]) -> (u32, usize, usize)) -> Result<Vec<u8>, Refusal> {
    if c::version() != c::VERSION {
        return Err(Refusal::OtherVersion);
    }
    let length = match call(&mut []) {
        (SUCCESS | BUFFER_TOO_SMALL, length, _) => length,
        (status, _, place) => return Err(refusal(status, place)),
    };
    let mut encoding = Vec::new();
    if encoding.try_reserve_exact(length).is_err() {
        return Err(Refusal::OutOfMemory);
    }
    encoding.resize(length, 0);
    match call(&mut encoding) {
        (SUCCESS, _, _) => Ok(encoding),
        (status, _, place) => Err(refusal(status, place)),
    }
}

/// The check of an encoding.
fn check_in(mut rest: &[u8]) -> Option<Check> {
    let rest = &mut rest;
    let mut check = Check { members: Vec::new(), unasked: Vec::new() };
    for _ in 0..number(rest)? {
        check.members.push(match number(rest)? {
            0 => Found::NoImport,
            1 => Found::AtOnce,
            2 => Found::BySearch,
            3 => Found::OtherDll,
            4 => Found::OtherMachine,
            5 => Found::NotExported,
            6 => Found::DataAsFunction,
            _ => return None,
        });
    }
    for _ in 0..number(rest)? {
        check.unasked.push(number(rest)?.try_into().ok()?);
    }
    Some(check)
}

/// What a status says of a file.
fn refusal(status: u32, place: usize) -> Refusal {
    match status {
        NOT_AN_IMAGE => Refusal::NotAnImage(place),
        NO_EXPORT_DIRECTORY => Refusal::NoExportDirectory,
        NOT_A_LIBRARY => Refusal::NotALibrary,
        OUT_OF_MEMORY => Refusal::OutOfMemory,
        _ => Refusal::Unknown,
    }
}

/// The DLL of an encoding.
fn dll_in(mut rest: &[u8]) -> Option<Dll> {
    let rest = &mut rest;
    let mut dll = Dll { machine: number(rest)?.try_into().ok()?, name: bytes(rest)?, exports: Vec::new() };
    for _ in 0..number(rest)? {
        dll.exports.push(export(rest)?);
    }
    Some(dll)
}

/// The entry at the front of an encoding.
fn export(rest: &mut &[u8]) -> Option<Export> {
    let ordinal = number(rest)?.try_into().ok()?;
    let kind = number(rest)?;
    let address = number(rest)?.try_into().ok()?;
    let forwarder = bytes(rest)?;
    let target = match kind {
        0 => Target::Empty,
        1 => Target::Code(address),
        2 => Target::Data(address),
        3 => Target::Outside(address),
        4 => Target::Forwarder(forwarder),
        _ => return None,
    };
    let mut names = Vec::new();
    for _ in 0..number(rest)? {
        names.push(bytes(rest)?);
    }
    Some(Export { ordinal, target, names })
}
