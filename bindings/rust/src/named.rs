//! Libraries for Microsoft's linkers whose null descriptor is named after the library, so that a link of whole archives
//! (`/WHOLEARCHIVE`) does not define one symbol twice. The writer of rustc has this under `whole_archive_compat`.
//!
//! They are those of the program `implib_dlltool` but for this symbol, and go by its rules (`docs/DLLTOOL.md`).

use crate::c;
use crate::delay::library_by;
use crate::error::Error;
use crate::MachineType;

/// The library of a module definition, as the bytes of a file `.lib`, with `__NULL_IMPORT_DESCRIPTOR_NAME` for
/// `__NULL_IMPORT_DESCRIPTOR`, by the library's name without `.dll` or `.exe`.
///
/// `dll` is the name of the DLL, before the definition's own.
///
/// # Errors
///
/// The first fault of the text; a fault of an export has the position of its name.
pub fn library(def: &str, machine: MachineType, dll: Option<&str>) -> Result<Vec<u8>, Error> {
    library_by(def, |buffer| c::named(def.as_bytes(), machine as u16, dll.map(str::as_bytes), buffer))
}
