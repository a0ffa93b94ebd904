//! Libraries by which a DLL is loaded at the first call of one of its functions, for GNU's linker, on AMD64 and I386.
//!
//! They are those of the program `implib_dlltool`, by `-y`, and go by its rules (`docs/DLLTOOL.md`); the crate `implib`
//! 0.4.0 has nothing like them. A program that is linked with one needs mingw-w64's `libdelayimp`.

use crate::c;
use crate::error::{Error, Fault};
use crate::MachineType;

const SUCCESS: u32 = 0;
const BUFFER_TOO_SMALL: u32 = 1;

/// The library of delayed imports of a module definition, as the bytes of a file `.a`.
///
/// `dll` is the name of the DLL, before the definition's own. Functions alone can be delayed.
///
/// # Errors
///
/// The first fault of the text; a fault of an export has the position of its name.
pub fn library(def: &str, machine: MachineType, dll: Option<&str>) -> Result<Vec<u8>, Error> {
    library_by(def, |buffer| c::delayed(def.as_bytes(), machine as u16, dll.map(str::as_bytes), buffer))
}

/// What a call puts into a buffer of its length, which a first call with none tells.
pub(crate) fn library_by(
    def: &str,
    call: impl Fn(&mut [u8]) -> (u32, usize, usize),
) -> Result<Vec<u8>, Error> {
    if c::version() != c::VERSION {
        return Err(Error::new(Fault::OtherVersion));
    }
    let length = match call(&mut []) {
        (SUCCESS | BUFFER_TOO_SMALL, length, _) => length,
        (status, _, place) => return Err(error(def, status, place)),
    };
    let mut bytes = Vec::new();
    if bytes.try_reserve_exact(length).is_err() {
        return Err(Error::new(Fault::OutOfMemory));
    }
    bytes.resize(length, 0);
    match call(&mut bytes) {
        (SUCCESS, _, _) => Ok(bytes),
        (status, _, place) => Err(error(def, status, place)),
    }
}

/// What a status says of a text.
fn error(def: &str, status: u32, place: usize) -> Error {
    match Fault::of_status(status) {
        fault @ (Fault::DelayData | Fault::DelayAlias) => Error::at(fault, c::position(def.as_bytes(), place)),
        fault if fault.is_at_offset() || fault.is_of_export() => {
            Error::at(fault, c::position(def.as_bytes(), place))
        }
        fault => Error::new(fault),
    }
}
