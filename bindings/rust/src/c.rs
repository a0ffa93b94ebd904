//! The library for C, as `include/implib.h` declares it. All of this crate that is unsafe is here.
//!
//! The functions of the library take no null pointer. Those of slices and references are none.

#![allow(unsafe_code)]

use crate::error::{Error, Fault, Position};
use crate::{Flavor, MachineType};

/// `IMPLIB_VERSION` of the header that this file was written for.
pub(crate) const VERSION: u32 = 14;

/// `IMPLIB_STATUS_TEXT_SIZE`: no text of a status is longer, its NUL counted.
const STATUS_TEXT_SIZE: usize = 32;

const SUCCESS: u32 = 0;
const BUFFER_TOO_SMALL: u32 = 1;

extern "C" {
    fn implib_version() -> u32;

    fn implib_library_nonnull(
        text: *const u8,
        text_length: usize,
        machine: u16,
        flavor: u32,
        buffer: *mut u8,
        buffer_length: usize,
        length: *mut usize,
        place: *mut usize,
    ) -> u32;

    fn implib_delayed_library_nonnull(
        text: *const u8,
        text_length: usize,
        dll: *const u8,
        dll_length: usize,
        has_dll: u32,
        machine: u16,
        flavor: u32,
        flags: u32,
        buffer: *mut u8,
        buffer_length: usize,
        length: *mut usize,
        place: *mut usize,
    ) -> u32;

    fn implib_named_library_nonnull(
        text: *const u8,
        text_length: usize,
        dll: *const u8,
        dll_length: usize,
        has_dll: u32,
        machine: u16,
        flavor: u32,
        flags: u32,
        buffer: *mut u8,
        buffer_length: usize,
        length: *mut usize,
        place: *mut usize,
    ) -> u32;

    fn implib_definition_nonnull(
        text: *const u8,
        text_length: usize,
        machine: u16,
        buffer: *mut u8,
        buffer_length: usize,
        length: *mut usize,
        place: *mut usize,
    ) -> u32;

    fn implib_exports_nonnull(
        bytes: *const u8,
        bytes_length: usize,
        buffer: *mut u8,
        buffer_length: usize,
        length: *mut usize,
        place: *mut usize,
    ) -> u32;

    fn implib_check_dll_nonnull(
        bytes: *const u8,
        bytes_length: usize,
        dll: *const u8,
        dll_length: usize,
        name: *const u8,
        name_length: usize,
        buffer: *mut u8,
        buffer_length: usize,
        length: *mut usize,
        place: *mut usize,
    ) -> u32;

    fn implib_position_nonnull(
        text: *const u8,
        text_length: usize,
        offset: usize,
        line: *mut usize,
        column: *mut usize,
    );

    fn implib_status_text_nonnull(status: u32, buffer: *mut u8, buffer_length: usize) -> usize;
}

/// What the library makes of a text.
#[derive(Clone, Copy)]
pub(crate) enum Product {
    /// The import library: an archive.
    Library,
    /// What the text states, in the encoding that the header describes.
    Definition,
}

/// A definition with what it is read for.
#[derive(Clone, Copy)]
pub(crate) struct Input<'a> {
    pub(crate) text: &'a str,
    pub(crate) machine: MachineType,
    pub(crate) flavor: Flavor,
}

impl Input<'_> {
    /// The length of what the library makes of this.
    pub(crate) fn length(self, product: Product) -> Result<usize, Error> {
        match self.put(product, &mut []) {
            Ok(length) | Err((BUFFER_TOO_SMALL, length, _)) => Ok(length),
            Err((status, _, place)) => Err(self.error(status, place)),
        }
    }

    /// What the library makes of this, of which the length is known.
    pub(crate) fn made(self, product: Product, length: usize) -> Result<Vec<u8>, Error> {
        let mut bytes = Vec::new();
        if bytes.try_reserve_exact(length).is_err() {
            return Err(Error::new(Fault::OutOfMemory));
        }
        bytes.resize(length, 0);
        match self.put(product, &mut bytes) {
            Ok(_) => Ok(bytes),
            Err((status, _, place)) => Err(self.error(status, place)),
        }
    }

    /// Puts what the library makes of this at the beginning of the buffer, and gives its length; else the status,
    /// the length and the place.
    fn put(self, product: Product, buffer: &mut [u8]) -> Result<usize, (u32, usize, usize)> {
        if version() != VERSION {
            return Err((Fault::OtherVersion as u32, 0, 0));
        }
        let machine = self.machine as u16;
        put(product, self.text.as_bytes(), machine, self.flavor as u32, buffer)
    }

    /// What a status says of this.
    fn error(self, status: u32, place: usize) -> Error {
        let fault = Fault::of_status(status);
        if fault.is_at_offset() {
            Error::at(fault, position(self.text.as_bytes(), place))
        } else if fault.is_of_export() {
            Error::of_export(fault, place)
        } else {
            Error::new(fault)
        }
    }
}

/// The version of the library.
pub(crate) fn version() -> u32 {
    // SAFETY: it takes nothing, and has no state.
    unsafe { implib_version() }
}

fn put(
    product: Product,
    text: &[u8],
    machine: u16,
    flavor: u32,
    buffer: &mut [u8],
) -> Result<usize, (u32, usize, usize)> {
    let (mut length, mut place) = (0, 0);
    // SAFETY: text and buffer are slices, so each pointer is not null and leads to as many bytes as its length says.
    // The buffer and the two numbers are borrowed to be written, so they overlap neither each other nor the text,
    // and nobody else reads or writes them during the call. The library keeps no pointer. Any number may be passed
    // as machine and flavour.
    let status = unsafe {
        let (text, text_length) = (text.as_ptr(), text.len());
        let (buffer, room) = (buffer.as_mut_ptr(), buffer.len());
        match product {
            Product::Library => {
                implib_library_nonnull(text, text_length, machine, flavor, buffer, room, &mut length, &mut place)
            }
            Product::Definition => {
                implib_definition_nonnull(text, text_length, machine, buffer, room, &mut length, &mut place)
            }
        }
    };
    match status {
        SUCCESS => Ok(length),
        _ => Err((status, length, place)),
    }
}

/// Puts the library of delayed imports of a text, for GNU's linker, at the beginning of the buffer: the status, the
/// length and the place, an offset in the text.
pub(crate) fn delayed(text: &[u8], machine: u16, dll: Option<&[u8]>, buffer: &mut [u8]) -> (u32, usize, usize) {
    let (mut length, mut place) = (0, 0);
    let has_dll = u32::from(dll.is_some());
    let dll = dll.unwrap_or(&[]);
    // SAFETY: text, dll and buffer are slices, so each pointer is not null and leads to as many bytes as its length
    // says. The buffer and the two numbers are borrowed to be written, so they overlap neither each other nor the
    // rest, and nobody else reads or writes them during the call. The library keeps no pointer.
    let status = unsafe {
        implib_delayed_library_nonnull(
            text.as_ptr(),
            text.len(),
            dll.as_ptr(),
            dll.len(),
            has_dll,
            machine,
            Flavor::Gnu as u32,
            0,
            buffer.as_mut_ptr(),
            buffer.len(),
            &mut length,
            &mut place,
        )
    };
    (status, length, place)
}

/// Puts the library of a text, for Microsoft's linkers, whose null descriptor is named after it at the beginning of
/// the buffer: the status, the length and the place, an offset in the text.
pub(crate) fn named(text: &[u8], machine: u16, dll: Option<&[u8]>, buffer: &mut [u8]) -> (u32, usize, usize) {
    let (mut length, mut place) = (0, 0);
    let has_dll = u32::from(dll.is_some());
    let dll = dll.unwrap_or(&[]);
    // SAFETY: as in `delayed`, whose arguments these are.
    let status = unsafe {
        implib_named_library_nonnull(
            text.as_ptr(),
            text.len(),
            dll.as_ptr(),
            dll.len(),
            has_dll,
            machine,
            Flavor::Msvc as u32,
            0,
            buffer.as_mut_ptr(),
            buffer.len(),
            &mut length,
            &mut place,
        )
    };
    (status, length, place)
}

/// Puts what the DLL in a file exports at the beginning of the buffer: the status, the length and the place.
pub(crate) fn exports(file: &[u8], buffer: &mut [u8]) -> (u32, usize, usize) {
    let (mut length, mut place) = (0, 0);
    // SAFETY: file and buffer are slices, so each pointer is not null and leads to as many bytes as its length says.
    // The buffer and the two numbers are borrowed to be written, so they overlap neither each other nor the file,
    // and nobody else reads or writes them during the call. The library keeps no pointer.
    let status = unsafe {
        let (file, file_length) = (file.as_ptr(), file.len());
        implib_exports_nonnull(file, file_length, buffer.as_mut_ptr(), buffer.len(), &mut length, &mut place)
    };
    (status, length, place)
}

/// Puts what the imports of a library come to in the DLL of a file, which has this name, at the beginning of the
/// buffer: the status, the length and the place.
pub(crate) fn check_dll(library: &[u8], dll: &[u8], name: &[u8], buffer: &mut [u8]) -> (u32, usize, usize) {
    let (mut length, mut place) = (0, 0);
    // SAFETY: library, dll, name and buffer are slices, so each pointer is not null and leads to as many bytes as its
    // length says. The buffer and the two numbers are borrowed to be written, so they overlap neither each other nor
    // the rest, and nobody else reads or writes them during the call. The library keeps no pointer.
    let status = unsafe {
        implib_check_dll_nonnull(
            library.as_ptr(),
            library.len(),
            dll.as_ptr(),
            dll.len(),
            name.as_ptr(),
            name.len(),
            buffer.as_mut_ptr(),
            buffer.len(),
            &mut length,
            &mut place,
        )
    };
    (status, length, place)
}

/// The position of an offset in a text.
pub(crate) fn position(text: &[u8], offset: usize) -> Position {
    let (mut line, mut column) = (0, 0);
    // SAFETY: the text is a slice, so its pointer is not null and leads to as many bytes as its length says. The two
    // numbers are borrowed to be written, and overlap nothing. Any offset may be passed.
    unsafe { implib_position_nonnull(text.as_ptr(), text.len(), offset, &mut line, &mut column) };
    Position { offset, line, column }
}

/// The text of a status.
pub(crate) fn status_text(status: u32) -> String {
    let mut buffer = [0; STATUS_TEXT_SIZE];
    // SAFETY: the buffer is an array, so its pointer is not null and leads to as many bytes as its length says. It is
    // borrowed to be written. Any number may be passed as the status.
    let length = unsafe { implib_status_text_nonnull(status, buffer.as_mut_ptr(), buffer.len()) };
    String::from_utf8_lossy(&buffer[..length.min(STATUS_TEXT_SIZE)]).into_owned()
}

#[cfg(test)]
mod tests {
    use super::*;

    const ZOO: &[u8] = b"LIBRARY zoo.dll\nEXPORTS\nfeed";

    /// The status and the place of a call with any bytes and numbers.
    fn refused(text: &[u8], machine: u16, flavor: u32) -> (u32, usize) {
        let mut buffer = [7; 64];
        let (status, length, place) = put(Product::Library, text, machine, flavor, &mut buffer).unwrap_err();
        assert_eq!((length, buffer), (0, [7; 64]));
        (status, place)
    }

    #[test]
    fn version_is_that_of_the_header() {
        assert_eq!(version(), VERSION);
    }

    #[test]
    fn statuses_that_no_text_of_rust_has() {
        assert_eq!(refused(b"LIBRARY zoo.dll\n\xff", 0x8664, 0), (Fault::NotUtf8 as u32, 16));
        assert_eq!(refused(ZOO, 0x8665, 0), (Fault::UnknownMachine as u32, 0));
        assert_eq!(refused(ZOO, 0x8664, 2), (Fault::UnknownFlavor as u32, 0));
    }

    #[test]
    fn short_buffer_is_as_it_was() {
        let mut buffer = [7; 64];
        let (status, length, place) = put(Product::Library, ZOO, 0x8664, 1, &mut buffer).unwrap_err();
        assert_eq!((status, place, buffer), (BUFFER_TOO_SMALL, 0, [7; 64]));
        let mut roomy = vec![7; length + 3];
        assert_eq!(put(Product::Library, ZOO, 0x8664, 1, &mut roomy), Ok(length));
        assert_eq!((&roomy[..8], &roomy[length..]), (&b"!<arch>\n"[..], &[7; 3][..]));
    }

    #[test]
    fn position_behind_two_lines() {
        assert_eq!(position(b"a\nb\ncd", 5), Position { offset: 5, line: 3, column: 2 });
    }

    #[test]
    fn text_of_a_number_that_is_no_status() {
        assert_eq!(status_text(15), "unknown status");
    }
}
