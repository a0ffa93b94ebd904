//! Import libraries for Windows DLLs, from module definitions.
//!
//! The interface is that of the crate `implib` 0.4.0. The libraries are made by the library for C of the project
//! `implib` in Rattle, which is proved to make what its documents say; where that differs from the crate of this
//! name (`docs/DIFFERENCES.md`), its rule holds. [`dll`], [`delay`] and [`named`], which that crate lacks, read what a DLL exports, and make libraries of delayed
//! imports, and with a null descriptor of their own name. `docs/CALLING.md`, "From Rust", says how it is linked.
//!
//! ```
//! use implib::{Flavor, ImportLibrary, MachineType};
//!
//! let library = ImportLibrary::new("LIBRARY zoo.dll\nEXPORTS\nfeed", MachineType::AMD64, Flavor::Msvc)?;
//! let mut archive = Vec::new();
//! library.write_to(&mut archive)?;
//! assert!(archive.starts_with(b"!<arch>\n"));
//! # Ok::<(), std::io::Error>(())
//! ```

#![deny(missing_docs, unsafe_code)]

mod c;
pub mod def;
pub mod delay;
pub mod dll;
mod error;
pub mod named;
mod read;

pub use crate::def::{ModuleDef, ShortExport};
pub use crate::error::{Error, Fault, Position};

use crate::c::{Input, Product};
use std::io::{self, Write};
use std::sync::OnceLock;

/// A machine, by its number in the PE/COFF specification, "Machine Types".
#[derive(Debug, Clone, Copy, PartialEq, Eq)]
#[repr(u16)]
pub enum MachineType {
    /// x86, of 32 bits.
    I386 = 0x014C,
    /// ARM, of 32 bits.
    ARMNT = 0x01C4,
    /// x86-64.
    AMD64 = 0x8664,
    /// ARM, of 64 bits.
    ARM64 = 0xAA64,
}

/// Whose linker a library is for.
#[derive(Debug, Clone, Copy, PartialEq, Eq)]
#[repr(u32)]
pub enum Flavor {
    /// Microsoft's: short imports, a `.lib`.
    Msvc = 0,
    /// GNU's: objects, a `.a`.
    Gnu = 1,
}

/// An import library.
#[derive(Debug, Clone)]
pub struct ImportLibrary {
    text: String,
    machine: MachineType,
    flavor: Flavor,
    /// Set with the definition, or when it is first asked for.
    import_name: OnceLock<String>,
    /// The length of the archive, or why there is none.
    length: Result<usize, Error>,
}

impl ImportLibrary {
    /// The import library that a module definition describes.
    ///
    /// # Errors
    ///
    /// The first syntax error of the text, with its place. That the definition makes no library is the answer of
    /// [`write_to`](ImportLibrary::write_to).
    pub fn new(def: &str, machine: MachineType, flavor: Flavor) -> Result<ImportLibrary, Error> {
        let library = ImportLibrary::of_text(def.to_owned(), machine, flavor, OnceLock::new());
        match library.length {
            Err(error) if !error.fault().is_of_library() => Err(error),
            _ => Ok(library),
        }
    }

    /// The import library of a definition, which may be made by hand.
    ///
    /// What no text says, as another `symbol_name` than the name, or on I386 a name without the underscore of C's
    /// symbols, is [`Fault::NoText`], the answer of [`write_to`](ImportLibrary::write_to).
    pub fn from_def(def: ModuleDef, machine: MachineType, flavor: Flavor) -> ImportLibrary {
        match def.text(machine) {
            Ok(text) => ImportLibrary::of_text(text, machine, flavor, def.import_name.into()),
            Err(error) => ImportLibrary {
                text: String::new(),
                machine,
                flavor,
                import_name: def.import_name.into(),
                length: Err(error),
            },
        }
    }

    fn of_text(
        text: String,
        machine: MachineType,
        flavor: Flavor,
        import_name: OnceLock<String>,
    ) -> ImportLibrary {
        let length = Input { text: &text, machine, flavor }.length(Product::Library);
        ImportLibrary { text, machine, flavor, import_name, length }
    }

    /// The name of the DLL.
    ///
    /// A text's is read when it is first asked for.
    pub fn import_name(&self) -> &str {
        self.import_name.get_or_init(|| match read::definition(&self.text, self.machine) {
            Ok(definition) => definition.import_name,
            Err(_) => String::new(),
        })
    }

    /// Writes the library: a `.lib` for Microsoft's linker, a `.a` for GNU's.
    ///
    /// # Errors
    ///
    /// That there is no library, as an [`io::Error`] with an [`Error`] in it, and then nothing is written; and what
    /// the writer answers.
    pub fn write_to<W: Write + ?Sized>(&self, writer: &mut W) -> io::Result<()> {
        let length = self.length.clone()?;
        let input = Input { text: &self.text, machine: self.machine, flavor: self.flavor };
        writer.write_all(&input.made(Product::Library, length)?)
    }
}
