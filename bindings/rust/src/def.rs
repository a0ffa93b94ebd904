//! Module definitions.

use crate::error::{Error, Fault};
use crate::{read, MachineType};

/// A module definition: a DLL and its exports.
///
/// An import library has nothing of the numbers.
#[derive(Debug, Clone, Default, PartialEq, Eq)]
pub struct ModuleDef {
    /// The exports, in order.
    pub exports: Vec<ShortExport>,
    /// The name of the DLL.
    pub import_name: String,
    /// The address that the image would like to be loaded at.
    pub image_base: u64,
    /// The bytes of the stack to reserve.
    pub stack_reserve: u64,
    /// The bytes of the stack to commit.
    pub stack_commit: u64,
    /// The bytes of the heap to reserve.
    pub heap_reserve: u64,
    /// The bytes of the heap to commit.
    pub heap_commit: u64,
    /// The image's version, before the full stop.
    pub major_image_version: u32,
    /// The image's version, after the full stop.
    pub minor_image_version: u32,
    /// The system's version, before the full stop.
    pub major_os_version: u32,
    /// The system's version, after the full stop.
    pub minor_os_version: u32,
}

/// An export of a DLL.
#[derive(Debug, Clone, Default, PartialEq, Eq)]
pub struct ShortExport {
    /// The name by which programs link, unless there is an `ext_name`; on I386 with the underscore of C's symbols.
    pub name: String,
    /// The name by which programs link, where the DLL calls it `name`.
    pub ext_name: Option<String>,
    /// The symbol of the short import, for Microsoft's linker; where it is empty, the name.
    pub symbol_name: String,
    /// The symbol that this one is an alias of; empty where it is none.
    pub alias_target: String,
    /// The ordinal, or 0.
    pub ordinal: u16,
    /// Whether the DLL is asked for the ordinal, and not for a name.
    pub no_name: bool,
    /// Whether it is data.
    pub data: bool,
    /// Whether a library leaves it out.
    pub private: bool,
    /// Whether it is a constant.
    pub constant: bool,
}

impl ModuleDef {
    /// Reads a definition.
    ///
    /// No statement gives a `symbol_name` or the numbers of the system's version.
    /// [`ImportLibrary::from_def`](crate::ImportLibrary::from_def) makes of it the library that
    /// [`ImportLibrary::new`](crate::ImportLibrary::new) makes of the text.
    ///
    /// # Errors
    ///
    /// The first syntax error, with its place.
    pub fn parse(def: &str, machine: MachineType) -> Result<ModuleDef, Error> {
        read::definition(def, machine)
    }

    /// The text of a definition with this DLL's name and these exports, for a machine.
    ///
    /// Each export follows a word `EXPORTS`, after which any name may stand. What no text says is a fault.
    pub(crate) fn text(&self, machine: MachineType) -> Result<String, Error> {
        let mut text = String::new();
        if !self.import_name.is_empty() {
            let name = word(&self.import_name).ok_or_else(|| Error::new(Fault::NoText))?;
            text = format!("LIBRARY {name}\n");
        }
        if self.import_name.is_empty() || self.import_name.contains('\0') {
            // This is what the library refuses it for, whatever the exports are.
            return Ok(text);
        }
        for (index, export) in self.exports.iter().enumerate() {
            export.write(machine, &mut text).map_err(|fault| Error::of_export(fault, index))?;
        }
        Ok(text)
    }
}

impl ShortExport {
    /// Adds the statement of this export.
    fn write(&self, machine: MachineType, text: &mut String) -> Result<(), Fault> {
        if self.private {
            // It counts, and that is all.
            text.push_str("EXPORTS private PRIVATE\n");
            return Ok(());
        }
        let name = self.ext_name.as_ref().unwrap_or(&self.name);
        if name.is_empty() && machine == MachineType::I386 {
            // Here an empty word is the name `_`.
            return Err(Fault::EmptyName);
        }
        if !self.symbol_name.is_empty() && self.symbol_name != *name {
            return Err(Fault::NoText);
        }
        let name = undecorated(name, machine).and_then(word).ok_or(Fault::NoText)?;
        text.push_str("EXPORTS ");
        text.push_str(&name);
        if !self.alias_target.is_empty() {
            text.push_str(" == ");
            text.push_str(&word(&self.alias_target).ok_or(Fault::NoText)?);
        }
        if self.ordinal != 0 || self.no_name {
            text.push_str(&format!(" @{}", self.ordinal));
        }
        for (word, is_set) in [(" NONAME", self.no_name), (" DATA", self.data), (" CONSTANT", self.constant)] {
            if is_set {
                text.push_str(word);
            }
        }
        text.push('\n');
        Ok(())
    }
}

/// The word of an export with this name. On I386 a word gets `_` in front, unless it begins with `?` or holds `@`.
fn undecorated(name: &str, machine: MachineType) -> Option<&str> {
    if machine != MachineType::I386 || name.starts_with('?') || name.contains('@') {
        return Some(name);
    }
    name.strip_prefix('_').filter(|word| !word.starts_with('?'))
}

/// A text's way to write an identifier: in quotes, or as it is where it holds a quote.
fn word(value: &str) -> Option<String> {
    if value.trim() != value {
        return None;
    }
    if !value.contains('"') {
        return Some(format!("\"{value}\""));
    }
    let is_bare =
        !value.starts_with(['"', '\0']) && !value.contains(['=', ',', ';', '\r', '\n', ' ', '\t', '\x0B']);
    is_bare.then(|| value.to_owned())
}
