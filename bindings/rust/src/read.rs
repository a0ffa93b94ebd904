//! What the library says that a text states, in the encoding of `implib_definition` that the header describes. Bytes of
//! any other form are an unknown status.

use crate::c::{Input, Product};
use crate::def::{ModuleDef, ShortExport};
use crate::error::{Error, Fault};
use crate::{Flavor, MachineType};

/// The attributes of an export: the constants `IMPLIB_EXPORT_` of the header.
const NO_NAME: u64 = 1;
const DATA: u64 = 2;
const CONSTANT: u64 = 4;
const PRIVATE: u64 = 8;

/// The definition that a text means.
pub(crate) fn definition(text: &str, machine: MachineType) -> Result<ModuleDef, Error> {
    // What a text states is the same for both linkers.
    let input = Input { text, machine, flavor: Flavor::Msvc };
    let encoding = input.made(Product::Definition, input.length(Product::Definition)?)?;
    definition_in(&encoding).ok_or_else(|| Error::new(Fault::UnknownStatus))
}

/// The definition of an encoding.
fn definition_in(mut rest: &[u8]) -> Option<ModuleDef> {
    let rest = &mut rest;
    let mut definition = ModuleDef {
        import_name: text(rest)?,
        image_base: number(rest)?,
        stack_reserve: number(rest)?,
        stack_commit: number(rest)?,
        heap_reserve: number(rest)?,
        heap_commit: number(rest)?,
        major_image_version: number(rest)?.try_into().ok()?,
        minor_image_version: number(rest)?.try_into().ok()?,
        ..ModuleDef::default()
    };
    for _ in 0..number(rest)? {
        definition.exports.push(export(rest)?);
    }
    Some(definition)
}

/// The export at the front of an encoding.
fn export(rest: &mut &[u8]) -> Option<ShortExport> {
    let name = text(rest)?;
    let ext_name = match number(rest)? {
        0 => None,
        _ => Some(text(rest)?),
    };
    let alias_target = text(rest)?;
    let ordinal = number(rest)?.try_into().ok()?;
    let attributes = number(rest)?;
    Some(ShortExport {
        name,
        ext_name,
        alias_target,
        ordinal,
        no_name: attributes & NO_NAME != 0,
        data: attributes & DATA != 0,
        private: attributes & PRIVATE != 0,
        constant: attributes & CONSTANT != 0,
        ..ShortExport::default()
    })
}

/// The number at the front of an encoding.
pub(crate) fn number(rest: &mut &[u8]) -> Option<u64> {
    Some(u64::from_le_bytes(taken(rest, 8)?.try_into().ok()?))
}

/// The text at the front of an encoding.
fn text(rest: &mut &[u8]) -> Option<String> {
    String::from_utf8(bytes(rest)?).ok()
}

/// The bytes at the front of an encoding, behind their length.
pub(crate) fn bytes(rest: &mut &[u8]) -> Option<Vec<u8>> {
    let length = number(rest)?.try_into().ok()?;
    Some(taken(rest, length)?.to_vec())
}

fn taken<'a>(rest: &mut &'a [u8], length: usize) -> Option<&'a [u8]> {
    if rest.len() < length {
        return None;
    }
    let (first, after) = rest.split_at(length);
    *rest = after;
    Some(first)
}
