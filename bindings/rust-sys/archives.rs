// SPDX-License-Identifier: MIT
//! Reads the archives of `dist/`, and renames the symbols in them to the public names that programs
//! link. The build script uses this module instead of objcopy, which many systems do not have. In
//! a packed crate, the symbols already have the public names.

/// Returns the objects in an archive, with renamed symbols. `new_name` returns the new name of a
/// symbol, or `None` if the symbol keeps its name. Returns `None` if this is not an archive of ELF
/// objects for a 64-bit little-endian processor.
pub fn objects(archive: &[u8], new_name: impl Fn(&str) -> Option<String>) -> Option<Vec<Vec<u8>>> {
    let mut rest = archive.strip_prefix(b"!<arch>\n")?;
    let mut objects = vec![];
    while !rest.is_empty() {
        // The header of a member has 60 bytes: the name at offset 0, and the size at offset 48.
        let (head, tail) = (rest.get(..60)?, &rest[60..]);
        let size = std::str::from_utf8(&head[48..58])
            .ok()?
            .trim()
            .parse()
            .ok()?;
        let member = tail.get(..size)?;
        // The index, whose name is "/" or "/SYM64/", and the table of long names, whose name is
        // "//", are not objects. An object with a long name has a slash and an offset in that table
        // here.
        if head[0] != b'/' || head[1].is_ascii_digit() {
            objects.push(renamed(member, &new_name)?);
        }
        rest = tail.get(size + size % 2..).unwrap_or_default();
    }
    Some(objects)
}

// The size of a section header, and the offsets of its fields.
const SECTION_BYTES: usize = 64;
const SECTION_TYPE: usize = 4;
const SECTION_OFFSET: usize = 24;
const SECTION_SIZE: usize = 32;
const SECTION_LINK: usize = 40;
/// The type of a section that is a symbol table.
const SYMBOL_TABLE: usize = 2;
/// The size of a symbol. Its name is at offset 0.
const SYMBOL_BYTES: usize = 24;

/// Returns an object with renamed symbols. The new names are appended to a copy of the table of
/// names, and the copy is appended to the object.
fn renamed(object: &[u8], new_name: impl Fn(&str) -> Option<String>) -> Option<Vec<u8>> {
    const ELF_64_LITTLE_ENDIAN: &[u8] = b"\x7fELF\x02\x01";
    let mut object = object
        .strip_prefix(ELF_64_LITTLE_ENDIAN)
        .map(|_| object.to_vec())?;
    let (sections, count) = (number(&object, 40, 8)?, number(&object, 60, 2)?);
    let section = |index: usize| sections + SECTION_BYTES * index;
    let is_symbols = |&at: &usize| number(&object, at + SECTION_TYPE, 4) == Some(SYMBOL_TABLE);
    let symbols = (0..count).map(section).find(is_symbols)?;
    let names = section(number(&object, symbols + SECTION_LINK, 4)?);
    let (begin, size) = extent(&object, names)?;
    let mut table = object.get(begin..begin + size)?.to_vec();
    let (begin, size) = extent(&object, symbols)?;
    for symbol in (begin..begin + size).step_by(SYMBOL_BYTES) {
        let name = table
            .get(number(&object, symbol, 4)?..)?
            .split(|&byte| byte == 0)
            .next()?;
        if let Some(new) = std::str::from_utf8(name).ok().and_then(&new_name) {
            set_number(&mut object, symbol, 4, table.len())?;
            table.extend(new.bytes().chain([0]));
        }
    }
    let end = object.len();
    set_number(&mut object, names + SECTION_OFFSET, 8, end)?;
    set_number(&mut object, names + SECTION_SIZE, 8, table.len())?;
    object.append(&mut table);
    Some(object)
}

/// Returns the offset and the size of a section.
fn extent(object: &[u8], section: usize) -> Option<(usize, usize)> {
    let offset = number(object, section + SECTION_OFFSET, 8)?;
    Some((offset, number(object, section + SECTION_SIZE, 8)?))
}

/// Returns a little-endian number of `len` bytes.
fn number(object: &[u8], at: usize, len: usize) -> Option<usize> {
    let mut bytes = [0; 8];
    bytes[..len].copy_from_slice(object.get(at..at + len)?);
    usize::try_from(u64::from_le_bytes(bytes)).ok()
}

/// Writes a little-endian number of `len` bytes.
fn set_number(object: &mut [u8], at: usize, len: usize, value: usize) -> Option<()> {
    let bytes = (value as u64).to_le_bytes();
    object.get_mut(at..at + len)?.copy_from_slice(&bytes[..len]);
    Some(())
}
