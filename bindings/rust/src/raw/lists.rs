// SPDX-License-Identifier: MIT
//! Wraps the calls for lists that return a line number in addition to an error.

use super::{check, sys, List, ListEntry};
use crate::Reason;

/// Returns the entry for a name that is listed exactly once, or the error and the number of the
/// line at fault, which is 0 if no line is at fault. `text` is the text of the list. `long_digest`
/// is the hash function of digests with 128 digits on lines that name none.
pub fn list_find(
    list: &List,
    text: &[u8],
    long_digest: u32,
    name: &[u8],
) -> Result<ListEntry, (Reason, u64)> {
    let (mut entry, mut line) = (ListEntry::ZEROS, 0);
    // SAFETY: the pointers and lengths are those of slices, and the call keeps none of them.
    let result = unsafe {
        sys::minisign_list_find(
            list,
            text.as_ptr(),
            text.len(),
            long_digest,
            name.as_ptr(),
            name.len(),
            &mut entry,
            &mut line,
        )
    };
    check(result).map_err(|reason| (reason, line))?;
    Ok(entry)
}

/// Returns all entries, or the error and the number of the line at fault, which is 0 if no line is
/// at fault. The parameters are those of `list_find`.
pub fn list_entries(
    list: &List,
    text: &[u8],
    long_digest: u32,
) -> Result<Vec<ListEntry>, (Reason, u64)> {
    // An entry has at least 67 bytes and a line feed, which may be missing after the last one.
    let max_entries = (text.len() + 1) / 68;
    let mut entries: Vec<ListEntry> = (0..max_entries).map(|_| ListEntry::ZEROS).collect();
    let (mut count, mut line) = (0, 0);
    // SAFETY: the pointers and lengths are those of slices, and the call keeps none of them.
    let result = unsafe {
        sys::minisign_list_entries(
            list,
            text.as_ptr(),
            text.len(),
            long_digest,
            entries.as_mut_ptr(),
            entries.len(),
            &mut count,
            &mut line,
        )
    };
    check(result).map_err(|reason| (reason, line))?;
    entries.truncate(count);
    Ok(entries)
}
