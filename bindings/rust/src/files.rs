// SPDX-License-Identifier: MIT
//! Writes key files.

use std::io::{self, Write};
use std::{fs, path::Path};

/// Creates a file that only its owner can read and write, such as a secret key file. Its mode is
/// 0600, whatever the umask is. The file and its directory are synced.
///
/// On Windows, which has no file modes, the file inherits the permissions of its directory. Choose
/// a directory that only its owner can read, for example in the user's profile.
///
/// # Errors
///
/// `io::ErrorKind::AlreadyExists` if the file exists. The file is then unchanged. After any other
/// error there is no file.
///
/// # Examples
///
/// ```no_run
/// use minisign_proved::{write_new, SecretKey, Sodium, Work};
///
/// let key = SecretKey::generate(&Sodium)?;
/// let text = key.encode(&Sodium, Some("correct horse battery staple"), &Work::USUAL)?;
/// write_new("new.key", &text)?;
/// # Ok::<(), minisign_proved::Error>(())
/// ```
pub fn write_new<P: AsRef<Path>>(path: P, text: &str) -> io::Result<()> {
    let path = path.as_ref();
    let mut file = options().open(path)?;
    let file_result = allow_owner_only(&file)
        .and_then(|()| file.write_all(text.as_bytes()))
        .and_then(|()| file.sync_all());
    // Windows cannot remove an open file.
    drop(file);
    let result = file_result.and_then(|()| sync_directory(path));
    if result.is_err() {
        let _ = fs::remove_file(path);
    }
    result
}

/// Returns the options that create a new file, and fail if it exists.
fn options() -> fs::OpenOptions {
    let mut options = fs::OpenOptions::new();
    options.write(true).create_new(true);
    #[cfg(unix)]
    std::os::unix::fs::OpenOptionsExt::mode(&mut options, 0o600);
    options
}

/// Sets the mode 0600 if the file has another mode, because a umask can also remove permissions of
/// the owner. A file that has the mode is left alone, because some file systems reject fchmod.
#[cfg(unix)]
fn allow_owner_only(file: &fs::File) -> io::Result<()> {
    use std::os::unix::fs::PermissionsExt;
    if file.metadata()?.permissions().mode() & 0o677 == 0o600 {
        return Ok(());
    }
    file.set_permissions(fs::Permissions::from_mode(0o600))
}

#[cfg(not(unix))]
fn allow_owner_only(_: &fs::File) -> io::Result<()> {
    Ok(())
}

/// Syncs the directory of a file, so that a new file survives a crash. Does nothing if the
/// directory cannot be opened, or does not support fsync (EINVAL).
fn sync_directory(path: &Path) -> io::Result<()> {
    let parent = path.parent().filter(|parent| *parent != Path::new(""));
    let directory = parent.unwrap_or_else(|| Path::new("."));
    match fs::File::open(directory).map(|directory| directory.sync_all()) {
        Ok(Err(error)) if error.kind() != io::ErrorKind::InvalidInput => Err(error),
        _ => Ok(()),
    }
}
