// SPDX-License-Identifier: MIT
//! Builds the C library for cargo's target with the crate cc, and links libsodium if the feature
//! `sodium` is set. The C files are in the directory `library` of a packed crate, or in the
//! repository.
//!
//! On Linux on x86-64 and AArch64 the library is linked with the archives of proved functions in
//! `dist/`. Elsewhere, or with `MINISIGN_PORTABLE=1`, it is compiled from the same functions
//! translated to C.

mod archives;

use std::process::{exit, Command, Stdio};
use std::{env, fs, path::Path};

const CRATE: &str = env!("CARGO_MANIFEST_DIR");

fn main() {
    let packed = format!("{CRATE}/library");
    let default = if Path::new(&packed).is_dir() {
        packed
    } else {
        format!("{CRATE}/../..")
    };
    let root = user_variable("MINISIGN_SOURCES").unwrap_or(default);
    watch(&root);
    // docs.rs only builds documentation, and has no libsodium.
    if env::var_os("DOCS_RS").is_some() {
        return;
    }
    check_dist(&root);
    if Path::new(&format!("{root}/crates")).exists() {
        check_sources(&root);
    }
    build(&root);
    link_sodium();
}

/// Tells cargo to run this script again if one of these files has changed. Paths that do not exist
/// are left out, because cargo would then run the script in every build. A packed crate lacks the
/// sources of the proved calls.
fn watch(root: &str) {
    for name in ["c", "crates", "crates.txt", "dist", "include", "tools"] {
        if Path::new(&format!("{root}/{name}")).exists() {
            println!("cargo:rerun-if-changed={root}/{name}");
        }
    }
}

/// Returns an environment variable that cargo sets.
fn cargo_variable(name: &str) -> String {
    env::var(name).unwrap_or_default()
}

/// Returns a property of cargo's target, such as `OS`.
fn target(property: &str) -> String {
    cargo_variable(&format!("CARGO_CFG_TARGET_{property}"))
}

/// Returns an environment variable that the user has set for this target, or else for all targets.
fn user_variable(name: &str) -> Option<String> {
    let for_target = format!("{name}_{}", cargo_variable("TARGET").replace('-', "_"));
    [for_target, name.to_string()].into_iter().find_map(|name| {
        println!("cargo:rerun-if-env-changed={name}");
        env::var(name).ok().filter(|value| !value.is_empty())
    })
}

/// Prints the reason and ends the build.
fn fail(why: String) -> ! {
    eprintln!("minisign-proved-sys: {why}");
    exit(1)
}

/// Returns the output of a command, or an empty string if it fails.
fn output_of(command: &mut Command) -> String {
    let output = command.output().ok();
    let output = output.filter(|output| output.status.success());
    output.map_or(String::new(), |output| {
        String::from_utf8_lossy(&output.stdout).trim().to_string()
    })
}

/// The files of `dist/` that contain the proved calls.
const CALLS: [&str; 4] = [
    "calls-x86-64-v2.a",
    "calls-x86-64-v3.a",
    "calls-aarch64.a",
    "calls.c",
];
/// The commands that print the SHA-256 hash of a file: from coreutils, Perl, the BSDs and Windows.
const SHA256: [&str; 4] = [
    "sha256sum FILE",
    "shasum -a 256 FILE",
    "sha256 -q FILE",
    "certutil -hashfile FILE SHA256",
];

/// The published hash of "abc".
const HASH_OF_ABC: &str = "ba7816bf8f01cfea414140de5dae2223b00361a396177a9cb410ff61f20015ad";

/// Compares the hashes of the proved calls with `dist/SHA256SUMS`.
fn check_dist(root: &str) {
    let list = format!("{root}/dist/SHA256SUMS");
    let lines = fs::read_to_string(&list).unwrap_or_else(|why| fail(format!("{list}: {why}")));
    let command = sha256_command();
    for name in CALLS {
        let path = format!("{root}/dist/{name}");
        if !Path::new(&path).is_file() {
            fail(format!("{path} is missing"));
        }
        let line = format!("{}  {name}", hash_by(command, &path));
        if !lines.lines().any(|each| each == line) {
            fail(format!(
                "{path} is damaged: its SHA-256 hash is not the one in {list}"
            ));
        }
    }
}

/// Returns the first command for SHA-256 hashes that works on this system.
fn sha256_command() -> &'static str {
    let path = format!("{}/abc", cargo_variable("OUT_DIR"));
    fs::write(&path, "abc").unwrap_or_else(|why| fail(format!("{path}: {why}")));
    let mut commands = SHA256.into_iter();
    commands
        .find(|command| hash_by(command, &path) == HASH_OF_ABC)
        .unwrap_or_else(|| {
            let why = "no SHA-256 program works here: install sha256sum, shasum or sha256";
            fail(why.to_string())
        })
}

/// Returns the hash of a file that a command prints, or an empty string if it prints none.
fn hash_by(command: &str, path: &str) -> String {
    let mut words = command.split(' ');
    let mut command = Command::new(words.next().unwrap_or_default());
    let words = words.map(|word| if word == "FILE" { path } else { word });
    let output = output_of(command.args(words));
    // sha256sum prints a backslash before the hash if the path contains one.
    let mut parts = output.split(|character: char| character.is_whitespace() || character == '\\');
    let is_hash =
        |part: &&str| part.len() == 64 && part.bytes().all(|byte| byte.is_ascii_hexdigit());
    parts.find(is_hash).unwrap_or_default().to_string()
}

/// Checks that `dist/` was built from the sources of the proved calls in this repository.
fn check_sources(root: &str) {
    let proved = fs::read_to_string(format!("{root}/dist/PROVED")).unwrap_or_default();
    let script = format!("{root}/tools/sources.sh");
    let mut command = Command::new("sh");
    let hash = output_of(command.args([&*script, "calls"]).stderr(Stdio::inherit()));
    if hash.is_empty() {
        fail(format!(
            "cannot check if the verified sources were changed: `sh {script} calls` failed"
        ));
    }
    let line = format!("sources of the calls: {hash}");
    if !proved.lines().any(|each| each == line) {
        fail(format!(
            "{root}/dist was not built from the sources that are there now: run tools/dist.py"
        ));
    }
}

/// Builds the libraries to link, as `c/Makefile` does. If there are archives for the target, the
/// libraries contain their objects and the C code for older processors. Otherwise everything is
/// compiled from C.
fn build(root: &str) {
    let names = fs::read_to_string(format!("{root}/c/library/names")).unwrap_or_else(|why| {
        fail(format!(
            "{root} does not contain the sources of the library: {why}"
        ))
    });
    let mut settings = cc::Build::new();
    settings.opt_level(2).warnings(false);
    let tool = settings.get_compiler();
    if tool.is_like_msvc() {
        let (triple, path) = (cargo_variable("TARGET"), tool.path().display());
        let suffix = triple.replace('-', "_");
        fail(format!(
            "{path} does not accept the options of gcc: set CC_{suffix} to gcc or clang"
        ));
    }
    let has_pages = target("OS") == "linux" && target("POINTER_WIDTH") == "64";
    let is_portable = user_variable("MINISIGN_PORTABLE").as_deref() == Some("1");
    let archives: &[&str] = match &*target("ARCH") {
        _ if is_portable || !has_pages => &[],
        "x86_64" => &["calls-x86-64-v2", "calls-x86-64-v3"],
        "aarch64" => &["calls-aarch64"],
        _ => &[],
    };
    settings.flag_if_supported("-std=c11");
    // On Windows, programs with these options would need DLLs of the compiler.
    if target("OS") != "windows" {
        settings.flag_if_supported("-pthread");
        settings.flag_if_supported("-fstack-protector-strong");
        settings.define("_FORTIFY_SOURCE", "2");
    }
    for (name, new_name) in MEMORY_FUNCTIONS {
        settings.define(name, new_name);
    }
    for directory in ["include", "c/library", "c/library/portable"] {
        settings.include(format!("{root}/{directory}"));
    }
    let (mut sources, mut portable) = (vec!["boundary", "clearing"], vec![]);
    if has_pages {
        sources.push("allocation");
    } else {
        settings.define("MINISIGN_MALLOC_ALONE", None);
    }
    if archives != ["calls-aarch64"] {
        portable.extend([
            "portable/pointers",
            "portable/allocation",
            "../../dist/calls",
        ]);
    }
    if archives.is_empty() {
        settings.define("MINISIGN_PORTABLE", None);
    }
    // Two libraries, because cc names objects after the file names of their sources, and there are
    // two files `allocation.c`.
    let path = |source: &&str| format!("{root}/c/library/{source}.c");
    for (name, sources) in [("minisign", sources), ("minisign_portable", portable)] {
        if !sources.is_empty() {
            let mut library = settings.clone();
            library.files(sources.iter().map(path));
            if name == "minisign" {
                for archive in archives {
                    add_objects(&mut library, root, archive, &names);
                }
            }
            library.compile(name);
        }
    }
}

/// The memory functions that the proved functions call, and the names that they get here, because
/// other libraries of the Rattle kit have memory functions of the same names.
const MEMORY_FUNCTIONS: [(&str, &str); 3] = [
    ("rattle_alloc", "minisign_alloc"),
    ("rattle_realloc", "minisign_realloc"),
    ("rattle_dealloc", "minisign_dealloc"),
];

/// Adds the objects of an archive to the library. `names` lists the functions to rename: each gets
/// the prefix of the archive, such as `v3_`, because two archives have functions of the same names.
/// In a packed crate, they have the prefix already.
fn add_objects(library: &mut cc::Build, root: &str, archive: &str, names: &str) {
    let path = format!("{root}/dist/{archive}.a");
    let prefix = archive.rsplit('-').next().unwrap_or_default();
    let data = fs::read(&path).unwrap_or_else(|why| fail(format!("{path}: {why}")));
    let new_name = |name: &str| match MEMORY_FUNCTIONS.iter().find(|(old, _)| *old == name) {
        Some((_, new)) => Some(new.to_string()),
        None if names.lines().any(|line| line == name) => Some(format!("{prefix}_{name}")),
        None => None,
    };
    let objects = archives::objects(&data, new_name)
        .unwrap_or_else(|| fail(format!("{path} is not an archive of ELF objects")));
    for (index, object) in objects.iter().enumerate() {
        let copy = format!("{}/{archive}-{index}.o", cargo_variable("OUT_DIR"));
        fs::write(&copy, object).unwrap_or_else(|why| fail(format!("{copy}: {why}")));
        library.object(copy);
    }
}

/// Links libsodium from the directory `SODIUM_LIB_DIR`, or if this is not set, as pkg-config says.
#[cfg(feature = "sodium")]
fn link_sodium() {
    if let Some(directory) = user_variable("SODIUM_LIB_DIR") {
        let kind = match user_variable("SODIUM_SHARED") {
            Some(_) => "dylib",
            None => "static",
        };
        println!("cargo:rustc-link-search=native={directory}");
        println!("cargo:rustc-link-lib={kind}=sodium");
    } else if let Err(why) = pkg_config::Config::new().probe("libsodium") {
        fail(format!(
            "libsodium was not found: install it with its header (Debian: libsodium-dev) and \
             pkg-config, or name its directory in SODIUM_LIB_DIR\n{why}"
        ));
    }
}

#[cfg(not(feature = "sodium"))]
fn link_sodium() {}
