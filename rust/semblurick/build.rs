//! Links the static library: `libsemblurick.a`, which `./library` or `./install` makes, from the folder that SEMBLURICK_LIB_DIR names, or
//! from the repository's target folder. Where there is none, the two of which it is made: `libhost.a` from there, `libhost_batch.a` from the
//! folder that SEMBLURICK_BATCH_LIB_DIR names, or from there as well.
use std::path::{Path, PathBuf};
use std::process::exit;
use std::{env, fs};

/// The call that is there since version 4.
const BATCH: &[u8] = b"semblurick_raw_batch";

/// What this wrapper counts on, by the version that brought it, and that the linker would not see to be missing: since 5 an entry has one
/// argument more; since 6 an answer tells a padding byte, where that of an earlier library would say that there is none; since 7 a session
/// has a revision, and what stands behind it is 8 bytes further on.
const SINCE: [(u32, &str); 3] =
    [(5, "an entry that takes the pages"), (6, "the offset of a padding byte"), (7, "the setting of a revision")];

/// How to make the library.
const MAKE: &str = "in Semblurick's folder (the Rattle toolchain, rt, is needed):
    ./library           makes target/staticlib/libsemblurick.a
    ./install PREFIX    puts it into PREFIX/lib";

fn variable(name: &str) -> Option<PathBuf> {
    println!("cargo:rerun-if-env-changed={name}");
    env::var_os(name).map(PathBuf::from)
}

/// Whether this is a library that has the call for several messages.
fn has_batch(file: &Path) -> bool {
    fs::read(file).is_ok_and(|bytes| bytes.windows(BATCH.len()).any(|part| part == BATCH))
}

/// The version of the header that was installed with the library of a folder, if it was.
fn installed(folder: &Path) -> Option<u32> {
    let header = folder.join("../include/semblurick.h");
    let text = fs::read_to_string(&header).ok()?;
    println!("cargo:rerun-if-changed={}", header.display());
    text.lines().find_map(|line| line.strip_prefix("#define SEMBLURICK_VERSION "))?.trim().parse().ok()
}

/// What an earlier library lacks, by itself or by the header that was installed with it.
fn lacks(folder: &Path, library: &Path) -> Option<&'static str> {
    if !has_batch(library) {
        return Some("the call for several messages");
    }
    let version = installed(folder)?;
    SINCE.into_iter().find(|(since, _)| version < *since).map(|(_, what)| what)
}

/// Links a library of a folder, and again where the file from which it comes has changed.
fn link(folder: &Path, name: &str, from: &Path) {
    println!("cargo:rustc-link-search=native={}", folder.display());
    println!("cargo:rustc-link-lib=static={name}");
    println!("cargo:rerun-if-changed={}", from.display());
}

fn main() {
    let (named, second) = (variable("SEMBLURICK_LIB_DIR"), variable("SEMBLURICK_BATCH_LIB_DIR"));
    let folder = named.clone().unwrap_or_else(|| {
        let here = PathBuf::from(env::var_os("CARGO_MANIFEST_DIR").expect("cargo names the manifest's folder"));
        here.join("../../target/staticlib")
    });
    let (whole, first) = (folder.join("libsemblurick.a"), folder.join("libhost.a"));
    let second = second.as_ref().unwrap_or(&folder).join("libhost_batch.a");
    if whole.is_file() {
        if let Some(what) = lacks(&folder, &whole) {
            eprintln!(
                "semblurick: the static library is older than this wrapper, and lacks {what}:\n    {}\n\
                 To make it anew, {MAKE}\n\
                 Where it was installed, ./install it again.",
                whole.display()
            );
            exit(1);
        }
        link(&folder, "semblurick", &whole);
    } else if first.is_file() && second.is_file() {
        link(&folder, "host", &first);
        // under a name that is nowhere else: either folder may have both libraries
        let to = PathBuf::from(env::var_os("OUT_DIR").expect("cargo names an output folder"));
        fs::copy(&second, to.join("libsemblurick_second.a")).expect("the library can be copied");
        link(&to, "semblurick_second", &second);
    } else {
        let because = match named {
            Some(_) => "which SEMBLURICK_LIB_DIR names",
            None => "and SEMBLURICK_LIB_DIR names no other folder",
        };
        eprintln!(
            "semblurick: the static library is missing: neither libsemblurick.a nor libhost.a with libhost_batch.a is in\n    {}\n\
             {because}.\n\
             To make it, {MAKE}\n\
             Elsewhere than in the repository, then set SEMBLURICK_LIB_DIR to the folder that has it.",
            folder.display()
        );
        exit(1);
    }
    println!("cargo:lib_dir={}", folder.display());
}
