//! Finds the library for C that the crate is linked with, in the first of these places:
//!
//! - the archives that `BURLAPSLATE_LIBS` names, with the separator of PATH between them;
//! - the folder that `BURLAPSLATE_DIR` names from `/` on: the PREFIX of `tools/install.sh`, or its `lib`;
//! - the installation that `pkg-config` knows, of this crate's version;
//! - the repository, if the crate is in it, and if `tools/c_library.sh` has built the library. A build of the
//!   crate never builds it: that proves it first, which takes up to an hour.
//!
//! `BURLAPSLATE_SLOTS` says how many slots it has, or else the header of the library.

use std::env;
use std::ffi::OsString;
use std::fs;
use std::path::{Path, PathBuf};
use std::process::{Command, Output, Stdio};

const ARCHIVES: &str = "BURLAPSLATE_LIBS";
const FOLDER: &str = "BURLAPSLATE_DIR";
const SLOTS: &str = "BURLAPSLATE_SLOTS";

/// The header of an archive, below some folder above it.
const HEADER: &str = "include/burlapslate.h";

/// What `tools/install.sh` calls the archive.
const INSTALLED: &str = "libburlapslate.a";

fn main() {
    println!("cargo:rerun-if-changed=build.rs");
    let archives = named_archives()
        .or_else(archive_of_folder)
        .or_else(archive_of_installation)
        .or_else(archives_of_repository)
        .unwrap_or_else(|| {
            panic!(
                "the library for C is not found: name its archives in {ARCHIVES}, or the folder of its \
                 installation in {FOLDER}, or let pkg-config find burlapslate.pc"
            )
        });
    for archive in &archives {
        link(archive);
    }
    println!("cargo:rustc-env={SLOTS}={}", slots(&archives));
}

/// How many slots the library has: by the word of the environment, or else by its header; 128 if nothing says it.
fn slots(archives: &[PathBuf]) -> String {
    let named = word(SLOTS).map(|slots| slots.into_string().expect("a number is not UTF-8"));
    let header = || archives.iter().find_map(|archive| header_of(archive));
    named
        .or_else(|| header().map(|header| said_by(&header)))
        .unwrap_or_else(|| "128".to_string())
}

/// The header that goes with an archive: in the folder nearest above it that has one.
fn header_of(archive: &Path) -> Option<PathBuf> {
    let place = fs::canonicalize(archive).ok()?;
    let headers = place.ancestors().map(|folder| folder.join(HEADER));
    headers.into_iter().find(|header| header.is_file())
}

/// The number that a header has for `BS_SLOTS`.
fn said_by(header: &Path) -> String {
    println!("cargo:rerun-if-changed={}", header.display());
    let text = fs::read_to_string(header)
        .unwrap_or_else(|error| panic!("{} cannot be read: {error}", header.display()));
    let mut lines = text.lines();
    lines
        .find_map(|line| line.strip_prefix("#define BS_SLOTS "))
        .unwrap_or_else(|| panic!("{} says no BS_SLOTS", header.display()))
        .to_string()
}

/// A word of the environment, if it is set and not empty.
fn word(name: &str) -> Option<OsString> {
    println!("cargo:rerun-if-env-changed={name}");
    env::var_os(name).filter(|value| !value.is_empty())
}

fn named_archives() -> Option<Vec<PathBuf>> {
    word(ARCHIVES).map(|paths| env::split_paths(&paths).collect())
}

fn archive_of_folder() -> Option<Vec<PathBuf>> {
    let folder = PathBuf::from(word(FOLDER)?);
    assert!(
        folder.is_absolute(),
        "{FOLDER} is {}: name the folder from / on, since cargo does not say where it was started",
        folder.display()
    );
    let places = [folder.join("lib").join(INSTALLED), folder.join(INSTALLED)];
    let archive = places.into_iter().find(|place| place.is_file());
    let shown = folder.display();
    let missing = || panic!("{FOLDER}: {INSTALLED} is not in {shown}/lib or {shown}");
    Some(vec![archive.unwrap_or_else(missing)])
}

/// What `pkg-config` says, if there is one and it knows this version.
fn archive_of_installation() -> Option<Vec<PathBuf>> {
    for name in [
        "PKG_CONFIG_PATH",
        "PKG_CONFIG_LIBDIR",
        "PKG_CONFIG_SYSROOT_DIR",
    ] {
        word(name);
    }
    if env::var_os("HOST") != env::var_os("TARGET") {
        return None; // It speaks of this machine.
    }
    let program = word("PKG_CONFIG").unwrap_or_else(|| "pkg-config".into());
    let wanted = format!("burlapslate = {}", env!("CARGO_PKG_VERSION"));
    let output = Command::new(program)
        .args(["--variable=libdir", &wanted])
        .stderr(Stdio::null())
        .output()
        .ok()
        .filter(|output| output.status.success())?;
    let folder = String::from_utf8(output.stdout).ok()?;
    let archive = Path::new(folder.trim_end()).join(INSTALLED);
    archive.is_file().then(|| vec![archive])
}

/// What the script of the repository prints, a path a line.
fn archives_of_repository() -> Option<Vec<PathBuf>> {
    let top = Path::new("../..");
    let script = top.join("tools/c_library.sh");
    if !script.is_file() {
        return None;
    }
    println!("cargo:rerun-if-changed={}", script.display());
    println!("cargo:rerun-if-changed={}", top.join("crates").display());
    assert!(
        ran(Command::new(&script).arg("--look")).status.success(),
        "the library is not built, or older than its sources: run {}, which proves it, or name another in \
         {ARCHIVES} or {FOLDER}",
        script.display()
    );
    let output = ran(&mut Command::new(&script));
    assert!(
        output.status.success(),
        "{} failed; see above, or name the library in {ARCHIVES} or {FOLDER}",
        script.display()
    );
    let printed = String::from_utf8(output.stdout).expect("a path is not UTF-8");
    Some(printed.lines().map(PathBuf::from).collect())
}

/// What a program printed, and how it ended.
fn ran(program: &mut Command) -> Output {
    let shown = format!("{program:?}");
    let ran = program.stderr(Stdio::inherit()).output();
    ran.unwrap_or_else(|error| panic!("{shown} does not run: {error}"))
}

/// Links an archive `libNAME.a`, which is made part of the crate.
fn link(archive: &Path) {
    let place = fs::canonicalize(archive)
        .unwrap_or_else(|error| panic!("{} is not there: {error}", archive.display()));
    let folder = place.parent().expect("a file is in a folder");
    let name = place
        .file_name()
        .and_then(|name| name.to_str()?.strip_prefix("lib")?.strip_suffix(".a"))
        .unwrap_or_else(|| panic!("{} is not called lib*.a", archive.display()));
    println!("cargo:rerun-if-changed={}", place.display());
    println!("cargo:rustc-link-search=native={}", folder.display());
    println!("cargo:rustc-link-lib=static={name}");
}
