//! Finds the archive and has it linked.

use std::env;
use std::path::{Path, PathBuf};
use std::process::{Command, ExitCode};

const LIBRARY: &str = "libgarvolish.a";
/// Where tools/archive leaves it, seen from the top of the repository.
const USUAL_FOLDER: &str = "target/staticlib";
const WHAT_TO_DO: &str = "run 'tools/archive' at the top of the repository, \
                          or name the folder of another archive in GARVOLISH_LIB";

fn main() -> ExitCode {
    println!("cargo:rerun-if-env-changed=GARVOLISH_LIB");
    let processor = env::var("CARGO_CFG_TARGET_ARCH").unwrap_or_default();
    if processor != "x86_64" {
        println!(
            "cargo:warning=there is no archive for {processor}, as the library is x86-64 code: \
             this package can be checked here, but not linked, and its tests are ignored"
        );
        return ExitCode::SUCCESS;
    }
    match folder() {
        Ok(folder) => {
            println!("cargo:rerun-if-changed={}", folder.join(LIBRARY).display());
            println!("cargo:rustc-link-search=native={}", folder.display());
            println!("cargo:rustc-link-lib=static=garvolish");
            ExitCode::SUCCESS
        }
        Err(fault) => {
            eprintln!("garvolish: {fault}: {WHAT_TO_DO}");
            ExitCode::FAILURE
        }
    }
}

/// The folder that GARVOLISH_LIB names, or the usual one.
fn folder() -> Result<PathBuf, String> {
    let package = PathBuf::from(env::var_os("CARGO_MANIFEST_DIR").unwrap_or_default());
    match env::var_os("GARVOLISH_LIB").filter(|name| !name.is_empty()) {
        Some(named) => with_library(package.join(named)),
        None => with_fresh_library(package.ancestors().nth(2).unwrap_or(&package)),
    }
}

/// A folder with an archive of any age.
fn with_library(folder: PathBuf) -> Result<PathBuf, String> {
    let library = folder.join(LIBRARY);
    if !library.is_file() {
        return Err(format!("there is no {}", library.display()));
    }
    folder.canonicalize().map_err(|error| error.to_string())
}

/// The usual folder, if its archive is no older than the sources beside it.
fn with_fresh_library(top: &Path) -> Result<PathBuf, String> {
    for sources in ["crates", "crates.txt"] {
        println!("cargo:rerun-if-changed={}", top.join(sources).display());
    }
    let folder = with_library(top.join(USUAL_FOLDER))?;
    let library = folder.join(LIBRARY);
    let fresh = Command::new(top.join("tools/fresh")).arg(&library).status();
    match fresh {
        Ok(status) if status.success() => Ok(folder),
        Ok(_) => Err(format!("{} is older than its sources", library.display())),
        Err(error) => Err(format!("tools/fresh cannot be run: {error}")),
    }
}
