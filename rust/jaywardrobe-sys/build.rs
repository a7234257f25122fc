//! Finds libjaywardrobe.a, and has it linked.
use std::env;
use std::path::{Path, PathBuf};
use std::process::Command;

const ARCHIVE: &str = "libjaywardrobe.a";
/// The variable that names the archive's folder.
const VARIABLE: &str = "JAYWARDROBE_LIB_DIR";

fn main() {
    for name in [VARIABLE, "PKG_CONFIG", "PKG_CONFIG_PATH"] {
        println!("cargo::rerun-if-env-changed={name}");
    }
    match find_folder() {
        Ok(folder) => link(&folder),
        Err(why) => println!("cargo::error={why}"),
    }
}

/// Tells Cargo to link the archive of this folder, and to do so again once the archive changes.
/// The build script of a dependent crate reads the folder in `DEP_JAYWARDROBE_LIB_DIR`.
fn link(folder: &Path) {
    let name = folder.display();
    println!("cargo::rerun-if-changed={name}/{ARCHIVE}");
    println!("cargo::rustc-link-search=native={name}");
    println!("cargo::rustc-link-lib=static=jaywardrobe");
    println!("cargo::metadata=LIB_DIR={name}");
}

/// Returns the folder of the archive, or a line that says why there is none.
fn find_folder() -> Result<PathBuf, String> {
    let (source, folder) = match env::var_os(VARIABLE) {
        Some(folder) => (VARIABLE, PathBuf::from(folder)),
        None => ("pkg-config", ask_pkg_config()?),
    };
    let name = folder.display();
    if folder.is_relative() {
        Err(format!("{source} names {name}: not an absolute path"))
    } else if !folder.join(ARCHIVE).is_file() {
        Err(format!("{source} names {name}: no {ARCHIVE} in it"))
    } else {
        Ok(folder)
    }
}

/// Asks pkg-config for the folder. The library has to be of this crate's version.
fn ask_pkg_config() -> Result<PathBuf, String> {
    let package = format!("jaywardrobe = {}", env!("CARGO_PKG_VERSION"));
    run_pkg_config(&["--print-errors", "--exists", &package])
        .and_then(|_| run_pkg_config(&["--variable=libdir", "jaywardrobe"]))
        .map(PathBuf::from)
        .map_err(|why| format!("set {VARIABLE} to the folder of {ARCHIVE}, or install it: {why}"))
}

/// Returns what pkg-config prints, or why it fails, in one line.
fn run_pkg_config(arguments: &[&str]) -> Result<String, String> {
    let program = env::var("PKG_CONFIG").unwrap_or_else(|_| "pkg-config".to_owned());
    let ran = Command::new(&program).args(arguments).output();
    let ran = ran.map_err(|error| format!("{program}: {error}"))?;
    let printed = |bytes: &[u8]| String::from_utf8_lossy(bytes).trim().replace('\n', " ");
    if ran.status.success() {
        Ok(printed(&ran.stdout))
    } else {
        Err(printed(&ran.stderr))
    }
}
