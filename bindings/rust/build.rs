//! Finds libimurraqi.a, and has Cargo link it.

use std::env;
use std::path::PathBuf;
use std::process::{exit, Command};

const LIBRARY: &str = "libimurraqi.a";
const VARIABLE: &str = "IMURRAQI_LIB_DIR";
const MANIFEST: &str = "CARGO_MANIFEST_DIR";

/// Where the library is from this crate's own directory: as built in the
/// repository, and as installed together with it.
const BESIDE: [&str; 2] = ["../../target/staticlib", "../../../lib"];

fn main() {
    for variable in [VARIABLE, "PKG_CONFIG_PATH", MANIFEST] {
        println!("cargo:rerun-if-env-changed={variable}");
    }
    let directory = directory().unwrap_or_else(|error| {
        eprintln!("imurraqi: {error}");
        exit(1);
    });
    let library = directory.join(LIBRARY);
    println!("cargo:rerun-if-changed={}", library.display());
    println!("cargo:rustc-link-search=native={}", directory.display());
    println!("cargo:rustc-link-lib=static=imurraqi");
}

/// What the variable names, and nothing else if it is set; else beside this crate;
/// else what pkg-config says.
fn directory() -> Result<PathBuf, String> {
    if let Some(directory) = env::var_os(VARIABLE).map(PathBuf::from) {
        let wrong = format!(
            "{VARIABLE} is {}, where no {LIBRARY} is; it takes a whole path",
            directory.display()
        );
        return holding(directory).ok_or(wrong);
    }
    let own = env::var_os(MANIFEST).map(PathBuf::from).unwrap_or_default();
    let beside = BESIDE.map(|place| own.join(place));
    beside
        .into_iter()
        .chain(told_by_pkg_config())
        .find_map(holding)
        .ok_or(format!(
            "no {LIBRARY} is found; set {VARIABLE} to the directory that has it, or \
             PKG_CONFIG_PATH to the one that has imurraqi.pc (lib and lib/pkgconfig of what \
             `make install PREFIX=..` made)"
        ))
}

/// The directory, if the library is there.
fn holding(directory: PathBuf) -> Option<PathBuf> {
    directory.join(LIBRARY).is_file().then_some(directory)
}

/// Not `--libs-only-L`, which leaves out the system's own directories.
fn told_by_pkg_config() -> Option<PathBuf> {
    let asked = Command::new("pkg-config")
        .args(["--variable=libdir", "imurraqi"])
        .output();
    let told = asked.ok().filter(|output| output.status.success())?;
    let directory = String::from_utf8(told.stdout).ok()?;
    Some(PathBuf::from(directory.trim_end()))
}
