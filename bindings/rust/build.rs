//! Finds the C library: in the folder, or as the archive, that LFI_VERIFIER_LIB names, or else by pkg-config.

use std::{env, path::PathBuf, process::Command};

/// The number of the interface that src/calls.rs declares: LFI_VERSION of the header.
const INTERFACE: &str = "7";
const NAME_IT: &str = "name the library's folder by LFI_VERIFIER_LIB";

fn main() -> Result<(), String> {
    for name in ["LFI_VERIFIER_LIB", "PKG_CONFIG", "PKG_CONFIG_PATH"] {
        println!("cargo:rerun-if-env-changed={name}");
    }
    let named = match env::var_os("LFI_VERIFIER_LIB").filter(|it| !it.is_empty()).map(PathBuf::from) {
        // cargo runs this in the crate's own folder.
        Some(named) if named.is_relative() => return Err(format!("LFI_VERIFIER_LIB has to be a whole path, and is {}", named.display())),
        Some(named) => named,
        None => by_pkg_config()?,
    };
    let folder = match named.is_file() {
        true => named.parent().map_or_else(|| PathBuf::from("."), PathBuf::from),
        false => named,
    };
    let archive = folder.join("liblfi_verifier.a");
    let kind = match (archive.is_file(), folder.join("liblfi_verifier.so").exists()) {
        (true, _) => "static",
        (false, true) => "dylib",
        (false, false) => return Err(format!("{}: no liblfi_verifier.a and no liblfi_verifier.so", folder.display())),
    };
    println!("cargo:rerun-if-changed={}", archive.display());
    println!("cargo:rustc-link-search=native={}", folder.display());
    println!("cargo:rustc-link-lib={kind}=lfi_verifier");
    Ok(())
}

/// The folder of the library that is installed, where its interface is this one.
fn by_pkg_config() -> Result<PathBuf, String> {
    let program = env::var("PKG_CONFIG").unwrap_or_else(|_| "pkg-config".to_owned());
    let ask = |words: &[&str]| {
        let told = Command::new(&program).args(words).output().map_err(|why| format!("{program}: {why}"))?;
        match told.status.success() {
            true => Ok(String::from_utf8_lossy(&told.stdout).trim().to_owned()),
            false => Err(format!("{}; {NAME_IT}", String::from_utf8_lossy(&told.stderr).trim())),
        }
    };
    let installed = ask(&["--print-errors", "--modversion", "lfi_verifier"])?;
    match installed == INTERFACE {
        true => ask(&["--variable=libdir", "lfi_verifier"]).map(|it| PathBuf::from(unescaped(&it))),
        false => Err(format!("the installed library has interface {installed}, and this crate is for {INTERFACE}; {NAME_IT}")),
    }
}

/// A text of pkg-config's, which puts a backslash before what a shell would read.
fn unescaped(text: &str) -> String {
    let mut letters = text.chars();
    std::iter::from_fn(|| letters.next().and_then(|it| if it == '\\' { letters.next() } else { Some(it) })).collect()
}
