//! Finds the proved archive and links it.

use std::env;
use std::ffi::OsString;
use std::path::{Path, PathBuf};
use std::process::{exit, Command};

fn main() {
    println!("cargo:rerun-if-env-changed=NASZEPTAN_LIB_DIR");
    let named = env::var_os("NASZEPTAN_LIB_DIR").filter(|folder| !folder.is_empty());
    let folder = match named {
        Some(folder) => named_folder(folder),
        None => own_folder(),
    };
    println!("cargo:rustc-link-search=native={}", folder.display());
    println!("cargo:rustc-link-lib=static=host");
}

/// The folder that NASZEPTAN_LIB_DIR, an absolute path, names. Its archive is
/// taken as it is, so it may be one for another processor.
fn named_folder(folder: OsString) -> PathBuf {
    let archive = Path::new(&folder).join("libhost.a");
    println!("cargo:rerun-if-changed={}", archive.display());
    if !archive.is_file() {
        refuse(&format!(
            "There is no {}, which NASZEPTAN_LIB_DIR names.",
            archive.display()
        ));
    }
    PathBuf::from(folder)
}

/// Where tools/archive leaves the archive. That script tells, for C hosts too,
/// whether it is there and that of the sources.
fn own_folder() -> PathBuf {
    let arch = env::var("CARGO_CFG_TARGET_ARCH").unwrap_or_default();
    if arch != "x86_64" {
        refuse(&format!(
            "The proved archive is x86-64 code and cannot be linked for {arch}. \
             On such a machine, call tools/cargo in place of cargo: it builds and runs for x86-64."
        ));
    }
    let root = root();
    for source in ["crates", "crates.txt", "target/staticlib"] {
        println!("cargo:rerun-if-changed={}", root.join(source).display());
    }
    match Command::new(root.join("tools/archive"))
        .arg("--find")
        .output()
    {
        Err(why) => refuse(&format!(
            "{}/tools/archive cannot be run: {why}.",
            root.display()
        )),
        Ok(told) if !told.status.success() => refuse(String::from_utf8_lossy(&told.stderr).trim()),
        Ok(_) => root.join("target/staticlib"),
    }
}

fn root() -> PathBuf {
    let here = env::var_os("CARGO_MANIFEST_DIR").expect("cargo sets CARGO_MANIFEST_DIR");
    let root = Path::new(&here).ancestors().nth(2);
    root.expect("this package lies two folders below the repository's root")
        .to_path_buf()
}

fn refuse(why: &str) -> ! {
    eprintln!("{why}");
    exit(1)
}
