//! Links the archive of the proved calls, libcapi.a.
//!
//! `GALIVODERN_LIB_DIR` names a folder that has one. Without it tools/archive says where one is: in
//! prebuilt/, where that fits the sources, else in crates/capi/out/, proved and compiled for this build.

use std::path::{Path, PathBuf};
use std::process::Command;

const LIB_DIR: &str = "GALIVODERN_LIB_DIR";

fn main() {
    println!("cargo:rerun-if-env-changed={LIB_DIR}");
    let folder = match std::env::var_os(LIB_DIR) {
        Some(folder) => given_folder(PathBuf::from(folder)),
        None => made_folder(),
    };
    println!("cargo:rustc-link-search=native={}", folder.display());
    println!("cargo:rustc-link-lib=static=capi");
}

fn given_folder(folder: PathBuf) -> PathBuf {
    let archive = folder.join("libcapi.a");
    if !archive.is_file() {
        fail(&format!("there is no {}", archive.display()));
    }
    println!("cargo:rerun-if-changed={}", archive.display());
    folder
}

/// Has the archive made for the machine that is compiled for; gives the folder that it is in.
fn made_folder() -> PathBuf {
    let root = Path::new(env!("CARGO_MANIFEST_DIR")).join("../..");
    for source in ["crates.txt", "crates", "prebuilt", "tools"] {
        println!("cargo:rerun-if-changed={}", root.join(source).display());
    }
    let target = |part: &str| std::env::var(format!("CARGO_CFG_TARGET_{part}")).unwrap_or_default();
    if target("OS") != "linux" {
        fail(&format!("the proved code is compiled for Linux, not for {}", target("OS")));
    }
    let mut archive = Command::new(root.join("tools/archive"));
    let output = match archive.arg(target("ARCH")).output() {
        Ok(output) => output,
        Err(error) => fail(&format!("{archive:?} cannot be run: {error}")),
    };
    let said = String::from_utf8_lossy(&output.stderr);
    if !output.status.success() {
        fail(&format!("there is no archive to link. {archive:?} said:\n{said}"));
    }
    // why prebuilt/ was passed over, if it was
    for line in said.lines().filter(|line| line.starts_with("prebuilt/")) {
        println!("cargo:warning={line}");
    }
    PathBuf::from(String::from_utf8_lossy(&output.stdout).trim_end())
}

fn fail(message: &str) -> ! {
    eprintln!("error: {message}");
    eprintln!("       Set {LIB_DIR} to a folder with a libcapi.a to link that one.");
    std::process::exit(1);
}
