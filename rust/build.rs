//! Finds the archive `libdns_names_wire.a` and links it.
//!
//! It is taken from the folder that the environment variable `DNW_LIB_DIR` names; if that is not set, from the folder
//! of the target's processor in `lib` beside this file, which a packaged crate has. If neither is there, in a checkout
//! of the repository, `tools/c-library` builds it, which needs the Rattle toolchain (`rt`).
//!
//! An archive is for one processor, on Linux with glibc or musl. For another target the build fails here, and not in
//! the linker.
use std::env;
use std::fs;
use std::path::{Path, PathBuf};
use std::process::{exit, Command};

const ARCHIVE: &str = "libdns_names_wire.a";

/// The first Rust 1.x whose `core` has `net` and `error`.
const CORE_HAS_ERROR: u32 = 81;

fn main() {
    println!("cargo:rerun-if-env-changed=DNW_LIB_DIR");
    set_core_alone();
    let folder = is_linux().and_then(|()| folder()).and_then(fits_target).unwrap_or_else(|problem| {
        eprintln!("dns-names-wire: {problem}");
        exit(1);
    });
    println!("cargo:rerun-if-changed={}", folder.join(ARCHIVE).display());
    println!("cargo:rustc-link-search=native={}", folder.display());
    println!("cargo:rustc-link-lib=static=dns_names_wire");
}

/// Sets `core_alone` if the crate takes nothing from `std`: the feature is off, and `core` has what the crate needs.
fn set_core_alone() {
    if rust_version() < Some(CORE_HAS_ERROR) {
        return;
    }
    println!("cargo:rustc-check-cfg=cfg(core_alone)");
    if env::var_os("CARGO_FEATURE_STD").is_none() {
        println!("cargo:rustc-cfg=core_alone");
    }
}

/// Returns the x of Rust 1.x.
fn rust_version() -> Option<u32> {
    let said = Command::new(env::var_os("RUSTC")?).arg("--version").output().ok()?;
    String::from_utf8(said.stdout).ok()?.split('.').nth(1)?.parse().ok()
}

fn folder() -> Result<PathBuf, String> {
    if let Some(folder) = env::var_os("DNW_LIB_DIR").map(PathBuf::from) {
        return match folder.join(ARCHIVE).is_file() {
            true => Ok(folder),
            false => Err(format!("there is no {ARCHIVE} in DNW_LIB_DIR, {}", folder.display())),
        };
    }
    let here = PathBuf::from(env::var_os("CARGO_MANIFEST_DIR").expect("cargo sets it"));
    let packed = here.join("lib");
    if packed.is_dir() {
        let own = packed.join(target("ARCH"));
        return match own.join(ARCHIVE).is_file() {
            true => Ok(own),
            false => Err(format!(
                "this crate has no archive for {}: set DNW_LIB_DIR to a folder that has one",
                target("ARCH")
            )),
        };
    }
    build(&here.join("../tools/c-library"))
}

/// Builds the archive in a checkout of the repository.
fn build(tool: &Path) -> Result<PathBuf, String> {
    if !tool.is_file() {
        return Err(format!("set DNW_LIB_DIR to the folder that has {ARCHIVE}"));
    }
    let out = PathBuf::from(env::var_os("OUT_DIR").expect("cargo sets it"));
    match Command::new(tool).arg(&out).args(["", &target("ARCH")]).status() {
        Ok(status) if status.success() => Ok(out),
        _ => Err(format!("{} failed: it needs the Rattle toolchain; or set DNW_LIB_DIR", tool.display())),
    }
}

fn target(part: &str) -> String {
    env::var(format!("CARGO_CFG_TARGET_{part}")).expect("cargo sets it")
}

fn is_linux() -> Result<(), String> {
    match target("OS").as_str() {
        "linux" => Ok(()),
        other => Err(format!("the proved library is for Linux, and this build is for {other}")),
    }
}

/// Returns the folder, if its archive has code for the processor of the target.
fn fits_target(folder: PathBuf) -> Result<PathBuf, String> {
    let archive = folder.join(ARCHIVE);
    let octets = fs::read(&archive).map_err(|error| format!("{}: {error}", archive.display()))?;
    let (own, wanted) = (processor(&octets), target("ARCH"));
    if own == Some(wanted.as_str()) {
        return Ok(folder);
    }
    let own = own.unwrap_or("another processor");
    Err(format!("{} is for {own}, and this build is for {wanted}: there is no archive for that", archive.display()))
}

/// Returns the processor of the first object of an archive, from its ELF header.
fn processor(archive: &[u8]) -> Option<&'static str> {
    let start = archive.windows(4).position(|octets| octets == b"\x7fELF")?;
    match archive.get(start + 18..start + 20)? {
        [62, 0] => Some("x86_64"),
        [183, 0] => Some("aarch64"),
        _ => None,
    }
}
