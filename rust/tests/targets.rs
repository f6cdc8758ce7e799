//! The error of `build.rs` if the archive is not for the target, before anything is compiled for it. The numbers of
//! machines are those of `e_machine` in the header of an ELF file.
use std::path::{Path, PathBuf};
use std::process::Command;
use std::{env, fs};

const X86_64: u8 = 62;
const AARCH64: u8 = 183;
const MIPS: u8 = 8;

/// A folder with an archive of one object for a machine. It has only what `build.rs` reads.
fn archive(machine: u8) -> PathBuf {
    let folder = Path::new(env!("CARGO_TARGET_TMPDIR")).join(format!("machine-{machine}"));
    let mut header = [0; 64];
    header[..4].copy_from_slice(b"\x7fELF");
    header[18] = machine;
    fs::create_dir_all(&folder).unwrap();
    fs::write(folder.join("libdns_names_wire.a"), [&b"!<arch>\n"[..], &header].concat()).unwrap();
    folder
}

/// Returns what `cargo build` prints for a target. The build has to fail.
fn refusal(target: &str, machine: u8) -> String {
    let output = Command::new(env!("CARGO"))
        .args(["build", "--offline", "--manifest-path", concat!(env!("CARGO_MANIFEST_DIR"), "/Cargo.toml")])
        .args(["--target", target, "--target-dir"])
        .arg(Path::new(env!("CARGO_TARGET_TMPDIR")).join("targets"))
        .env("DNW_LIB_DIR", archive(machine))
        .output()
        .unwrap();
    assert!(!output.status.success(), "it was built for {target}");
    String::from_utf8_lossy(&output.stderr).into_owned()
}

#[test]
fn a_target_without_an_archive_is_refused() {
    for (target, machine, said) in [
        ("x86_64-pc-windows-gnu", X86_64, "the proved library is for Linux, and this build is for windows"),
        ("aarch64-apple-darwin", AARCH64, "the proved library is for Linux, and this build is for macos"),
        ("aarch64-unknown-linux-gnu", X86_64, "libdns_names_wire.a is for x86_64, and this build is for aarch64"),
        ("i686-unknown-linux-gnu", X86_64, "libdns_names_wire.a is for x86_64, and this build is for x86:"),
        ("x86_64-unknown-linux-gnu", AARCH64, "libdns_names_wire.a is for aarch64, and this build is for x86_64"),
        ("x86_64-unknown-linux-gnu", MIPS, "libdns_names_wire.a is for another processor, and this build is for"),
    ] {
        let printed = refusal(target, machine);
        assert!(printed.contains(said), "{target}: {printed}");
    }
}
