//! Links the archive under test, and beside it an older one if PMC330_OLD_ARCHIVE names it.

use std::env;
use std::path::{Path, PathBuf};
use std::process::Command;

fn main() {
    println!("cargo:rerun-if-env-changed=PMC330_ARCHIVE_DIR");
    println!("cargo:rerun-if-env-changed=PMC330_OLD_ARCHIVE");
    println!("cargo:rustc-check-cfg=cfg(old_archive)");
    let folder = archive_folder();
    let archive = folder.join("libpmc330_c.a");
    println!("cargo:rerun-if-changed={}", archive.display());
    if !archive.is_file() {
        panic!(
            "{} is missing: run `tools/build pmc330_c` at the root of the repository",
            archive.display()
        );
    }
    link_header();
    println!("cargo:rustc-link-search=native={}", folder.display());
    println!("cargo:rustc-link-lib=static=pmc330_c");
    match env::var("PMC330_OLD_ARCHIVE") {
        Ok(old) if !old.is_empty() => link_old(&package().join(old)),
        _ => (),
    }
}

fn package() -> PathBuf {
    env::var("CARGO_MANIFEST_DIR")
        .expect("cargo sets CARGO_MANIFEST_DIR")
        .into()
}

/// The folder that PMC330_ARCHIVE_DIR names, else target/staticlib at the root.
fn archive_folder() -> PathBuf {
    let package = package();
    let root = package.parent().expect("checker/ stands in the repository");
    match env::var("PMC330_ARCHIVE_DIR") {
        // A path that is not absolute is taken from checker/, where cargo is run.
        Ok(folder) => package.join(folder),
        Err(_) => root.join("target").join("staticlib"),
    }
}

/// What `src/archive/header.c` says of the header.
fn link_header() {
    println!(
        "cargo:rerun-if-changed={}",
        include().join("pmc330.h").display()
    );
    let source = package().join("src").join("archive").join("header.c");
    println!("cargo:rerun-if-changed={}", source.display());
    let object = out().join("header.o");
    run(Command::new("cc")
        .args([
            "-std=c99",
            "-Wall",
            "-Wextra",
            "-pedantic",
            "-Werror",
            "-O2",
        ])
        .arg("-I")
        .arg(include())
        .arg("-c")
        .arg(source)
        .arg("-o")
        .arg(&object));
    archived(&object, "pmc330_header");
}

fn include() -> PathBuf {
    package().join("..").join("include")
}

/// One object as a library to be linked.
fn archived(object: &Path, name: &str) {
    let library = out().join(format!("lib{name}.a"));
    // `ar` adds to an archive that is there.
    let _ = std::fs::remove_file(&library);
    run(Command::new("ar").arg("rcs").arg(&library).arg(object));
    println!("cargo:rustc-link-search=native={}", out().display());
    println!("cargo:rustc-link-lib=static={name}");
}

fn out() -> PathBuf {
    env::var("OUT_DIR").expect("cargo sets OUT_DIR").into()
}

/// Both archives have the same names in them. The old one becomes one object, in which all is local
/// but its player, by the name old_pmc330_play.
fn link_old(archive: &Path) {
    println!("cargo:rerun-if-changed={}", archive.display());
    let [whole, old] = ["whole.o", "old.o"].map(|name| out().join(name));
    run(Command::new("ld")
        .args(["-r", "--whole-archive"])
        .arg(archive)
        .arg("-o")
        .arg(&whole));
    run(Command::new("objcopy")
        .args(["--redefine-sym", "pmc330_play=old_pmc330_play"])
        .arg("--keep-global-symbol=old_pmc330_play")
        .args([&whole, &old]));
    archived(&old, "pmc330_old");
    println!("cargo:rustc-cfg=old_archive");
}

fn run(command: &mut Command) {
    let status = command.status();
    assert!(
        status.as_ref().is_ok_and(|status| status.success()),
        "{command:?}: {status:?}"
    );
}
