//! Finds the static libraries of the proved flows. Where they aren't there, or the target isn't theirs, it only warns:
//! then the crate can be checked and documented, and what calls the flows ends with a message.

use std::env;
use std::path::{self, Path, PathBuf};
use std::process::Command;

/// A folder with both libraries, where one is named.
const FOLDER: &str = "HILLGAUZE_LIB";
/// The folder of the Rattle toolchain.
const KIT: &str = "RATTLE_KIT";
/// The library of the flows.
const FLOWS: &str = "hillgauze_c";
/// What it needs of the toolchain.
const SYSTEM: &str = "libc_c";

fn main() {
    println!("cargo:rustc-check-cfg=cfg(hillgauze_absent)");
    println!("cargo:rerun-if-env-changed={FOLDER}");
    println!("cargo:rerun-if-env-changed={KIT}");
    let found = if is_supported() { find() } else { None };
    let Some((flows, system)) = found else {
        println!("cargo:rustc-cfg=hillgauze_absent");
        return;
    };
    link(&flows, FLOWS);
    link(&system, SYSTEM);
}

/// Whether the library can be had for the target.
fn is_supported() -> bool {
    let target = |name| env::var(format!("CARGO_CFG_TARGET_{name}")).unwrap_or_default();
    if target("OS") == "linux" && target("ARCH") == "x86_64" {
        return true;
    }
    warn("the proved flows are for Linux on x86-64 (x86-64-v2), and not for this target");
    false
}

/// The folders of the two libraries.
fn find() -> Option<(PathBuf, PathBuf)> {
    if let Some(named) = env::var_os(FOLDER) {
        let folder = path::absolute(named).expect("a folder is named");
        let found = Some((folder.clone(), folder)).filter(|(folder, _)| has_both(folder, folder));
        if found.is_none() {
            warn(&format!(
                "the folder that {FOLDER} names hasn't both lib{FLOWS}.a and lib{SYSTEM}.a"
            ));
        }
        return found;
    }
    let built = (repository().join("crates/hillgauze_c/out"), kit().join("c"));
    let mut places = vec![built];
    places.extend(installed().map(|folder| (folder.clone(), folder)));
    let found = places
        .into_iter()
        .find(|(flows, system)| has_both(flows, system));
    if found.is_none() {
        explain();
    }
    found
}

/// Folders that have both, where a pack was unpacked or installed: beside the crate, where pkg-config says, in
/// `/usr/local/lib`.
fn installed() -> impl Iterator<Item = PathBuf> {
    println!("cargo:rerun-if-env-changed=PKG_CONFIG_PATH");
    let asked = Command::new("pkg-config")
        .args(["--variable=libdir", "hillgauze"])
        .output()
        .ok();
    let told = asked
        .filter(|answer| answer.status.success())
        .and_then(|answer| {
            let folder = String::from_utf8(answer.stdout).ok()?;
            Some(PathBuf::from(folder.trim()))
        });
    let beside = here().join("lib");
    [Some(beside), told, Some(PathBuf::from("/usr/local/lib"))]
        .into_iter()
        .flatten()
}

fn has_both(flows: &Path, system: &Path) -> bool {
    archive(flows, FLOWS).is_file() && archive(system, SYSTEM).is_file()
}

fn archive(folder: &Path, name: &str) -> PathBuf {
    folder.join(format!("lib{name}.a"))
}

fn here() -> PathBuf {
    env::var_os("CARGO_MANIFEST_DIR")
        .expect("cargo names the folder of the crate")
        .into()
}

/// The top of the repository that the crate lies in. Elsewhere it is some folder without the library.
fn repository() -> PathBuf {
    here()
        .ancestors()
        .nth(2)
        .map_or_else(here, Path::to_path_buf)
}

fn kit() -> PathBuf {
    let named = env::var_os(KIT);
    named.map_or_else(
        || PathBuf::from("/opt/rattle"),
        |folder| path::absolute(folder).expect("a folder is named"),
    )
}

fn link(folder: &Path, name: &str) {
    println!("cargo:rerun-if-changed={}", archive(folder, name).display());
    println!("cargo:rustc-link-search=native={}", folder.display());
    println!("cargo:rustc-link-lib=static={name}");
}

fn warn(text: &str) {
    println!("cargo:warning=hillgauze: {text}");
}

fn explain() {
    // What was built later is found then.
    println!(
        "cargo:rerun-if-changed={}",
        archive(&repository().join("crates/hillgauze_c/out"), FLOWS).display()
    );
    println!(
        "cargo:rerun-if-changed={}",
        archive(&here().join("lib"), FLOWS).display()
    );
    warn("the library of the proved flows isn't there, so what calls them will end with a message");
    warn("build it by `rt lib` in crates/hillgauze_c, which takes Rattle's toolchain and some ten processor minutes");
    warn(&format!(
        "or unpack what tools/pack_native made: into native/rust/lib, or where {FOLDER} names it"
    ));
}
