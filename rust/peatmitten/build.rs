//! Links the static libraries, which are for Linux on x86-64 and on aarch64: the first, and that for terminals with owners. They are looked for in
//! the folder that the environment variable PEATMITTEN_LIB_DIR names, or else where `./peatmitten library` puts those for the target's processor.
//! Installed they are libpeatmitten.a and libpeatmitten_bank.a, there libagent.a and libbank.a. Where one is missing, that is a warning here and
//! an error where a program is linked: documentation is made without them.

use std::env;
use std::path::{Path, PathBuf};
use std::process;

/// Each archive by the name that it is installed under, and by the one that it is built under.
const ARCHIVES: [[&str; 2]; 2] = [["peatmitten", "agent"], ["peatmitten_bank", "bank"]];

/// What cargo says of the target.
fn target(key: &str) -> String {
    env::var(key).unwrap_or_default()
}

/// The target's processor. Either can also be a machine with other pointers, or with its bytes in the other order: those are refused.
fn processor() -> String {
    let processor = target("CARGO_CFG_TARGET_ARCH");
    let known = ["x86_64", "aarch64"].contains(&processor.as_str())
        && target("CARGO_CFG_TARGET_OS") == "linux"
        && target("CARGO_CFG_TARGET_POINTER_WIDTH") == "64"
        && target("CARGO_CFG_TARGET_ENDIAN") == "little";
    if !known {
        eprintln!("peatmitten: the library is for Linux on x86-64 and aarch64 only, and this build is for {}", target("TARGET"));
        process::exit(1);
    }
    processor
}

fn library_folder(processor: &str) -> PathBuf {
    let built = Path::new(env!("CARGO_MANIFEST_DIR")).join("../../target/staticlib");
    match (env::var_os("PEATMITTEN_LIB_DIR"), processor) {
        (Some(folder), _) => PathBuf::from(folder),
        (None, "x86_64") => built,
        (None, _) => built.join(processor),
    }
}

fn archive(folder: &Path, name: &str) -> PathBuf {
    folder.join(format!("lib{name}.a"))
}

/// Links the archive of either name that is in the folder.
fn link(folder: &Path, processor: &str, names: [&str; 2]) {
    let name = names.into_iter().find(|name| archive(folder, name).is_file()).unwrap_or_else(|| {
        let [installed, built] = names;
        let folder = folder.display();
        println!(
            "cargo:warning=there is no lib{installed}.a or lib{built}.a in {folder}: run `./peatmitten library {processor}` or set PEATMITTEN_LIB_DIR"
        );
        installed
    });
    println!("cargo:rerun-if-changed={}", archive(folder, name).display());
    println!("cargo:rustc-link-lib=static={name}");
}

fn main() {
    let processor = processor();
    let folder = library_folder(&processor);
    println!("cargo:rerun-if-env-changed=PEATMITTEN_LIB_DIR");
    println!("cargo:rustc-link-search=native={}", folder.display());
    for names in ARCHIVES {
        link(&folder, &processor, names);
    }
}
