//! Finds the static library and links it: the archive that `PISKORLU_STATICLIB`
//! names, else lib/libpiskorlu.a under the prefix that `PISKORLU_PREFIX` names
//! (tools/install.sh put it there), else target/staticlib/libpiskorlu.a of this
//! repository.

use std::env;
use std::path::PathBuf;

fn main() {
    println!("cargo::rerun-if-changed=build.rs");
    println!("cargo::rerun-if-env-changed=PISKORLU_STATICLIB");
    println!("cargo::rerun-if-env-changed=PISKORLU_PREFIX");
    let archive = archive();
    println!("cargo::rerun-if-changed={}", archive.display());
    let (Some(folder), Some(file)) = (archive.parent(), archive.file_name()) else {
        panic!("{} is no archive", archive.display());
    };
    assert!(
        archive.is_file(),
        "{} is not there; `tools/archive.sh` makes target/staticlib/libpiskorlu.a",
        archive.display()
    );
    println!("cargo::rustc-link-search=native={}", folder.display());
    println!(
        "cargo::rustc-link-lib=static:+verbatim={}",
        file.to_string_lossy()
    );
}

fn archive() -> PathBuf {
    if let Ok(named) = env::var("PISKORLU_STATICLIB") {
        return PathBuf::from(named);
    }
    if let Ok(prefix) = env::var("PISKORLU_PREFIX") {
        return PathBuf::from(prefix).join("lib/libpiskorlu.a");
    }
    let crate_folder = env::var("CARGO_MANIFEST_DIR").expect("cargo sets CARGO_MANIFEST_DIR");
    PathBuf::from(crate_folder).join("../../target/staticlib/libpiskorlu.a")
}
