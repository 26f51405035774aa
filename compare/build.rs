//! Finds the original's three modules and the port's static library, and
//! tells the program by cfg which of them are there:
//!
//! - `original`: boxed.rs, dense.rs and report.rs were found. They are
//!   included by path and never copied.
//! - `port_sqrt`, `port_least_norm`, `port_joins`, `port_solve`,
//!   `port_tallied`, `port_triangle`, `port_tallied_triangle`, `port_bend`, `port_chain`, `port_chain_write`,
//!   `port_exact`, `port_exact_nearest`, `port_exact_join`: the static library
//!   has that function, or those.

use std::env;
use std::fs;
use std::path::{Path, PathBuf};
use std::process::Command;

/// The original's modules that the comparison includes.
const MODULES: [&str; 3] = ["boxed", "dense", "report"];

/// Each cfg of the port with the symbol that sets it.
const CALLS: [(&str, &str); 13] = [
    ("port_sqrt", "piskorlu_sqrt"),
    ("port_least_norm", "piskorlu_least_norm"),
    ("port_joins", "piskorlu_continued"),
    ("port_solve", "piskorlu_solve"),
    ("port_tallied", "piskorlu_tallied"),
    ("port_triangle", "piskorlu_solve_triangle"),
    ("port_tallied_triangle", "piskorlu_tallied_triangle"),
    ("port_bend", "piskorlu_bend"),
    ("port_chain", "piskorlu_chain_step"),
    ("port_chain_write", "piskorlu_chain_write"),
    ("port_exact", "piskorlu_exact_row"),
    ("port_exact_nearest", "piskorlu_exact_nearest"),
    ("port_exact_join", "piskorlu_exact_join"),
];

fn main() {
    println!("cargo::rerun-if-changed=build.rs");
    println!("cargo::rustc-check-cfg=cfg(original)");
    for (cfg, _) in CALLS {
        println!("cargo::rustc-check-cfg=cfg({cfg})");
    }
    let out = PathBuf::from(variable("OUT_DIR"));
    let root = PathBuf::from(variable("CARGO_MANIFEST_DIR")).join("..");
    include_original(&root, &out);
    link_port(&root);
    println!("cargo::rustc-env=COMPARE_RUSTC={}", rustc_version());
}

fn variable(name: &str) -> String {
    env::var(name).unwrap_or_else(|_| panic!("cargo sets {name}"))
}

/// Writes OUT_DIR/original.rs, which names the original's files by path.
fn include_original(root: &Path, out: &Path) {
    println!("cargo::rerun-if-env-changed=PISKORLU_ORIGINAL");
    let folders = original_folders(root);
    let named: Vec<String> = folders.iter().map(|f| f.display().to_string()).collect();
    println!("cargo::rustc-env=COMPARE_LOOKED_IN={}", named.join(", "));
    for folder in folders {
        if let Some(text) = modules_of(&folder) {
            fs::write(out.join("original.rs"), text).expect("OUT_DIR can be written");
            println!("cargo::rustc-cfg=original");
            return;
        }
    }
}

/// Where the original's files may be: in the folder that `PISKORLU_ORIGINAL`
/// names, or else in `shared/docs/src` beside the repository or a folder above
/// it, or beside the repository that it was cloned from.
fn original_folders(root: &Path) -> Vec<PathBuf> {
    if let Ok(named) = env::var("PISKORLU_ORIGINAL") {
        return vec![PathBuf::from(named)];
    }
    let mut folders = Vec::new();
    for repository in [root.canonicalize().ok(), cloned_from(root)] {
        let above = repository.iter().flat_map(|r| r.ancestors().skip(1));
        folders.extend(above.map(|f| f.join("shared/docs/src")));
    }
    folders
}

/// The repository that this one was cloned from, where that is a folder.
fn cloned_from(root: &Path) -> Option<PathBuf> {
    let asked = Command::new("git")
        .arg("-C")
        .arg(root)
        .args(["config", "--get", "remote.origin.url"])
        .output()
        .ok()?;
    let url = String::from_utf8(asked.stdout).ok()?;
    let path = url.trim();
    let path = path.strip_prefix("file://").unwrap_or(path);
    Path::new(path).canonicalize().ok()
}

/// The lines that include the three modules, where the folder has them all.
fn modules_of(folder: &Path) -> Option<String> {
    let solve = folder.join("crates/pa-core/src/solve");
    let mut text = String::new();
    for module in MODULES {
        let file = solve.join(format!("{module}.rs")).canonicalize().ok()?;
        println!("cargo::rerun-if-changed={}", file.display());
        text.push_str(&format!("#[path = {file:?}]\npub mod {module};\n"));
    }
    Some(text)
}

/// Links the static library if it is there, and sets a cfg for each call in it.
fn link_port(root: &Path) {
    println!("cargo::rerun-if-env-changed=PISKORLU_STATICLIB");
    let archive = match env::var("PISKORLU_STATICLIB") {
        Ok(named) => PathBuf::from(named),
        Err(_) => root.join("target/staticlib/libpiskorlu.a"),
    };
    println!("cargo::rerun-if-changed={}", archive.display());
    let Ok(bytes) = fs::read(&archive) else {
        return;
    };
    for (cfg, symbol) in CALLS {
        if has_symbol(&bytes, symbol) {
            println!("cargo::rustc-cfg={cfg}");
        }
    }
    println!("cargo::rustc-link-arg={}", archive.display());
}

/// Whether the archive's bytes hold the symbol's name, ended by a zero byte as
/// in a table of names, so that no longer name passes for it.
fn has_symbol(bytes: &[u8], symbol: &str) -> bool {
    let mut ended = symbol.as_bytes().to_vec();
    ended.push(0);
    bytes.windows(ended.len()).any(|window| window == ended)
}

/// The compiler's own line about its version, for the benchmark's page.
fn rustc_version() -> String {
    let output = std::process::Command::new(variable("RUSTC"))
        .arg("--version")
        .output();
    match output {
        Ok(output) => String::from_utf8_lossy(&output.stdout).trim().to_string(),
        Err(_) => String::from("rustc, version not known"),
    }
}
