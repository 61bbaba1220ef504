//! Finds the Rust's files and names them as modules. They are compiled where they are, and never copied.

use std::path::{Path, PathBuf};
use std::{env, fs};

const CORE: [&str; 6] = ["activity", "error", "id", "record", "timer", "version"];
const FLASH: [&str; 5] = ["append", "frame", "integrity", "recovery", "storage"];

/// The folder of WAYMAKER_SRC, or the one that stands beside the repository. A relative one counts from the
/// repository's root.
fn source() -> PathBuf {
    println!("cargo::rerun-if-env-changed=WAYMAKER_SRC");
    let root = PathBuf::from(env::var_os("CARGO_MANIFEST_DIR").unwrap_or_default()).join("../..");
    root.join(env::var_os("WAYMAKER_SRC").unwrap_or("../shared/docs/src".into()))
}

/// One line for each file, or the first file that is not there.
fn modules(source: &Path) -> Result<String, String> {
    let mut lines = String::new();
    for (name, modules) in [("waymaker-core", &CORE[..]), ("waymaker-flash", &FLASH[..])] {
        for module in modules {
            let path = source.join("crates").join(name).join("src").join(format!("{module}.rs"));
            let path = path.canonicalize().map_err(|_| path.display().to_string())?;
            println!("cargo::rerun-if-changed={}", path.display());
            lines.push_str(&format!("#[path = {:?}]\npub mod {module};\n", path.display().to_string()));
        }
    }
    Ok(lines)
}

fn main() {
    let source = source();
    match modules(&source) {
        Ok(lines) => {
            let out = PathBuf::from(env::var_os("OUT_DIR").unwrap_or_default()).join("modules.rs");
            if let Err(error) = fs::write(&out, lines) {
                println!("cargo::error=cannot write {}: {error}", out.display());
            }
        }
        Err(missing) => println!(
            "cargo::error=the Rust journal is not there ({missing}): set WAYMAKER_SRC to the folder that holds crates/waymaker-core and crates/waymaker-flash"
        ),
    }
}
