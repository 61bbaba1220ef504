//! Names the static library to the linker: libjardolento.a, in the folder that JARDOLENTO_LIB names, or else in
//! crates/jardolento/out of the repository that this package stands in. A relative folder counts from this package's
//! own.

use std::env;
use std::path::PathBuf;

fn main() {
    let package = PathBuf::from(env::var_os("CARGO_MANIFEST_DIR").expect("cargo sets CARGO_MANIFEST_DIR"));
    let folder = match env::var_os("JARDOLENTO_LIB") {
        Some(named) => package.join(named),
        None => package.join("../../crates/jardolento/out"),
    };
    let library = folder.join("libjardolento.a");

    println!("cargo:rerun-if-env-changed=JARDOLENTO_LIB");
    println!("cargo:rerun-if-changed={}", library.display());
    println!("cargo:rustc-link-search=native={}", folder.display());
    println!("cargo:rustc-link-lib=static=jardolento");

    // A warning and no error, so that `cargo check` does without the library.
    if !library.is_file() {
        println!(
            "cargo:warning=libjardolento.a is not in {}: make it with `rt lib` in \
             crates/jardolento, or name its folder in JARDOLENTO_LIB",
            folder.display()
        );
    }
}
