//! Links the static library that `tools/library` writes: from OURISCADO_LIB, or else from the repository's target/staticlib.
//!
//! Where it is missing this warns, and only what links fails then: `cargo doc` and `cargo check` need no library.
use std::env;
use std::path::PathBuf;

fn main() {
    println!("cargo:rerun-if-env-changed=OURISCADO_LIB");
    let here = PathBuf::from(env::var_os("CARGO_MANIFEST_DIR").expect("cargo sets it"));
    let folder = env::var_os("OURISCADO_LIB").map_or_else(|| here.join("../target/staticlib"), PathBuf::from);
    let archive = folder.join("libouriscado.a");
    println!("cargo:rerun-if-changed={}", archive.display());
    if !archive.is_file() {
        println!("cargo:warning={} is missing: nothing can be linked or run without it", archive.display());
        println!("cargo:warning=in the repository of Ouriscado run: tools/library");
        println!("cargo:warning=it has the library proved and writes target/staticlib/libouriscado.a; or set OURISCADO_LIB to the folder that has it");
    }
    println!("cargo:rustc-link-search=native={}", folder.display());
    println!("cargo:rustc-link-lib=static=ouriscado");
}
