//! Makes a crate of the published source, which stays where it is. The files are taken as they stand; the Fk type and the free lists are
//! cut out of files that need more than is here.
use std::path::{Path, PathBuf};
use std::{env, fs};

/// The part of a text from where one phrase starts to where another does.
fn cut<'a>(text: &'a str, from: &str, to: &str) -> &'a str {
    let start = text.find(from).unwrap_or_else(|| panic!("the source has no {from:?}"));
    let end = text[start..].find(to).unwrap_or_else(|| panic!("the source has no {to:?}"));
    &text[start..start + end]
}

fn read(path: &Path) -> String {
    println!("cargo:rerun-if-changed={}", path.display());
    fs::read_to_string(path).unwrap_or_else(|e| panic!("{}: {e}; OURISCADO_SRC names the source's folder", path.display()))
}

fn main() {
    println!("cargo:rerun-if-env-changed=OURISCADO_SRC");
    let here = PathBuf::from(env::var("CARGO_MANIFEST_DIR").unwrap());
    let src = env::var("OURISCADO_SRC").map_or_else(|_| here.join("../../../shared/docs/src"), PathBuf::from);
    let src = src.canonicalize().unwrap_or_else(|e| panic!("{}: {e}; OURISCADO_SRC names the source's folder", src.display()));
    let out = PathBuf::from(env::var("OUT_DIR").unwrap());
    let primitives = src.join("crates/rbitcoin-primitives/src");
    let store = src.join("crates/rbitcoin-store/src");

    let lib = read(&primitives.join("lib.rs"));
    let derive = "#[derive(Clone, Copy, Debug, Default, PartialEq, Eq, Hash)]\npub struct Fk";
    fs::write(out.join("fk.rs"), cut(&lib, derive, "impl fmt::Display for Fk")).unwrap();

    let table = read(&store.join("scripthash.rs"));
    let lists = cut(&table, "#[doc(hidden)]\npub fn largest_reloc_class_le", "pub struct ScriptHashTable");
    let uses = "use crate::error::StoreError;\nuse crate::file::TableFile;\nuse crate::scripthash_layout::*;\n\n";
    fs::write(out.join("free_lists.rs"), format!("{uses}{lists}")).unwrap();

    let mut modules = String::from("extern crate self as rbitcoin_primitives;\n");
    let files = [
        (&primitives, "compact"),
        (&store, "error"),
        (&store, "scripthash_layout"),
        (&store, "scripthash_slabs"),
        (&store, "scripthash_pages"),
        (&out, "fk"),
        (&out, "free_lists"),
    ];
    for (folder, name) in files {
        let path = folder.join(format!("{name}.rs"));
        if folder != &out {
            read(&path);
        }
        modules += &format!("#[path = {path:?}]\npub mod {name};\n");
    }
    fs::write(out.join("modules.rs"), modules).unwrap();
}
