// Writes the crate's modules: each is a `#[path]` to a file of the papers' source, which stays where it is.
// `tstd_leaves.rs` is tstd.rs's own text with `src/leaves.rs` behind it, so that private parts can be called.
use std::path::{Path, PathBuf};
use std::{env, fs};

const MODULES: [&str; 5] = ["clock", "error", "packet", "pes", "tstd"];

fn main() {
    println!("cargo:rerun-if-env-changed=ORACLE_SRC");
    let here = PathBuf::from(env::var("CARGO_MANIFEST_DIR").unwrap());
    let source = match env::var("ORACLE_SRC") {
        Ok(dir) => here.join("..").join(dir),
        Err(_) => here.join("../../../shared/docs/src"),
    };
    let source = source.canonicalize().unwrap_or_else(|e| panic!("the Rust's source {}: {e}; set ORACLE_SRC", source.display()));
    let out = PathBuf::from(env::var("OUT_DIR").unwrap());

    let mut lib = String::new();
    for name in MODULES {
        let file = source.join(format!("{name}.rs"));
        println!("cargo:rerun-if-changed={}", file.display());
        lib += &module(&file, &format!("pub mod {name}"));
    }
    let leaves = here.join("src/leaves.rs");
    println!("cargo:rerun-if-changed={}", leaves.display());
    let text = fs::read_to_string(source.join("tstd.rs")).unwrap() + "\n" + &fs::read_to_string(&leaves).unwrap();
    let with_leaves = out.join("tstd_leaves.rs");
    fs::write(&with_leaves, text).unwrap();
    lib += &module(&with_leaves, "mod tstd_leaves");
    fs::write(out.join("oracle.rs"), lib).unwrap();
}

fn module(file: &Path, item: &str) -> String {
    format!("#[path = {:?}]\n{item};\n", file.to_str().expect("a path in UTF-8"))
}
