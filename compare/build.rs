// Links our static library: TSTD_LIB, or what `sh libraries.sh exports` lays in target/; with the feature `leaves` also
// LEAVES_LIB, or what `sh libraries.sh leaves` lays there; with the feature `before` also a renamed copy of TSTD_BEFORE.
use std::path::{Path, PathBuf};
use std::process::Command;
use std::{env, fs};

fn library(variable: &str, default: &str, hint: &str) -> PathBuf {
    println!("cargo:rerun-if-env-changed={variable}");
    let here = PathBuf::from(env::var("CARGO_MANIFEST_DIR").unwrap());
    let lib = here.join(env::var(variable).unwrap_or(default.to_string()));
    let lib = lib.canonicalize().unwrap_or_else(|e| panic!("{}: {e}; {hint} set {variable}", lib.display()));
    println!("cargo:rerun-if-changed={}", lib.display());
    lib
}

fn link(lib: &Path) {
    println!("cargo:rustc-link-arg-bins={}", lib.display());
}

fn ours(variable: &str, name: &str) -> PathBuf {
    let hint = format!("run `sh libraries.sh {name}` in compare/, or");
    library(variable, &format!("../target/staticlib/lib{name}.a"), &hint)
}

fn run(tool: &str, words: &[&str]) -> String {
    let done = Command::new(tool).args(words).output().unwrap_or_else(|e| panic!("{tool}: {e}"));
    assert!(done.status.success(), "{tool} {words:?}: {}", String::from_utf8_lossy(&done.stderr));
    String::from_utf8(done.stdout).unwrap()
}

// A copy by objcopy whose functions begin on a page: equal code then lies equally in the caches, or it would differ in
// time by its place alone.
fn link_copy(lib: &Path, name: &str, words: &[&str]) {
    let copy = PathBuf::from(env::var("OUT_DIR").unwrap()).join(name);
    let files = [lib.to_str().unwrap(), copy.to_str().unwrap()];
    run("objcopy", &[&["--set-section-alignment", ".text*=4096"], words, &files].concat());
    link(&copy);
}

// Both libraries define the same symbols. Those that the older one leaves to others, as memset, keep their names.
fn link_before() {
    let lib = library("TSTD_BEFORE", "no older library", "keep an older library and");
    let listed = run("nm", &["--defined-only", "--extern-only", "--format=just-symbols", lib.to_str().unwrap()]);
    let symbols = listed.lines().filter(|s| !s.is_empty() && !s.ends_with(':'));
    let names = PathBuf::from(env::var("OUT_DIR").unwrap()).join("before.names");
    fs::write(&names, symbols.map(|s| format!("{s} before_{s}\n")).collect::<String>()).unwrap();
    link_copy(&lib, "libbefore.a", &["--redefine-syms", names.to_str().unwrap()]);
}

fn main() {
    let feature = |name: &str| env::var_os(format!("CARGO_FEATURE_{name}")).is_some();
    if feature("BEFORE") {
        link_before();
    }
    if feature("STANDIN") {
        return;
    }
    let lib = ours("TSTD_LIB", "exports");
    if feature("BEFORE") {
        link_copy(&lib, "libafter.a", &[])
    } else {
        link(&lib)
    }
    if feature("LEAVES") {
        link(&ours("LEAVES_LIB", "leaves"));
    }
}
