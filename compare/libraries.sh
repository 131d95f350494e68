#!/bin/sh
# Proves and builds the static libraries that build.rs links, and lays them at target/staticlib/libexports.a and
# libleaves.a: those of crates/exports_c and crates/leaves. Without a name both; else `exports` or `leaves`.
#   sh libraries.sh [NAME ...]
set -eu
cd "$(dirname "$0")/.."
[ $# -gt 0 ] || set -- exports leaves
mkdir -p target/staticlib
for name; do
    case $name in
        exports) crate=exports_c ;;
        *) crate=$name ;;
    esac
    (cd "crates/$crate" && rt lib)
    cp "crates/$crate/out/lib$crate.a" "target/staticlib/lib$name.a"
done
