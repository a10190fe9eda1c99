#!/bin/sh
# Proves the crates below the exported calls, and makes target/staticlib/libexports.a, the archive of those calls for C and Rust.
set -eu
top=$(cd "$(dirname "$0")/.." && pwd)
cd "$top/crates/exports_c"
rt lib
mkdir -p "$top/target/staticlib"
cp out/libexports_c.a "$top/target/staticlib/libexports.a"
