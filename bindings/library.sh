#!/bin/sh
# Proves and builds the static library, crate koxaltes_c, and puts it where C and Rust programs look for it:
# target/staticlib/libkoxaltes.a. For any x86-64 processor, as the header says.
set -eu
root=$(cd "$(dirname "$0")/.." && pwd)
crate=$root/crates/koxaltes_c
(cd "$crate" && rt lib --cpu x86-64)
mkdir -p "$root/target/staticlib"
cp "$crate/out/libkoxaltes_c.a" "$root/target/staticlib/libkoxaltes.a"
