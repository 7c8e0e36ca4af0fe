#!/bin/sh
# Proves and builds the static library. Compiles the C example as C99 and as C11, and the header alone as C++11, without a
# warning; builds the Rust example. Runs the C99 and the Rust example on document 01's schedule: both must print
# bindings/expected. Tests where the Rust wrapper puts each field of a member and of a record. The C header and the Rust
# wrapper must state the same version.
set -eu
here=$(cd "$(dirname "$0")" && pwd)
root=$here/..
work=$root/target/bindings
version=$(sed -n 's/^version = "\(.*\)"$/\1/p' "$here/rust/Cargo.toml")
grep -qx "#define KOXALTES_VERSION \"$version\"" "$here/c/koxaltes.h" || {
    echo "bindings/c/koxaltes.h does not state version $version of bindings/rust/Cargo.toml"
    exit 1
}
mkdir -p "$work"
"$here/library.sh" >"$work/library.log" 2>&1 || {
    cat "$work/library.log"
    exit 1
}
schedule=$root/crates/cage_report/stdin

for standard in c99 c11; do
    cc -std=$standard -pedantic -Wall -Wextra -Werror -O2 -o "$work/example_$standard" "$here/c/example.c" \
        "$root/target/staticlib/libkoxaltes.a"
done
c++ -std=c++11 -fsyntax-only -x c++ -Wall -Wextra -Werror "$here/c/koxaltes.h"
"$work/example_c99" <"$schedule" | diff "$here/expected" -
echo "C: as expected"

export CARGO_TARGET_DIR="$work/rust"
cargo build --quiet --offline --release --manifest-path "$here/rust/Cargo.toml" --example example
"$work/rust/release/examples/example" <"$schedule" | diff "$here/expected" -
cargo test --quiet --offline --release --manifest-path "$here/rust/Cargo.toml" --lib >"$work/rust.log" 2>&1 || {
    cat "$work/rust.log"
    exit 1
}
echo "Rust: as expected"
