#!/bin/sh
# Builds the static library, unless KOXALTES_LIB_DIR names the folder of one, and times it against the model.
set -eu
here=$(cd "$(dirname "$0")" && pwd)
if [ -z "${KOXALTES_LIB_DIR:-}" ]; then
    "$here/../bindings/library.sh" >/dev/null
fi
cd "$here"
cargo build --quiet --release -j1 --bin bench
exec target/release/bench
