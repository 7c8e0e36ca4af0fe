#!/bin/sh
# Builds the static library, unless KOXALTES_LIB_DIR names the folder of one, and compares it with the model.
# Arguments: seed and multiplier, both 1 if left out.
set -eu
here=$(cd "$(dirname "$0")" && pwd)
if [ -z "${KOXALTES_LIB_DIR:-}" ]; then
    "$here/../bindings/library.sh" >/dev/null
fi
cd "$here"
cargo build --quiet --profile checked -j1 --bin compare
exec target/checked/compare "$@"
