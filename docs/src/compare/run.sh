#!/usr/bin/env bash
# Builds the static library, the C programs and the comparison, runs them, and fails on any difference.
set -euo pipefail
cd "$(dirname "$0")/../../.."

mkdir -p target
(cd crates/c_interface && rt lib) >target/staticlib.log 2>&1 || { tail -n 20 target/staticlib.log; echo "the static library was not built" >&2; exit 1; }

bash docs/src/c/run.sh

export CARGO_TARGET_DIR="$PWD/target/compare"
cargo build --quiet --offline --release --manifest-path docs/src/compare/Cargo.toml
"$CARGO_TARGET_DIR/release/compare"
