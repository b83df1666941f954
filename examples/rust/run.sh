#!/bin/sh
# Proves and builds the library, builds this program with it, and holds what it prints to expected.txt.
set -eu
cd "$(dirname "$0")/../.."
(cd crates/deck && "${RT:-rt}" lib)
mkdir -p target
"${RUSTC:-rustc}" --edition 2021 -O -L crates/deck/out -l static=deck examples/rust/main.rs -o target/example_rust
target/example_rust | diff examples/rust/expected.txt -
echo "examples/rust: as expected"
