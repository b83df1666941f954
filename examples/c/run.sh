#!/bin/sh
# Proves and builds the library, builds this program with it, and holds what it prints to expected.txt.
set -eu
cd "$(dirname "$0")/../.."
(cd crates/deck && "${RT:-rt}" lib)
mkdir -p target
"${CC:-cc}" -std=c11 -Wall -Wextra -Werror -O2 -Iinclude examples/c/main.c crates/deck/out/libdeck.a -o target/example_c
target/example_c | diff examples/c/expected.txt -
echo "examples/c: as expected"
