#!/bin/sh
# Builds a program over the Rust crate `ron`, and prints where it is.
#
#     diff/build.sh FOLDER      # diff/oracle or bench
#
# Cargo takes the crate from its registry. With RUST_RON=FOLDER it takes the folder that holds the crate's Cargo.toml, and
# with CARGO_CONFIG=FILE it reads that configuration too, such as one that finds what the crate needs without a network.
set -eu
folder=$(cd "$1" && pwd)
set -- build --release --manifest-path "$folder/Cargo.toml" --target-dir "$folder/out"
if [ -n "${RUST_RON:-}" ]; then
    set -- "$@" --config "patch.crates-io.ron.path='$(cd "$RUST_RON" && pwd)'"
fi
if [ -n "${CARGO_CONFIG:-}" ]; then
    set -- "$@" --config "$CARGO_CONFIG"
fi
cargo "$@" >&2
echo "$folder/out/release/$(basename "$folder")"
