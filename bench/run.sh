#!/bin/sh
# Builds ron_bench and the same program over the Rust crate, and prints how long both take on the same texts.
# `diff/build.sh` says where the Rust crate comes from.
set -eu
cd "$(dirname "$0")/.."
bench=$(diff/build.sh bench)
(cd crates/ron_bench && rt run -- records 1 1 <stdin)
python3 bench/measure.py crates/ron_bench/out/ron_bench "$bench"
