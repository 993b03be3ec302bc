#!/bin/sh
# Puts random requests through `ron_test_rows` and through the Rust crate, and tells differences apart.
#
#     diff/run.sh                          # 10,000 requests by the seed 1
#     diff/run.sh SEED COUNT [OPTION..]    # the options are those of compare.py
#
# `build.sh` says where the Rust crate comes from, and README.md what the rest is for.
set -eu
cd "$(dirname "$0")"
[ $# -gt 0 ] || set -- 1 10000
ORACLE=$(./build.sh oracle)
export ORACLE
exec python3 compare.py "$@"
