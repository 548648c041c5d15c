#!/usr/bin/env bash
# Times runs, also with heavy sharing and many writes, generated lists and searches for the cheapest schedule through
# the archive, beside a plain engine, a plain generator and a plain search in Rust. Needs rt and cargo. RUNS: how often
# each (default 15).
set -eu
cd "$(dirname "$0")/.."
tools/build.sh host > /dev/null
export CUZKELOR_LIB="$PWD/target/staticlib" CARGO_TARGET_DIR="$PWD/target/hostkit"
# With more units than one, code elsewhere in the bench decides what is taken inline into the plain engine.
export CARGO_PROFILE_RELEASE_CODEGEN_UNITS=1
cd hostkit/rust
cargo run --release --offline --locked --quiet --example bench -- "${RUNS:-15}"
