#!/bin/sh
# Writes the computed sessions of crate rules anew: random calls with the outcomes of the independent implementation in plain/.
# 'scripts/sessions.sh TOP' writes them in another copy of the repository.
set -eu
top=$(cd "${1:-$(dirname "$0")/..}" && pwd)
cd "$(dirname "$0")/.."
for program in sessions saved_sessions; do
    CARGO_TARGET_DIR=${CARGO_TARGET_DIR:-$PWD/target/cargo} cargo run --quiet --release --offline --locked \
        --manifest-path plain/Cargo.toml --bin $program -- "$top/crates/rules/proofs/Checked"
done
