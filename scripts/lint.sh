#!/bin/sh
# The Rust packages are in the layout of cargo fmt, and neither clippy nor rustdoc has a warning for them.
set -u
cd "$(dirname "$0")/.." || exit 2
CARGO_TARGET_DIR=${CARGO_TARGET_DIR:-$PWD/target/cargo}
RUSTDOCFLAGS=-Dwarnings
RINWOLFEDD_UNLINKED=1 # nothing is linked here, so the archive of the proved calls may be missing
export CARGO_TARGET_DIR RUSTDOCFLAGS RINWOLFEDD_UNLINKED
bad=0

# has TOOL COMPONENT: cargo has this tool, or rustup fetches it. Where that cannot be, a line says what is not tried.
has() {
    cargo "$1" --version >/dev/null 2>&1 && return
    timeout 300 rustup component add "$2" && cargo "$1" --version && return
    echo "lint: NOT TRIED: cargo $1, which is not on this machine; 'rustup component add $2' does not bring it"
    return 1
}

# each COMMAND ..: runs it in both packages
each() {
    for package in plain rust; do
        (cd "$package" && "$@") || { echo "lint: FAILED in $package: $*"; bad=1; }
    done
}

has fmt rustfmt && each cargo fmt --check
has clippy clippy && each cargo clippy --quiet --all-targets --offline --locked -- -D warnings
each cargo doc --quiet --no-deps --offline --locked
exit "$bad"
