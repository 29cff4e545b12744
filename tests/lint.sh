#!/usr/bin/env bash
# The second implementation has no warning of clippy and is in rustfmt's layout.
set -u
cd "$(dirname "$0")/.." || exit 2
# shellcheck source=tests/cargo.bash
. tests/cargo.bash
need_part clippy rust-clippy
need_part fmt rustfmt
bad=0
cargo clippy --manifest-path second/Cargo.toml --offline --quiet --all-targets -- -D warnings || { echo "second: clippy warns"; bad=1; }
cargo fmt --manifest-path second/Cargo.toml -- --check || { echo "second: not in rustfmt's layout"; bad=1; }
echo "second: looked at by $(cargo clippy --version | cut -d' ' -f1,2) and $(cargo fmt --version | cut -d' ' -f1,2)"
exit "$bad"
