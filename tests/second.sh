#!/usr/bin/env bash
# The second implementation, written from document 01 and docs/SCRIPT.md, not from the library's code: its own tests pass, with
# every sum that wraps a failure.
set -u
cd "$(dirname "$0")/.." || exit 2
# shellcheck source=tests/cargo.bash
. tests/cargo.bash
cd second || exit 2
cargo test --offline --quiet 2>&1 | grep -vE '^$|running 0 tests|ok\. 0 passed' | tail -n 12
exit "${PIPESTATUS[0]}"
