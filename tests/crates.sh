#!/usr/bin/env bash
# crates.txt lists only what each crate's text names: tools/deps finds no name that is listed without need.
set -u
cd "$(dirname "$0")/.." || exit 2
# shellcheck source=tests/install.bash
. tests/install.bash
need python3 python3
tools/deps
