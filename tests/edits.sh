#!/usr/bin/env bash
# The must-fail edits as text, and docs/EDITS.md, which lists them: tools/edits says what is asked of each.
set -u
cd "$(dirname "$0")/.." || exit 2
# shellcheck source=tests/install.bash
. tests/install.bash
need python3 python3
tools/edits
