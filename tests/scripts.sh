#!/usr/bin/env bash
# Every script here is clean for the checker of shell scripts.
set -u
cd "$(dirname "$0")/.." || exit 2
# shellcheck source=tests/install.bash
. tests/install.bash
need shellcheck shellcheck
# A script is a file whose first line says so; what scripts source ends in .bash.
mapfile -t scripts < <(
    find .ci bench tests tools -name '*.bash'
    find .ci bench tests tools -type f -exec awk 'FNR == 1 && /^#!.*sh$/ { print FILENAME } { nextfile }' {} +
)
if [ "${#scripts[@]}" -lt 10 ]; then
    echo "only ${#scripts[@]} scripts are found"
    exit 1
fi
shellcheck -x "${scripts[@]}" || exit 1
echo "${#scripts[@]} scripts are clean"
