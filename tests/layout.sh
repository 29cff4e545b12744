#!/usr/bin/env bash
# Every file of Rattle and antt is in the formatter's layout, which `rt fmt` in a crate's folder gives it. `rt ci` refuses a crate that is not laid
# out; this says so of all crates in a moment, before anything is proved. And nothing that rt makes, crates/*/out/, is committed.
set -u
cd "$(dirname "$0")/.." || exit 2
mapfile -t files < <(find crates/*/src crates/*/specs crates/*/proofs -type f \( -name '*.rt' -o -name '*.antt' \) | sort)
if [ "${#files[@]}" -eq 0 ]; then
    echo "no file is found"
    exit 1
fi
# The toolchain's own command for files; `rt` has none that only looks.
"$(dirname "$(rt doc)")/bin/rattle" fmt --check "${files[@]}" || exit 1
echo "${#files[@]} files are laid out"
made=$(git ls-files -- crates 2> /dev/null | grep -cE '^crates/[^/]+/out/')
if [ "$made" -ne 0 ]; then
    echo "$made files that rt makes are committed: git rm -r --cached crates/*/out"
    exit 1
fi
