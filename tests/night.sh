#!/usr/bin/env bash
# The night of other seeds than the stored one, whose output `rt ci` holds against crates/night/stdout: every row of the table says
# that what was taken was handed out, by the program's count and by the slips, and the last line says so of all. A word that is no seed is told so.
set -u
cd "$(dirname "$0")/.." || exit 2
log=$(mktemp -d) || exit 2
trap 'rm -rf "$log"' EXIT
failed=0
fail() { echo "$1"; failed=1; }
# shellcheck source=tests/run.bash
. tests/run.bash
built night
# The nights run side by side.
seeds=(0 1 2 18446744073709551615)
for seed in "${seeds[@]}"; do
    run night "$seed" > "$log/$seed" &
done
wait
for seed in "${seeds[@]}"; do
    said=$log/$seed
    rows=$(awk '$3 == "to" && $6 == $7 && $7 == $8 && $6 > 0 { n++; sum += $6 } END { print n, sum }' "$said")
    last=$(tail -n 1 "$said")
    case "$rows/$last" in
    "16 52800/Right: "*": 52800 taken, 52800 handed out, of 52800") ;;
    *) fail "seed $seed: $rows; $last" ;;
    esac
    # A link that loses nothing, or never delays, would show nothing.
    awk '$3 == "to" && ($11 == 0 || $12 == 0 || $13 == 0) { exit 1 }' "$said" || fail "seed $seed: the link was too good"
done
for word in x -1 18446744073709551616 123456789012345678901; do
    [ "$(run night "$word")" = "night: the seed is a number of at most 20 digits" ] || fail "$word is taken for a seed"
done
[ "$failed" -eq 0 ] && echo "night: ${#seeds[@]} nights, every message handed out once, in order, octet for octet"
exit "$failed"
