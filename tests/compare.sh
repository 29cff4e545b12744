#!/usr/bin/env bash
# The library held against the second implementation: both read the same generated scripts, and every answer must be the same;
# both carry the same messages, and must say the same of them.
# `tests/compare.sh` alone makes the gate's scripts, of fixed seeds; `tests/compare.sh FIRST LAST CALLS` those of the seeds named.
set -u
cd "$(dirname "$0")/.." || exit 2
first=${1:-1}
last=${2:-9}
calls=${3:-25000}
if [ "$first" -gt "$last" ] || [ "$calls" -le 0 ]; then
    echo "no scripts are asked for"
    exit 2
fi
log=$(mktemp -d) || exit 2
trap 'rm -rf "$log"' EXIT
# shellcheck source=tests/cargo.bash
. tests/cargo.bash
cargo build --manifest-path second/Cargo.toml --release --offline --quiet || exit 1
# shellcheck source=tests/run.bash
. tests/run.bash
built desk carry
second=target/second/release
bad=0
answers=0
fail() { echo "$1"; bad=1; }

# ran NAME OUTPUT COMMAND..: the command's output in a file; a command that does not end well is told.
ran() {
    local name=$1 output=$2 status
    shift 2
    "$@" > "$output"
    status=$?
    [ "$status" -eq 0 ] || fail "$name: ${*:1:2} ended with status $status"
}

# same NAME: have the two said the same?
same() {
    cmp -s "$log/one" "$log/other" && return
    fail "$1: differs"
    diff "$log/one" "$log/other" | head -n 6
}

# held NAME SEED CALLS [KIND]: do both answer the script of that seed alike? One that is cut off would show little: the generator writes
# a line for each call that it is asked for at the least, each of them has an answer, and after the last one stands `end`.
held() {
    local name=$1 asked=$3 given
    shift
    ran "$name" "$log/script" "$second/scripts" "$@"
    ran "$name" "$log/one" run desk < "$log/script" 2> "$log/told"
    ran "$name" "$log/other" "$second/desk2" < "$log/script"
    given=$(($(wc -l < "$log/one") - 1))
    [ "$given" -ge "$asked" ] || fail "$name: $given answers, where $asked calls were asked for"
    [ "$(tail -n 1 "$log/one")" = end ] || fail "$name: the answers do not end"
    answers=$((answers + given))
    same "$name"
}

# carried COUNT OCTETS WHAT: do both say the same of so many messages, and that all of them were carried where that is asked?
carried() {
    local name="carry $*" count='[0-9]*'
    ran "$name" "$log/one" run carry "$@"
    ran "$name" "$log/other" "$second/carry2" "$@"
    same "$name"
    case $3 in
    carry | check | bare) count=$1 ;;
    esac
    grep -q "^carried $count of $1 messages of $2 octets, " "$log/one" || fail "$name: $(cat "$log/one")"
}

for ((seed = first; seed <= last; seed++)); do
    held "seed $seed" "$seed" "$calls"
done
held "long, seed $first" "$first" 80000 long
# More messages than there are numbers.
for what in carry check bare still full; do
    for octets in 16 132; do
        carried 17000 "$octets" "$what"
    done
done
echo "$answers answers compared"
exit "$bad"
