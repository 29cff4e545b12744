#!/usr/bin/env bash
# The desk program on stored scripts: each tests/desk/NAME.script is read and the answers are held to NAME.expected. Then a
# stream that is made here, from message 0 past number 16,384 on both channels, with every answer known beforehand.
set -u
cd "$(dirname "$0")/.." || exit 2
log=$(mktemp -d) || exit 2
trap 'rm -rf "$log"' EXIT
# shellcheck source=tests/run.bash
. tests/run.bash
built desk
bad=0

# held NAME EXPECTED GIVEN: are they the same?
held() {
    if cmp -s "$2" "$3"; then
        echo "$1: $(($(wc -l < "$3") - 1)) answers as expected"
    else
        echo "$1: differs"
        diff "$2" "$3" | head -n 10
        bad=1
    fi
}

for script in tests/desk/*.script; do
    name=${script%.script}
    run desk < "$script" > "$log/given" 2> "$log/told"
    # Each line that is no call is told on standard error with its number and why.
    if ! diff <(sed -n 's/^? //p' "$log/given") <(sed -n 's/^line \([0-9]*\): ..*$/\1/p' "$log/told") > "$log/diff"; then
        echo "$script: what standard error says does not fit the answers"
        head -n 5 "$log/diff"
        bad=1
    fi
    held "$(basename "$name")" "$name.expected" "$log/given"
done

# Message n of a channel is taken at A, sent, arrives at B and is handed out there; the answer acknowledges it and moves the base.
stream() { # SCRIPT EXPECTED
    awk -v script="$1" -v expected="$2" '
        function call(words, answer) { print words > script; print answer > expected }
        BEGIN {
            call("A open 0 5 98 1 1 0", "ok"); call("B open 3 5 98 1 1 0", "ok")
            call("A ask 0 m 0", "ok m"); call("B ask 3 m 0", "ok m")
            for (n = 0; n < 16420; n++) for (c = 1; c <= 2; c++) {
                word = sprintf("%04X", c * 16384 + n % 16384)
                message = sprintf("%06X", n * 3 + c)
                packet = "0562" word "0000" message
                news = sprintf("0562%04X%04X%s", c * 16384, 16384 + (n + 1) % 16384, word)
                call("A take 0 " c " " message, "ok"); call("A send 0 " c " 0", "ok " packet)
                call("B arrive " packet, "ok"); call("B out 3 " c, "ok " message)
                call("B empty 3 " c, "ok " news); call("A arrive " news, "ok")
            }
            call("A held 0 1", "ok 0"); call("A held 0 2", "ok 0"); call("B close 3", "ok 10B880100900100900000000")
            print "end" > expected
        }'
}
stream "$log/script" "$log/expected"
run desk < "$log/script" > "$log/given"
held "stream" "$log/expected" "$log/given"
exit "$bad"
