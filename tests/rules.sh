#!/usr/bin/env bash
# Every citation of docs/RULES.md leads to a paragraph of it. A paragraph begins a line with its number, as '**3.4** '; code, proofs,
# edits and documents cite it as 'RULES 3.4', several as 'RULES 3.4, 3.5', and a section as 'RULES 3'. No number is given twice.
set -u
cd "$(dirname "$0")/.." || exit 2
work=$(mktemp -d) || exit 2
trap 'rm -rf "$work"' EXIT
bad=0
fail() { echo "$1"; bad=1; }

[ -f docs/RULES.md ] || { echo "docs/RULES.md is not there"; exit 1; }
{
    sed -n 's/^\*\*\([0-9]*\.[0-9]*\)\*\* .*/\1/p' docs/RULES.md
    sed -n 's/^## \([0-9]*\)\. .*/\1/p' docs/RULES.md
} > "$work/all"
paragraphs=$(grep -c '\.' "$work/all")
[ "$paragraphs" -gt 0 ] || fail "docs/RULES.md has no paragraph"
sort "$work/all" | uniq -d > "$work/twice"
while IFS= read -r number; do
    fail "docs/RULES.md: $number is given twice"
done < "$work/twice"

# FILE:LINE:NUMBER of each number cited. What is cited has to stand on one line, or it would not be seen.
places=(docs second tests tools)
for file in *.md; do places+=("$file"); done
# Of a crate all but its out/, where rt keeps copies of its text.
for part in crates/*/*; do [ "${part##*/}" = out ] || places+=("$part"); done
number='[0-9]+(\.[0-9]+)?'
grep -rnoE --binary-files=without-match "\<RULES $number((,| and|, and| or| to) $number)*" "${places[@]}" |
    awk -F: '{ n = split($3, words, /[^0-9.]+/); for (k = 1; k <= n; k++) if (words[k] != "") print $1 ":" $2 ":" words[k] }' > "$work/cited"
while IFS=: read -r file line number; do
    grep -qxF -- "$number" "$work/all" || fail "$file:$line: docs/RULES.md has no paragraph $number"
done < "$work/cited"
broken=$(grep -rnE --binary-files=without-match '\<RULES$' "${places[@]}")
[ -z "$broken" ] || fail "a citation is broken over two lines: $broken"
echo "docs/RULES.md: $paragraphs paragraphs, $(wc -l < "$work/cited") citations"
exit "$bad"
