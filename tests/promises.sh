#!/usr/bin/env bash
# The documents held against the files that they name.
# A document names definitions, theorems and functions with the file that has each, as `name` (`path`): every such file is there, and
# every name stands in it; in a file of antt as a whole word. docs/PROMISES.md names some. README.md's tables of crates have every
# crate of crates.txt and no other, save a user's own, and no document names the folder of a crate that is not there.
set -u
cd "$(dirname "$0")/.." || exit 2
# shellcheck source=tests/crates.bash
. tests/crates.bash
bad=0
fail() { echo "$1"; bad=1; }
documents=(*.md docs/*.md)

# has_word NAME FILE: does the name stand there with nothing before or after it that could be part of a name of antt? Octets over
# 127 could be, whatever the characters.
has_word() { LC_ALL=C tr -c "A-Za-z0-9_'\200-\377-" '\n' < "$2" | LC_ALL=C grep -xF -- "$1" > /dev/null; }

# The ticks below are Markdown's.
# shellcheck disable=SC2016
pairs=$(grep -oH '`[^`]*` (`[a-z.]*/[^`]*\.[a-z]*`)' "${documents[@]}" | sed 's/^\([^:]*\):`\([^`]*\)` (`\([^`]*\)`)$/\1\t\2\t\3/')
checked=0
promised=0
while IFS=$'\t' read -r document name path; do
    [ -n "$name" ] || continue
    checked=$((checked + 1))
    [ "$document" != docs/PROMISES.md ] || promised=$((promised + 1))
    if [ ! -f "$path" ]; then
        fail "$document: no file $path"
        continue
    fi
    case $path in
    *.antt) has_word "$name" "$path" ;;
    *) grep -qF -- "$name" "$path" ;;
    esac || fail "$document: $path has no $name"
done <<< "$pairs"
[ "$promised" -gt 0 ] || fail "docs/PROMISES.md names nothing"
echo "documents: $checked names looked up, $promised of them in docs/PROMISES.md"

# The tables stand between the heading 'The crates' and the next one; the first cell of a row names the crate.
# shellcheck disable=SC2016
crates_shown=$(awk -F'|' '/^## / { on = $0 == "## The crates" } on && /^\|/ { print $2 }' README.md | grep -o '`[^`]*`' | tr -d '`' | sort)
[ -n "$crates_shown" ] || fail "README.md: no tables of crates"
while IFS= read -r crate; do
    fail "README.md: the crate $crate is not in crates.txt, or stands twice"
done < <(comm -23 <(echo "$crates_shown") <(listed | sort))
while IFS= read -r crate; do
    fail "README.md: no row for the crate $crate; a crate of your own belongs below the line '# your own' of crates.txt"
done < <(comm -13 <(echo "$crates_shown") <(listed | sort))

while IFS=: read -r document folder; do
    [ -d "$folder" ] || fail "$document: no folder $folder"
done < <(grep -oE 'crates/[A-Za-z0-9_]+/' "${documents[@]}" | sort -u)
exit "$bad"
