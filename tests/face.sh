#!/usr/bin/env bash
# No function of the library's face has a `requires`, and no type of it a ghost field: nobody has to check before a call. And each public
# function of the library, of the face or not, has a theorem in `laws` that its contract leaves one outcome for one input (RULES 17.1); the words
# that programs print are no part of it.
# The face is every `pub fn` of every library of crates.txt, save the inner ones named here, whose functions may ask for a fact that
# BOOK's test gives, or a program. A new crate is of the face until it is named, and is named only while it has such a function.
set -u
cd "$(dirname "$0")/.." || exit 2
# shellcheck source=tests/crates.bash
. tests/crates.bash
inner=(places channel sending receiving owed store relay writing arriving book)
mapfile -t crates < <(listed)
[ "${#crates[@]}" -gt 0 ] || { echo "crates.txt lists nothing"; exit 1; }
bad=0
fail() { echo "$1"; bad=1; }

# among WORD WORDS..: is the word one of them?
among() {
    local word=$1 other
    shift
    for other in "$@"; do
        [ "$word" != "$other" ] || return 0
    done
    return 1
}

# asking FILE..: the public functions that have a `requires`, a function of an implemented trait being one, and the public types that have a ghost field: who makes a value of such a type
# has to show the field. A type that ends in its first line has none.
asking() {
    awk '
        FNR == 1 { open = type = ""; trait = 0 }
        /^impl.* for / { trait = 1 }
        /^}/ { trait = 0 }
        /^ *(pub )?(const )?(unsafe )?(extern "C" )?fn / { name = $0; sub(/^ */, "", name); open = trait || /^ *pub /; type = "" }
        open && /^([^\/]* )?requires(\*? |\*?$)/ { print FILENAME ": " name; open = 0; next }
        open && /\{ *$/ && !/(requires|ensures|ghost)/ { open = 0 }
        /^ *pub (struct|enum|union) / { type = $0; sub(/^ */, "", type) }
        /^ *pub (struct|enum|union) .*; *$/ { type = "" }
        type != "" && /^ *ghost / { print FILENAME ": a ghost field of " type; type = "" }
        /^ *}/ { type = "" }' "$@"
}

# callable CRATE: the public functions that another crate can call, a method after its type, as Type.method. They stand in lib.rt, or are
# passed on there from a module of the crate's own. A conversion, `impl From<A> for b`, is BFromA.from, as the toolchain names it.
callable() {
    awk '
        # one line for an item that goes over several
        /^pub use / && !/;/ { item = $0; next }
        item != "" { item = item " " $0; if (!/;/) next; $0 = item; item = "" }
        /^mod / { sub(/;.*/, ""); own[$2] = 1 }
        /^impl From<[A-Za-z0-9]+> for [A-Za-z0-9]+ / {
            from = $2; gsub(/From<|>/, "", from)
            print toupper(substr($4, 1, 1)) substr($4, 2) "From" from ".from"
        }
        /^impl / { type = $2 "." }
        /^}/ { type = "" }
        /^pub use / {
            sub(/;.*/, ""); sub(/^pub use /, "")
            module = $0; sub(/::.*/, "", module)
            if (!(module in own)) next
            sub(/^[^{]*::/, ""); gsub(/[{},]/, " ")
            for (k = 1; k <= NF; k++) {
                if ($(k + 1) == "as") k += 2
                if ($k ~ /^[a-z]/) print $k
            }
        }
        /^ *pub (const )?(unsafe )?(extern "C" )?fn / { name = $0; sub(/^.*fn /, "", name); sub(/[(<].*/, "", name); print type name }' "crates/$1/src/lib.rt"
}

# determined: the functions, as crate.function, of whose contracts a theorem says that they leave one outcome: its type is `Determined C.ended R.Learnt`,
# where lines `use Rattle.crate.specs.contracts.function` and `use Rattle.crate.proofs.function.Reads` bring in both of one function, under these
# names or others. The toolchain makes the two of the function's contract.
determined() {
    awk '
        # brought PATH NAME: a module that is brought in under a name.
        function brought(path, name,    part) {
            if (path !~ /^Rattle\.[a-z0-9_]+\.(specs\.contracts|proofs)\./) return
            sub(/^Rattle\./, "", path)
            if (sub(/\.specs\.contracts\./, ".", path)) contract[name] = path
            else if (sub(/\.Reads$/, "", path)) { sub(/\.proofs\./, ".", path); reads[name] = path }
        }
        # A line, with those after it that are set in and go on with it.
        function made(line,    n, k, words, path, name) {
            sub(/(^| )--( .*)?$/, "", line)
            if (sub(/^use /, "", line)) {
                path = ""
                if (line ~ /\{/) { path = line; sub(/\{.*/, "", path); sub(/^[^{]*/, "", line) }
                gsub(/[{},]/, " ", line)
                n = split(line, words)
                for (k = 1; k <= n; k++) {
                    name = words[k]; sub(/.*\./, "", name)
                    if (words[k + 1] == "as") { brought(path words[k], words[k + 2]); k += 2 } else brought(path words[k], name)
                }
            } else if (line ~ /^pub [^ ]+ +: +Determined /) {
                sub(/^.* : +Determined /, "", line)
                if (split(line, words) == 2 && sub(/\.ended$/, "", words[1]) && sub(/\.Learnt$/, "", words[2]) &&
                    words[1] in contract && words[2] in reads && contract[words[1]] == reads[words[2]]) print contract[words[1]]
            }
        }
        FNR == 1 { made(line); line = ""; delete contract; delete reads }
        /^[^ ]/ { made(line); line = $0; next }
        { line = line " " $0 }
        END { made(line) }' crates/laws/proofs/*.antt
}

for crate in "${inner[@]}"; do
    among "$crate" "${crates[@]}" || fail "$crate: named as inner, and crates.txt does not list it"
done
mapfile -t proved < <(determined)
looked=0
functions=0
for crate in "${crates[@]}"; do
    [ ! -f "crates/$crate/src/main.rt" ] || continue
    [ -f "crates/$crate/src/lib.rt" ] || { fail "$crate: no source"; continue; }
    mapfile -t files < <(find "crates/$crate/src" -name '*.rt' | sort)
    found=$(asking "${files[@]}")
    if among "$crate" "${inner[@]}"; then
        grep -q ': pub .*fn ' <<< "$found" || fail "$crate: named as inner, and no public function of it has a 'requires'"
    else
        looked=$((looked + 1))
        [ -z "$found" ] || fail "$found"
    fi
    [ "$crate" != words ] || continue
    while read -r function; do
        functions=$((functions + 1))
        among "$crate.$function" "${proved[@]}" || fail "$crate: no theorem that the contract of $function leaves one outcome"
    done < <(callable "$crate")
done
[ "$functions" -gt 0 ] || fail "no function was found"
echo "the face: no 'requires' in $looked crates, ${#inner[@]} are inner; one outcome for one input by the contracts of $functions functions"
exit "$bad"
