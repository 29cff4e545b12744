# Sourced, in the top folder, by what runs the library's programs: where a crate's program lies, and that it is there. `rt ci` leaves it in the
# crate's out/, and so does `rt run`. Where it is not there, or older than a file that it is made of, `rt run` proves and builds it.

# program NAME: the program's file, as LLVM builds it.
program() { echo "crates/$1/out/$1"; }

# beneath NAME: the crate and all that it stands on, by crates.txt.
beneath() {
    awk -v top="$1" '
        { sub(/#.*/, ""); sub(/:/, " "); for (k = 2; k <= NF; k++) below[$1] = below[$1] " " $k }
        END {
            todo[n = 1] = top; seen[top] = 1
            for (i = 1; i <= n; i++) {
                print todo[i]
                m = split(below[todo[i]], names)
                for (k = 1; k <= m; k++) if (!(names[k] in seen)) { seen[names[k]] = 1; todo[++n] = names[k] }
            }
        }' crates.txt
}

# current NAME: is the program there, and no file that it is made of newer?
current() {
    local file name part parts=(crates.txt)
    file=$(program "$1")
    [ -x "$file" ] || return 1
    while IFS= read -r name; do
        for part in "crates/$name"/{src,specs,proofs}; do
            [ ! -d "$part" ] || parts+=("$part")
        done
    done < <(beneath "$1")
    [ -z "$(find "${parts[@]}" -newer "$file" -print -quit)" ]
}

# built NAME..: the programs are there, or the test ends. `rt run` says that it runs a program once that is proved and built; what it then
# prints, with nothing to read, is no matter here.
built() {
    local name log
    log=$(mktemp) || exit 2
    for name in "$@"; do
        ! current "$name" || continue
        echo "$name: rt run proves and builds it"
        (cd "crates/$name" && rt run < /dev/null) > "$log" 2>&1
        grep -qa "^rt: running out/$name;" "$log" || { tail -n 20 "$log"; rm -f "$log"; echo "$name is not built"; exit 1; }
    done
    rm -f "$log"
}

# run NAME ARGUMENT..: runs a program that is built.
run() {
    local file
    file=$(program "$1")
    shift
    "$file" "$@"
}
