# Sourced, in the top folder, by what builds the second implementation: cargo is there, and builds in target/second.
# shellcheck source=tests/install.bash
. tests/install.bash
need cargo cargo rustc
export CARGO_TARGET_DIR=$PWD/target/second

# need_part PART PACKAGE: `cargo PART` is there. Where rustup brought cargo, its parts come from rustup too: Debian's are of another compiler.
need_part() {
    cargo "$1" --version > /dev/null 2>&1 && return
    if command -v rustup > /dev/null 2>&1; then
        echo "cargo $1 is not there: installing it by rustup"
        rustup component add "${1/#fmt/rustfmt}" > /dev/null 2>&1
    else
        need "cargo-$1" "$2"
    fi
    cargo "$1" --version > /dev/null 2>&1 || { echo "SKIPPED: cargo $1 cannot be installed"; exit 77; }
}
