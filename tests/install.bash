# Sourced by every script that needs a program which is not everywhere. Nothing is taken for granted: what is not there is installed by
# Debian package, aloud, and a script that cannot have it says so and ends with status 77, which the gate counts as skipped.

# need COMMAND PACKAGE..: the command is there, or is installed with these packages.
need() {
    local command=$1 had
    shift
    command -v "$command" > /dev/null 2>&1 && return
    echo "$command is not there: installing by Debian package: $*"
    # The packages' own prints go to a file, of which the end is shown where they fail.
    had=$(mktemp) || exit 2
    if ! { apt-get update -q && DEBIAN_FRONTEND=noninteractive apt-get install -y -q --no-install-recommends "$@"; } > "$had" 2>&1 ||
        ! command -v "$command" > /dev/null 2>&1; then
        tail -n 3 "$had"
        rm -f "$had"
        echo "SKIPPED: $command cannot be installed"
        exit 77
    fi
    rm -f "$had"
}
