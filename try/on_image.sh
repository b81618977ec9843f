# For the scripts beside it, which read it: goes to the top of the clone, makes an image file that is gone at the end,
# and has a function that runs a program of this repository.
cd "$(dirname "${BASH_SOURCE[0]}")/.."
image=$(mktemp)
trap 'rm -f "$image"' EXIT
truncate -s 256K "$image"

# program CRATE WORDS < SCRIPT: shows the script, builds the program, and runs it. Where BLOBTOOL names a program that
# is built already, that is run in place of blobtool.
program() {
    local crate=$1 script
    shift
    script=$(cat)
    sed -n 's/^./script:   &/p' <<<"$script"
    if [ "$crate" = blobtool ] && [ -n "${BLOBTOOL:-}" ]; then
        "$BLOBTOOL" "$@" <<<"$script"
        return
    fi
    (cd "crates/$crate" && rt try -- "$@" <<<"$script")
}
