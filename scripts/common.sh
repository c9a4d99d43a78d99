# What the scripts have in common; to be sourced, in the root of the repository.

# packages PACKAGE..: installs Debian's packages
packages() {
    { apt-get update && apt-get install -y "$@"; } > /dev/null 2>&1
}

# needed COMMAND PACKAGE..: installs Debian's packages where the command is missing
needed() {
    command -v "$1" > /dev/null && return
    shift
    packages "$@"
}

# What `rt` builds, each in the folder of its crate: the kernel for C, and the program.
library=crates/c_calls/out/libc_calls.a
plan=crates/plan/out/plan

# older FILE: whether FILE is missing or older than what it is made of. A folder inside a crate is newer where a file of
# it was taken away; the crate's own is newer where rt made its out/.
older() {
    [ ! -e "$1" ] ||
        [ -n "$(find crates crates.txt -path '*/out' -prune -o -newer "$1" \( -type f -o -path 'crates/*/*' \) \
            -print -quit)" ]
}

# The kernel for C, proved and built where that is needed.
static_library() {
    if older "$library"; then
        (cd crates/c_calls && rt lib)
    fi
}

# host CARGO-COMMAND [OPTION..]: cargo on the programs in host/
host() {
    needed cargo cargo
    local command=$1
    shift
    CARGO_TARGET_DIR=target/host cargo "$command" --release --offline --manifest-path host/Cargo.toml "$@"
}
