# Sourced where what rt builds is run: the program of a crate, or a program in C with the archive of
# the crate vote_c.
# It needs the command rt, and the kit that rt stands in. Who sources it stands in the repository's
# folder and sets, before the first call: `name`, its name in messages, and `work`, the folder under
# target/ for all that it makes. Trouble is one line on standard error, and status 2.

. tools/proving.sh

archive=target/staticlib/libvote.a

# Finds the kit, and makes the folder.
find_kit() {
    local rt
    rt=$(command -v rt) || fail "the command rt is not there: put it on PATH"
    kit=$(dirname "$(dirname "$(readlink -f "$rt")")")
    tools=$kit/toolchain
    target=x86_64-unknown-linux-gnu
    [ "$(uname -m)" = x86_64 ] && [ -x "$tools/bin/clang" ] ||
        fail "the kit of rt has no compiler for this machine, $(uname -m)"
    make_folder
}

# All that rt does not make goes there.
make_folder() {
    mkdir -p "$work" 2>/dev/null && [ -w target ] && [ -w "$work" ] && : 2>/dev/null >>"$work/log" ||
        fail "the folder $PWD/target cannot be written: what is built here goes there"
}

# The program of a crate, as rt leaves it.
program_of() { # CRATE
    echo "crates/$1/out/$1"
}

# Proves the program of a crate and builds it. rt run starts it too, on an empty input here. What
# rt ci built counts as well.
build_crate() { # CRATE
    prove "$(program_of "$1")" "$1" rt run
    [ -x "$(program_of "$1")" ] || fail "rt run left no $(program_of "$1")"
}

# Proves the entries for C and builds their archive, which C callers know as libvote.a.
build_archive() {
    local made=crates/vote_c/out/libvote_c.a
    ! is_built "$archive" || return 0
    prove "$made" vote_c rt lib
    mkdir -p "$(dirname "$archive")" && cp -p "$made" "$archive" || fail "cannot write $archive"
}

# Whether rt has built a file since the sources and the kit are as they are.
is_built() { # FILE
    is_fresh "$1" crates/*/src crates/*/specs crates/*/proofs crates.txt "$kit/KIT-ID"
}

# Whether a file is there and nothing among the sources, files or folders, is newer.
is_fresh() { # FILE SOURCE..
    local file=$1
    shift
    [ -f "$file" ] && [ -z "$(find "$@" -newer "$file" -print -quit)" ]
}

# Runs a command, and shows what it said only if it fails.
quietly() { # WHAT COMMAND..
    local what=$1
    shift
    "$@" >"$work/log" 2>&1 && return
    cat "$work/log" >&2
    fail "$what failed: $*"
}

fail() {
    printf '%s: %s\n' "$name" "$*" >&2
    exit 2
}
