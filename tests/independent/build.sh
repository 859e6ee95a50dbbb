# Sourced after tools/kit.sh: builds the comparer, unless no source has changed.

comparer=target/independent/compare

build_comparer() {
    command -v rustc >/dev/null || fail "the command rustc is not there"
    is_fresh "$comparer" tests/independent/*.rs && return
    mkdir -p "$(dirname "$comparer")" || fail "cannot make the folder of $comparer"
    quietly "compiling" rustc -O --edition 2021 -o "$comparer" tests/independent/main.rs
}
