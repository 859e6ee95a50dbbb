# Sourced after tests/compile.sh: compiles C as the kit compiles what it builds.

# The words that the kit compiles an archive with; a program has -fPIE for -fPIC, and those that merge
# functions of the same code. There is no way to ask rt for them: they were read off the processes that
# `rt lib` and `rt run` start.
flags=(-O3 -march=x86-64 -ffunction-sections -fdata-sections
    -mllvm -trap-unreachable -mllvm -no-trap-after-noreturn -mllvm -no-x86-call-frame-opt
    -mllvm -disable-machine-licm -mllvm -disable-postra-machine-licm -mllvm -sink-common-insts=false)

compile_as_kit() { # FILE.c OBJECT WORDS..
    compile "$@" "${flags[@]}"
}

# The program measure: the rows, by the archive of vote and by engine.c.
build_measure() {
    local file
    for file in engine inputs median measure; do
        compile_as_kit "tests/speed/$file.c" "$file.o" -fPIC
    done
    link measure measure.o median.o inputs.o engine.o "$archive"
}

# The program bench.c on engine.c.
build_bench() {
    compile_as_kit tests/speed/engine.c engine-of-bench.o -fPIE
    compile_as_kit tests/speed/bench.c bench.o -fPIE
    link bench bench.o engine-of-bench.o
}

# The largest run files, and one of no bytes: `files`.
write_files() {
    files=("$work/no-input" "$work/nothing-lost" "$work/half-lost" "$work/good-rounds")
    python3 tests/speed/largest.py "$work" || fail "the largest run files were not written"
    : >"${files[0]}"
}
