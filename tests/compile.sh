# Sourced after tools/kit.sh by tests in C: compiles with the kit's compiler, links with its linker.

# Compiles C files and links them to the archive: the program $work/NAME.
build_program() { # NAME FILE.c..
    local program=$1 file objects=()
    shift
    for file in "$@"; do
        compile "$file" "$(basename "$file" .c).o" -O2
        objects+=("$(basename "$file" .c).o")
    done
    link "$program" "${objects[@]}" "$archive"
}

# Compiles a C file: the object $work/OBJECT.
compile() { # FILE.c OBJECT WORDS..
    local file=$1 object=$2
    shift 2
    quietly "compiling" "$tools/bin/clang" "--target=$target" "$@" \
        -ffreestanding -nostdinc -isystem tests/include -I include \
        -std=c99 -Wall -Wextra -Werror -c "$file" -o "$work/$object"
}

# Links objects of the work folder, and an archive if one is named by its path: the program
# $work/NAME.
link() { # NAME OBJECT..
    local words=() word program=$1
    shift
    for word in "$@"; do
        case $word in */*) words+=("$word") ;; *) words+=("$work/$word") ;; esac
    done
    quietly "linking" "$kit/bin/rattle-link" --target "$target" --toolchain "$tools" \
        -o "$work/$program" "${words[@]}"
}
