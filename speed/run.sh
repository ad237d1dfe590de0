#!/bin/sh
# Builds the machines and compares them.
#
#   VRADUCENI_LIB_DIR=DIR speed/run.sh               answers, then all tables
#   VRADUCENI_LIB_DIR=DIR speed/run.sh --check       answers only, a few seconds
#   VRADUCENI_LIB_DIR=DIR speed/run.sh --fuzz [N [SEED]]   answers on N random inputs (a million)
#   VRADUCENI_LIB_DIR=DIR speed/run.sh --sanitize [N [SEED]]  the same, the C code under sanitizers
#   VRADUCENI_LIB_DIR=DIR speed/run.sh --callgrind   instructions a step, and a check
#   VRADUCENI_LIB_DIR=DIR speed/run.sh --stack       stack use
#
# DIR holds libvraduceni.a. Without it plain.c stands in, under the library's
# name, and a line says so. Exit 1 for a wrong answer, 2 where something could
# not be built. Times decide nothing.
#
# From the environment: CC (gcc), RUSTC (rustc), LUA (lua5.4), SPEED_BUILD (the
# build folder, else build/ beside this script), LUA_SECONDS (1, for each script).
set -eu

here=$(cd "$(dirname "$0")" && pwd)
build=${SPEED_BUILD:-$here/build}
cc=${CC:-gcc}
rustc=${RUSTC:-rustc}
lua=${LUA:-lua5.4}
warn="-std=gnu11 -Wall -Wextra"

say() { echo "speed: $*"; }
fail() { echo "speed: $*" >&2; exit 2; }
has() { command -v "$1" >/dev/null 2>&1; }

mode=${1:-all}
[ $# -eq 0 ] || shift
case $mode in
all | --check | --fuzz | --sanitize | --callgrind | --stack) ;;
*) fail "usage: run.sh [--check | --fuzz [N [S]] | --sanitize [N [S]] | --callgrind | --stack]" ;;
esac

mkdir -p "$build"

# The library, or what stands in for it.
if [ -n "${VRADUCENI_LIB_DIR:-}" ]; then
    library=$VRADUCENI_LIB_DIR/libvraduceni.a
    [ -f "$library" ] || fail "no libvraduceni.a in $VRADUCENI_LIB_DIR"
else
    say "VRADUCENI_LIB_DIR is not set: plain.c stands in for the library"
    library=$build/standin.o
    $cc -O3 $warn -Dplain_judge=vraduceni_judge -c "$here/plain.c" -o "$library" || fail "plain.c"
fi

# rust_object NAME EDITION: NAME/lib.rs as one object that shows one name,
# NAME_judge: what else of Rust's library it holds cannot meet that of another
# library.
rust_object() {
    $rustc --edition "$2" -C opt-level=3 -C panic=abort -C codegen-units=1 \
        --crate-type staticlib --crate-name "$1_machine" "$here/$1/lib.rs" \
        -o "$build/lib$1_machine.a" || fail "$1/lib.rs"
    ld -r -u "$1_judge" "$build/lib$1_machine.a" -o "$build/$1_all.o" || fail "ld -r, $1"
    objcopy --keep-global-symbol="$1_judge" "$build/$1_all.o" "$build/$1.o" || fail "objcopy, $1"
}

# The Rust machines; second/lib.rs takes in ../second/src/machine.rs, so it has
# that one's edition.
no_rust=
rust=
if has "$rustc"; then
    rust_object second 2021
    rust_object rust 2024
    rust="$build/second.o $build/rust.o"
else
    say "no $rustc: the two Rust machines are left out"
    no_rust=-DNO_RUST
fi

# object NAME FLAGS..: one C file
object() {
    name=$1
    shift
    $cc $warn $no_rust "$@" -c "$here/$name.c" -o "$build/$name.o" || fail "$name.c"
}

# program NAME OBJECTS..: linked with all machines
program() {
    name=$1
    shift
    objects=
    for o in "$@" machines assemble plain threaded literal; do objects="$objects $build/$o.o"; done
    # shellcheck disable=SC2086
    $cc $link -o "$build/$name" $objects "$library" $rust -lm -lpthread -ldl || fail "linking $name"
}

link=
sum=0
if [ "$mode" = --sanitize ]; then
    # Sanitized objects lie apart from those that are timed.
    link="-fsanitize=address,undefined -fno-sanitize-recover=undefined"
    build=$build/sanitized
    mkdir -p "$build"
    for f in machines assemble plain threaded literal fuzz; do object $f -O2 -g $link; done
    program fuzz fuzz
    "$build/fuzz" "$@" || sum=1
    exit $sum
fi

# The machines as fast as the compiler makes them; nothing else is timed.
for f in plain threaded literal; do object $f -O3; done
for f in machines assemble recipes examples bench fuzz stack; do object $f -O2; done
program bench bench recipes examples
program fuzz fuzz
program stack stack recipes

# Instructions of one call of machine $1 on input $2, with its steps.
instructions() {
    valgrind --tool=callgrind --callgrind-out-file=/dev/null --toggle-collect="$1_judge" \
        "$build/bench" --one "$1" "$2" >"$build/callgrind.txt" 2>&1 || return 1
    awk '/Collected/ { n = $NF } /^[0-9]+$/ { steps = $1 } END { print n, steps }' \
        "$build/callgrind.txt"
}

callgrind() {
    if ! has valgrind; then
        say "no valgrind: instructions are not counted"
        return 0
    fi
    names="plain vraduceni"
    [ -z "$rust" ] || names="$names second rust"
    names="$names threaded literal"
    echo
    echo "Instructions a step, whole calls (callgrind)"
    echo
    printf '%-11s' recipe
    for m in $names; do printf ' %9s' "$m"; done
    echo
    for r in $("$build/bench" --names); do
        printf '%-11s' "$r"
        for m in $names; do
            instructions "$m" "$r" | awk '{ printf " %9.1f", $1 / $2 }'
        done
        echo
    done
    echo
    echo "Instructions of the checks alone (budget 1)"
    echo
    printf '%-27s' input
    for m in $names; do printf ' %9s' "$m"; done
    echo
    "$build/bench" --check-names | while IFS=: read -r number name; do
        printf '%-27s' "$name"
        for m in $names; do
            instructions "$m" "$number" | awk '{ printf " %9d", $1 }'
        done
        echo
    done
}

case $mode in
--check)
    "$build/bench" --check || sum=1
    "$build/fuzz" 50000 || sum=1
    ;;
--fuzz)
    "$build/fuzz" "$@" || sum=1
    ;;
--stack)
    "$build/stack" || sum=1
    ;;
--callgrind)
    callgrind || sum=1
    ;;
all)
    "$build/fuzz" 50000 || exit 1
    if has "$lua"; then
        # shellcheck disable=SC2046
        "$lua" "$here/lua/time.lua" "$here/lua" "${LUA_SECONDS:-1}" $("$build/bench" --names) \
            >"$build/lua.txt" || fail "the Lua scripts"
        "$build/bench" --lua "$build/lua.txt" || exit 1
    else
        say "no $lua: Lua is left out"
        "$build/bench" || exit 1
    fi
    echo
    "$build/stack" || sum=1
    ;;
esac
exit $sum
