#!/bin/sh
# Builds ends_check and runs it: the help page, the C header, the host's words
# and the definitions name the same numbers, and every example of the page
# gives what it says. Exit 0 when all agree, else 1.
#
#   ends_check.sh [DEFINITIONS]
#       DEFINITIONS           default: crates/rules/specs/Ends.antt of the project
#   VRADUCENI_LIB_DIR         folder of libvraduceni.a (needed)
#   VRADUCENI_BUILD_DIR       folder to build in (default: build beside this file)
#   CC                        compiler (default: cc)
set -u
here=$(cd "$(dirname "$0")" && pwd) || exit 1
root=$(dirname "$here")
build=${VRADUCENI_BUILD_DIR:-$here/build}
definitions=${1:-$root/crates/rules/specs/Ends.antt}

fail() { printf 'ends_check: %s\n' "$1" >&2; exit 1; }

[ -n "${VRADUCENI_LIB_DIR:-}" ] || fail "VRADUCENI_LIB_DIR must name the folder of libvraduceni.a"
lib=$VRADUCENI_LIB_DIR/libvraduceni.a
[ -f "$lib" ] || fail "no library at $lib"
mkdir -p "$build" || fail "cannot make $build"

${CC:-cc} -std=c99 -Wall -Wextra -Werror -pedantic -g -fsanitize=address,undefined \
    -fno-sanitize-recover=all -I"$root/include" -I"$here" "$here/ends_check.c" "$lib" \
    -o "$build/ends_check" || fail "ends_check.c was not built"
"$build/ends_check" "$root/docs/ENDS.md" "$root/include/vraduceni.h" "$definitions" || exit 1
