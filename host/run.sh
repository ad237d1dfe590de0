#!/bin/sh
# Builds the C host and the least use against the library, runs both under the
# address and undefined-behaviour sanitizers, and compares what the host writes
# with expected.txt. Exit 0 when all is as expected, else 1.
#
#   VRADUCENI_LIB_DIR     folder of libvraduceni.a (needed)
#   VRADUCENI_BUILD_DIR   folder to build in (default: build beside this file)
#   CC, CXX               compilers (default: cc; c++ where there is one)
set -u
here=$(cd "$(dirname "$0")" && pwd) || exit 1
root=$(dirname "$here")
build=${VRADUCENI_BUILD_DIR:-$here/build}
cc=${CC:-cc}
strict="-Wall -Wextra -Werror -pedantic -g -fsanitize=address,undefined -fno-sanitize-recover=all"

say() { printf 'host: %s\n' "$1"; }
fail() { say "$1" >&2; exit 1; }

[ -n "${VRADUCENI_LIB_DIR:-}" ] || fail "VRADUCENI_LIB_DIR must name the folder of libvraduceni.a"
lib=$VRADUCENI_LIB_DIR/libvraduceni.a
[ -f "$lib" ] || fail "no library at $lib"
mkdir -p "$build" || fail "cannot make $build"

# $strict holds several words on purpose.
# shellcheck disable=SC2086
$cc -std=c99 $strict -I"$root/include" -I"$here" "$here/host.c" "$lib" -o "$build/host" \
    || fail "host.c was not built"
# shellcheck disable=SC2086
$cc -std=c99 $strict -I"$root/include" "$here/link.c" "$lib" -o "$build/link" \
    || fail "link.c was not built"

"$build/link" || fail "the least use gave other numbers than 30 and 29"
"$build/host" > "$build/output.txt" || fail "the host failed"
diff "$here/expected.txt" "$build/output.txt" || fail "the output differs from expected.txt"

cxx=${CXX:-c++}
if command -v "$cxx" > /dev/null 2>&1; then
    # shellcheck disable=SC2086
    "$cxx" -std=c++98 $strict -I"$root/include" -x c++ "$here/link.c" -x none "$lib" -o "$build/link-cxx" \
        || fail "link.c was not built as C++"
    "$build/link-cxx" || fail "the least use from C++ gave other numbers than 30 and 29"
    say "as expected, from C and from C++"
else
    say "as expected, from C (no C++ compiler here)"
fi
