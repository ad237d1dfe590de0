#!/bin/sh
# Every folder of examples/: its files are those of make_examples.sh, a run in
# it prints its expected.txt, and docs/LESSON.md shows that line as
# "examples/NAME: LINE". Exit 0 when all agree, else 1.
#
#   examples.sh [PROGRAM]
#       PROGRAM               the thin program, run within each folder
#                             (default: line.c built against the library)
#   VRADUCENI_LIB_DIR         folder of libvraduceni.a (needed without PROGRAM)
#   VRADUCENI_BUILD_DIR       folder to build in (default: host/build)
#   CC                        compiler (default: cc)
set -u
here=$(cd "$(dirname "$0")" && pwd) || exit 1
root=$(dirname "$here")
build=${VRADUCENI_BUILD_DIR:-$root/host/build}
mkdir -p "$build" || exit 1
build=$(cd "$build" && pwd) || exit 1
made=$build/examples
bad=0
count=0

fail() { printf 'examples: %s\n' "$1" >&2; bad=1; }

if [ $# -ge 1 ]; then
    program=$(cd "$(dirname "$1")" && pwd)/$(basename "$1")
else
    lib=${VRADUCENI_LIB_DIR:?must name the folder of libvraduceni.a}/libvraduceni.a
    program=$build/line
    ${CC:-cc} -std=c99 -Wall -Wextra -Werror -pedantic -g -fsanitize=address,undefined \
        -fno-sanitize-recover=all -I"$root/include" "$here/line.c" "$lib" -o "$program" || exit 1
fi

rm -rf "$made"
sh "$here/make_examples.sh" "$made" || exit 1
for folder in "$made"/*/; do
    name=$(basename "$folder")
    [ -d "$root/examples/$name" ] || fail "examples/$name is missing"
done
for folder in "$root"/examples/*/; do
    name=$(basename "$folder")
    count=$((count + 1))
    for file in recipe.bin policy.bin memory.bin; do
        cmp "$made/$name/$file" "$folder$file" || fail "examples/$name/$file is not as listed"
    done
    (cd "$folder" && "$program") > "$build/line.txt" || fail "examples/$name: the program failed"
    diff "${folder}expected.txt" "$build/line.txt" || fail "examples/$name prints another line"
    grep -q -x -F "examples/$name: $(cat "${folder}expected.txt")" "$root/docs/LESSON.md" \
        || fail "docs/LESSON.md does not show the line of examples/$name"
done
[ "$count" -gt 0 ] || fail "no examples"
[ "$bad" -eq 0 ] || exit 1
printf 'examples: %d folders, all as expected\n' "$count"
