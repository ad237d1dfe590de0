#!/bin/sh
# ends_check must accept the help page, header and definitions as they stand,
# and must refuse every one of the spoiled copies made here. Exit 0 or 1.
#
#   ends_check_test.sh [DEFINITIONS]    as for host/ends_check.sh
set -u
here=$(cd "$(dirname "$0")" && pwd) || exit 1
root=$(dirname "$here")
build=${VRADUCENI_BUILD_DIR:-$root/host/build}
definitions=${1:-$root/crates/rules/specs/Ends.antt}
page=$root/docs/ENDS.md
header=$root/include/vraduceni.h
spoiled=$build/spoiled
bad=0
tried=0

sh "$root/host/ends_check.sh" "$definitions" || exit 1
mkdir -p "$spoiled" || exit 1

# refused WHAT PAGE HEADER DEFINITIONS ORIGINAL SPOILED
refused() {
    tried=$((tried + 1))
    if cmp -s "$5" "$6"; then
        printf 'ends_check_test: %s: the copy was not spoiled\n' "$1"
        bad=1
    elif "$build/ends_check" "$2" "$3" "$4" > "$spoiled/output.txt" 2>&1; then
        printf 'ends_check_test: %s: not noticed\n' "$1"
        bad=1
    elif ! grep -q '^ends_check: [0-9]* numbers, [0-9]* examples, [1-9][0-9]* differences$' "$spoiled/output.txt"; then
        printf 'ends_check_test: %s: not told as a difference\n' "$1"
        cat "$spoiled/output.txt"
        bad=1
    fi
}
spoil_page() { sed "$2" "$page" > "$spoiled/page"; refused "page, $1" "$spoiled/page" "$header" "$definitions" "$page" "$spoiled/page"; }
spoil_header() { sed "$2" "$header" > "$spoiled/header"; refused "header, $1" "$page" "$spoiled/header" "$definitions" "$header" "$spoiled/header"; }
spoil_definitions() { sed "$2" "$definitions" > "$spoiled/definitions"; refused "definitions, $1" "$page" "$header" "$spoiled/definitions" "$definitions" "$spoiled/definitions"; }

# Every number, taken away from each side in turn.
for n in $(sed -n 's/^## \([0-9][0-9]*\) .*/\1/p' "$page"); do
    spoil_page "number $n missing" "/^## $n /d"
    spoil_header "number $n missing" "/^ *VRADUCENI_[A-Z_]* = ${n}[, ]/d"
    spoil_definitions "number $n missing" "/_number .* = $n\$/d"
done

# A number too many, another number, another name, a refusal called an end.
spoil_page "a number too many" 's/^## 8 frames$/## 8 frames\
\
## 9 calls/'
spoil_page "another number" 's/^## 8 frames$/## 9 frames/'
spoil_page "another name" 's/^## 17 recipe mark$/## 17 recipe stamp/'
spoil_page "a number twice" 's/^## 8 frames$/## 7 room/'
spoil_header "a number too many" 's/^\( *\)VRADUCENI_END_FRAMES = 8,/&\
\1VRADUCENI_END_CALLS = 9,/'
spoil_header "another number" 's/VRADUCENI_END_FRAMES = 8/VRADUCENI_END_FRAMES = 9/'
spoil_header "another name" 's/VRADUCENI_REFUSAL_BAD_PORT/VRADUCENI_REFUSAL_NO_PORT/'
spoil_header "a refusal called an end" 's/VRADUCENI_REFUSAL_BAD_PORT/VRADUCENI_END_BAD_PORT/'
spoil_definitions "a number too many" 's/^stop_number Frames = 8$/&\
stop_number Calls = 9/'
spoil_definitions "another number" 's/^stop_number Frames = 8$/stop_number Frames = 9/'
spoil_definitions "another name" 's/^refusal_number RecipeMark = 17$/refusal_number RecipeStamp = 17/'

# Examples: another result in each field, another input, a line missing.
spoil_page "another end" 's/^gives: 2 1 2 0$/gives: 3 1 2 0/'
spoil_page "another place" 's/^gives: 2 1 2 0$/gives: 2 0 2 0/'
spoil_page "other steps" 's/^gives: 2 1 2 0$/gives: 2 1 3 0/'
spoil_page "other records" 's/^gives: 2 1 2 0$/gives: 2 1 2 1/'
spoil_page "another budget" 's/^budget: 10$/budget: 11/'
spoil_page "more room" 's/^room: 4$/room: 5/'
spoil_page "a longer report" 's/^report: 11$/report: 12/'
spoil_page "more bytes for the house policy" 's/^house-policy: 265$/house-policy: 266/'
spoil_page "no result" '/^gives: 21 8 0 0$/d'
spoil_page "no policy" '/^policy: house$/d'
spoil_page "a word that is no key" 's/^budget: 10$/buget: 10/'
spoil_page "a digit that is none" 's/^memory: 07 00 00 00 01$/memory: 0x 00 00 00 01/'
spoil_page "no examples" 's/^```hex$/```text/'
spoil_page "a block not closed" '$d'

# The host's words: built anew beside a table that lacks a number.
tried=$((tried + 1))
cp "$root/host/ends_check.c" "$spoiled/ends_check.c" || exit 1
sed '/VRADUCENI_REFUSAL_BAD_PORT/d' "$root/host/words.h" > "$spoiled/words.h"
if ! ${CC:-cc} -std=c99 -I"$root/include" "$spoiled/ends_check.c" "$VRADUCENI_LIB_DIR/libvraduceni.a" -o "$spoiled/ends_check"; then
    bad=1
elif "$spoiled/ends_check" "$page" "$header" "$definitions" > /dev/null; then
    printf 'ends_check_test: words.h, a number missing: not noticed\n'
    bad=1
fi

[ "$bad" -eq 0 ] || exit 1
printf 'ends_check_test: %d spoiled copies, all refused\n' "$tried"
