#!/bin/sh
# Writes the example folders' recipe.bin, policy.bin and memory.bin from the
# listings below.
#
#   make_examples.sh FOLDER
set -u
[ $# -eq 1 ] || { echo "use: make_examples.sh FOLDER" >&2; exit 1; }
out=$1

# bytes FILE BYTE..: the bytes, each given as two hex digits
bytes() {
    file=$1
    shift
    octal=
    for b in "$@"; do
        octal="$octal\\$(printf '%03o' "0x$b")"
    done
    # the text is made of \ooo only
    # shellcheck disable=SC2059
    printf "$octal" > "$file" || exit 1
}

# The two-tag policy: tag 0 clean, tag 1 marked; port 0 (the verdict) for clean
# values only, port 1 (the alarm) for all.
begin() {
    mkdir -p "$out/$1" || exit 1
    bytes "$out/$1/policy.bin"  52 4A 50 01 00 00 02 02  00 01 01 01  00 01
}

# while v0 do v0 := v0 - 1
begin countdown
bytes "$out/countdown/recipe.bin" \
    52 4A 52 01 00 00 03 00 02 00 01 00 00 00 00 00 \
    02 00 00 00 00 00 00 00 `# expression 0: v0` \
    01 00 00 00 01 00 00 00 `# expression 1: 1` \
    05 01 00 00 01 00 00 00 `# expression 2: v0 - 1` \
    01 00 00 00 02 00 00 00 `# statement 0: v0 := v0 - 1` \
    05 00 00 00 00 00 00 00 `# statement 1: while v0 do statement 0`
bytes "$out/countdown/memory.bin" \
    02 00 00 00 00          `# v0 = 2, clean`

# if h then x := 1 else skip; h is v0, x is v1
lesson() {
    begin "$1"
    bytes "$out/$1/recipe.bin" \
        52 4A 52 01 00 00 02 00 03 00 02 00 00 00 00 00 \
        02 00 00 00 00 00 00 00 `# expression 0: h` \
        01 00 00 00 01 00 00 00 `# expression 1: 1` \
        00 00 00 00 00 00 00 00 `# statement 0: skip` \
        01 00 01 00 01 00 00 00 `# statement 1: x := 1` \
        04 00 00 00 01 00 00 00 `# statement 2: if h then statement 1 else statement 0`
}
lesson lesson-taken
bytes "$out/lesson-taken/memory.bin" \
    01 00 00 00 01          `# h = 1, marked` \
    00 00 00 00 00          `# x = 0, clean`
lesson lesson-untaken
bytes "$out/lesson-untaken/memory.bin" \
    00 00 00 00 01          `# h = 0, marked` \
    00 00 00 00 00          `# x = 0, clean`
lesson lesson-marked
bytes "$out/lesson-marked/memory.bin" \
    01 00 00 00 01          `# h = 1, marked` \
    00 00 00 00 01          `# x = 0, marked`

# x := x + 0 * h, then if h then x := 1 else skip; h is v0, x is v1
begin lesson-remedy
bytes "$out/lesson-remedy/recipe.bin" \
    52 4A 52 01 00 00 06 00 05 00 02 00 00 00 00 00 \
    02 00 00 00 00 00 00 00 `# expression 0: h` \
    02 00 01 00 00 00 00 00 `# expression 1: x` \
    01 00 00 00 00 00 00 00 `# expression 2: 0` \
    01 00 00 00 01 00 00 00 `# expression 3: 1` \
    05 02 02 00 00 00 00 00 `# expression 4: 0 * h` \
    05 00 01 00 04 00 00 00 `# expression 5: x + 0 * h` \
    00 00 00 00 00 00 00 00 `# statement 0: skip` \
    01 00 01 00 03 00 00 00 `# statement 1: x := 1` \
    04 00 00 00 01 00 00 00 `# statement 2: if h then statement 1 else statement 0` \
    01 00 01 00 05 00 00 00 `# statement 3: x := x + 0 * h` \
    03 00 03 00 02 00 00 00 `# statement 4: statement 3 then statement 2`
bytes "$out/lesson-remedy/memory.bin" \
    01 00 00 00 01          `# h = 1, marked` \
    00 00 00 00 00          `# x = 0, clean`

# if h then emit 1 on port 0 else emit 0 on port 0; h is v0
begin verdict-chosen
bytes "$out/verdict-chosen/recipe.bin" \
    52 4A 52 01 00 00 03 00 03 00 01 00 00 00 00 00 \
    02 00 00 00 00 00 00 00 `# expression 0: h` \
    01 00 00 00 00 00 00 00 `# expression 1: 0` \
    01 00 00 00 01 00 00 00 `# expression 2: 1` \
    06 00 01 00 00 00 00 00 `# statement 0: emit 0 on port 0` \
    06 00 02 00 00 00 00 00 `# statement 1: emit 1 on port 0` \
    04 00 00 00 01 00 00 00 `# statement 2: if h then statement 1 else statement 0`
bytes "$out/verdict-chosen/memory.bin" \
    01 00 00 00 01          `# h = 1, marked`
