#!/bin/sh
# Proves and builds the static library: target/staticlib/libvraduceni.a. Exit 0 when it was built, else not.
set -eu
root=$(cd "$(dirname "$0")/.." && pwd)
out=$root/target/staticlib
mkdir -p "$out"
cd "$root/crates/vraduceni_c"
rt lib
cp out/libvraduceni_c.a "$out/libvraduceni.a"
