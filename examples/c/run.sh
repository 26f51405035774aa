#!/bin/sh
# Compiles the C examples against the static library with plain cc, runs them, and compares what they print with what they must print.
set -eu
cd "$(dirname "$0")/../.."
[ -f target/staticlib/libpiskorlu.a ] || tools/archive.sh
for name in least_norm solve triangle chain exact join; do
    cc -std=c99 -Wall -Wextra -Werror -I include "examples/c/$name.c" target/staticlib/libpiskorlu.a -o "target/$name"
    "target/$name" | tee "target/$name.txt"
    diff "examples/c/$name.txt" "target/$name.txt"
done
