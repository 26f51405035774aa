#!/bin/sh
# Proves and builds the program bendsolve, for x86-64:
#
#   tools/program.sh
#
#   target/bin/bendsolve
#
# Where nothing has changed since it was last built, nothing is proved again. Needs the Rattle kit's rt. The program is replaced whole or
# not at all.
set -eu

die() { echo "program.sh: $*" >&2; exit 1; }

[ $# -eq 0 ] || die "usage: tools/program.sh"
cd "$(dirname "$0")/.."
mkdir -p target/bin
# rt builds a program in order to run it, so it is run on its own example
(cd crates/bendsolve && rt run <stdin 2>&1)
cp crates/bendsolve/out/bendsolve target/bin/bendsolve.new
mv target/bin/bendsolve.new target/bin/bendsolve
echo target/bin/bendsolve
