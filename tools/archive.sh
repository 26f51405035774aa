#!/bin/sh
# Proves the crates that export the calls for C and Rust, and joins their objects into one archive, for x86-64:
#
#   tools/archive.sh
#
#   target/staticlib/libpiskorlu.a
#
# A crate is a library or a static library, not both: the calls stand in the libraries capi, capi_chains and capi_exact, and the static
# libraries named below export them. Needs the Rattle kit's rt and ar (binutils). The archive is replaced whole or not at all.
set -eu

EXPORTS='capi_c capi_chains_c capi_exact_c'

die() { echo "archive.sh: $*" >&2; exit 1; }

[ $# -eq 0 ] || die "usage: tools/archive.sh"
cd "$(dirname "$0")/.."
command -v ar >/dev/null || die "ar is not installed"
folder=target/staticlib
mkdir -p "$folder"
objects=
for crate in $EXPORTS; do
    (cd "crates/$crate" && rt lib)
    made=crates/$crate/out/lib$crate.a
    # each crate's archive has one object, named after the crate
    [ "$(ar t "$made")" = "$crate.o" ] || die "$made has not $crate.o alone"
    ar p "$made" "$crate.o" >"$folder/$crate.o"
    objects="$objects $folder/$crate.o"
done
rm -f "$folder/libpiskorlu.a.new"
ar rcsD "$folder/libpiskorlu.a.new" $objects
rm -f $objects
mv "$folder/libpiskorlu.a.new" "$folder/libpiskorlu.a"
echo "$folder/libpiskorlu.a"
