#!/bin/sh
# Links the static library into the shared object that piskorlu.py loads.
#
#   bindings/python/build.sh [ARCHIVE [SHARED_OBJECT]]
#
# ARCHIVE is target/staticlib/libpiskorlu.a unless named (an installed lib/libpiskorlu.a will do), SHARED_OBJECT is
# target/python/libpiskorlu.so. Needs cc.
set -eu
root=$(cd "$(dirname "$0")/../.." && pwd)
archive=${1:-$root/target/staticlib/libpiskorlu.a}
object=${2:-$root/target/python/libpiskorlu.so}
command -v cc >/dev/null || { echo "build.sh: cc is not installed" >&2; exit 1; }
[ -f "$archive" ] || { echo "build.sh: $archive is not there; 'tools/archive.sh' makes target/staticlib/libpiskorlu.a" >&2; exit 1; }
mkdir -p "$(dirname "$object")"
cc -shared -o "$object.new" -Wl,--whole-archive "$archive" -Wl,--no-whole-archive
mv "$object.new" "$object"
