#!/bin/sh
# Installs the library with what a C, C++ or CMake program needs of it:
#
#   tools/install.sh PREFIX
#
#   PREFIX/lib/libpiskorlu.a                  the static library, for x86-64
#   PREFIX/include/piskorlu.h                 the header
#   PREFIX/lib/pkgconfig/piskorlu.pc          for pkg-config --cflags --libs piskorlu
#   PREFIX/lib/cmake/piskorlu/                for find_package(piskorlu), target piskorlu::piskorlu
#   PREFIX/share/doc/piskorlu/                the specification and the licence
#
# The installed tree may be moved. DESTDIR, where set, is put before PREFIX. PISKORLU_STATICLIB names another archive than
# target/staticlib/libpiskorlu.a, which `tools/archive.sh` makes. A file is replaced whole or not at all.
set -eu

die() { echo "install.sh: $*" >&2; exit 1; }

[ $# -eq 1 ] || die "usage: tools/install.sh PREFIX"
case $1 in
    /*) prefix=$1 ;;
    ?*) prefix=$(pwd)/$1 ;;
    *) die "PREFIX is empty" ;;
esac
root=$(cd "$(dirname "$0")/.." && pwd)
to=${DESTDIR:-}$prefix
header=$root/include/piskorlu.h
archive=${PISKORLU_STATICLIB:-$root/target/staticlib/libpiskorlu.a}
[ -f "$archive" ] || die "$archive is not there; 'tools/archive.sh' makes it"

version=$(sed -n 's/^#define PISKORLU_VERSION "\(.*\)"$/\1/p' "$header")
[ -n "$version" ] || die "$header has no PISKORLU_VERSION"
# an archive from before a change of the header is not installed beside it
for call in $(sed -n 's/^[a-z0-9_]* \(piskorlu_[a-z_]*\)(.*/\1/p' "$header"); do
    grep -aq "$call" "$archive" || die "$archive has no $call; it is older than the header, and 'tools/archive.sh' makes it anew"
done

# Standard input as the file of that name.
put() {
    mkdir -p "$(dirname "$to/$1")"
    cat >"$to/$1.new"
    chmod 644 "$to/$1.new"
    mv "$to/$1.new" "$to/$1"
    echo "$to/$1"
}

put lib/libpiskorlu.a <"$archive"
put include/piskorlu.h <"$header"
put share/doc/piskorlu/SPECIFICATION.md <"$root/docs/SPECIFICATION.md"
put share/doc/piskorlu/NOTICE <"$root/NOTICE"

put lib/pkgconfig/piskorlu.pc <<END
prefix=\${pcfiledir}/../..
libdir=\${prefix}/lib
includedir=\${prefix}/include

Name: piskorlu
Description: Box-bounded pad loads
Version: $version
Cflags: -I\${includedir}
Libs: -L\${libdir} -lpiskorlu
END

put lib/cmake/piskorlu/piskorlu-config.cmake <<'END'
get_filename_component(_piskorlu_prefix "${CMAKE_CURRENT_LIST_DIR}/../../.." ABSOLUTE)
if(NOT TARGET piskorlu::piskorlu)
  add_library(piskorlu::piskorlu STATIC IMPORTED)
  set_target_properties(piskorlu::piskorlu PROPERTIES
    IMPORTED_LOCATION "${_piskorlu_prefix}/lib/libpiskorlu.a"
    INTERFACE_INCLUDE_DIRECTORIES "${_piskorlu_prefix}/include")
endif()
unset(_piskorlu_prefix)
END

put lib/cmake/piskorlu/piskorlu-config-version.cmake <<END
set(PACKAGE_VERSION "$version")
# a later version of the same first number will do
string(REGEX REPLACE "[.].*" "" _piskorlu_first "\${PACKAGE_VERSION}")
if(PACKAGE_FIND_VERSION_MAJOR STREQUAL _piskorlu_first AND NOT PACKAGE_VERSION VERSION_LESS PACKAGE_FIND_VERSION)
  set(PACKAGE_VERSION_COMPATIBLE TRUE)
  if(PACKAGE_VERSION VERSION_EQUAL PACKAGE_FIND_VERSION)
    set(PACKAGE_VERSION_EXACT TRUE)
  endif()
endif()
# the archive is for x86-64 alone
if(NOT CMAKE_SYSTEM_PROCESSOR STREQUAL "" AND NOT CMAKE_SYSTEM_PROCESSOR MATCHES "^(x86_64|amd64|AMD64)$")
  set(PACKAGE_VERSION_UNSUITABLE TRUE)
endif()
unset(_piskorlu_first)
END
