#!/bin/sh
# Tells whether what a command needs is there, each by its name, before anything is begun:
#
#   tools/needs.sh NEED..
#
# NEED is kit, python, rust, cc, c++, objdump, ar or original. Exit status 1 where one is missing.
set -u
root=$(cd "$(dirname "$0")/.." && pwd -P)

# The kit that the proofs were last made with.
KIT='rattle-kit-13f logic dac8208d650f15bf'

missing=0
found() { printf 'found    %s\n' "$*"; }
lacks() {
    printf 'MISSING  %s\n' "$*"
    missing=1
}

# Whether version $1 is $2.$3 or later.
at_least() {
    first=${1%%.*}
    rest=${1#*.}
    [ "$first" -gt "$2" ] || { [ "$first" -eq "$2" ] && [ "${rest%%.*}" -ge "$3" ]; }
} 2>/dev/null

kit() {
    if ! command -v rt >/dev/null; then
        lacks "the Rattle kit's rt: put the kit's bin/ on PATH (proved with $KIT)"
        return
    fi
    version=$(rt version)
    case $version in
        "$KIT") found "Rattle kit: $version" ;;
        *) found "Rattle kit: $version (the proofs were last made with $KIT)" ;;
    esac
    case $(uname -m) in
        x86_64) ;;
        *) echo "         this machine is $(uname -m): the kit builds for x86-64 alone and runs what it builds under an emulator" ;;
    esac
}

python() {
    version=$(python3 -c 'import platform; print(platform.python_version())' 2>/dev/null)
    if [ -z "$version" ]; then
        lacks "python3, 3.9 or later"
    elif at_least "$version" 3 9; then
        found "Python: $version"
    else
        lacks "python3, 3.9 or later: found $version"
    fi
}

rust() {
    version=$(cargo --version 2>/dev/null | cut -d' ' -f2)
    if [ -z "$version" ]; then
        lacks "Rust's cargo, 1.81 or later"
    elif at_least "$version" 1 81; then
        found "Rust: $version"
    else
        lacks "Rust's cargo, 1.81 or later: found $version"
    fi
}

program() {
    if command -v "$1" >/dev/null; then found "$2: $(command -v "$1")"; else lacks "$2: $1"; fi
}

# The folders in which compare/build.rs looks, one on a line.
original_folders() {
    if [ -n "${PISKORLU_ORIGINAL:-}" ]; then
        echo "$PISKORLU_ORIGINAL"
        return
    fi
    cloned=$(git -C "$root" config --get remote.origin.url 2>/dev/null)
    cloned=$(cd "${cloned#file://}" 2>/dev/null && pwd -P)
    for above in "$root" "$cloned"; do
        while [ -n "$above" ] && [ "$above" != / ]; do
            above=$(dirname "$above")
            echo "${above%/}/shared/docs/src"
        done
    done
}

original() {
    folder=$(original_folders | while IFS= read -r folder; do
        solve=$folder/crates/pa-core/src/solve
        if [ -f "$solve/boxed.rs" ] && [ -f "$solve/dense.rs" ] && [ -f "$solve/report.rs" ]; then
            echo "$folder"
            break
        fi
    done)
    if [ -n "$folder" ]; then
        found "the original's files: $folder"
        return
    fi
    lacks "the original's boxed.rs, dense.rs and report.rs (madmatah/piano-action-sim, commit 841902a2df), looked for as crates/pa-core/src/solve/ in"
    original_folders | sort -u | sed 's/^/         /'
    echo "         PISKORLU_ORIGINAL names another folder"
}

for need in "$@"; do
    case $need in
        kit | python | rust | original) "$need" ;;
        cc) program cc "C compiler" ;;
        c++) program c++ "C++ compiler" ;;
        objdump | ar) program "$need" "binutils" ;;
        *)
            echo "needs.sh: no such need: $need" >&2
            exit 2
            ;;
    esac
done
exit $missing
