#!/bin/sh
# Proves and builds what is missing of the solver, solves examples/shaft-six-pads and shows the loads as a table:
#
#   tools/solve-example.sh
#
# A line for each crate that is proved, with how many are left. What the prover says of them is in target/solve-example.log.
set -eu
cd "$(dirname "$0")/.."

echo "solve-example: proves and builds the program bendsolve where that was not done yet, and solves one load step."
echo "From nothing it takes some 8 minutes of processor time and 2 GB of memory; later some two seconds."
tools/needs.sh kit python

log=target/solve-example.log
mkdir -p target

# The crates of this repository that one depends on.
below() {
    awk -F'[: ]+' -v crate="$1" '!/^#/ { is[$1] = 1; if ($1 == crate) for (i = 2; i <= NF; i++) needs[$i] = 1 }
        END { for (c in needs) if (c in is) print c }' crates.txt
}

# A line for each crate that rt proves, without the prover's own, and the crates left. rt says nothing of a crate that has not changed, but
# those that a proved one depends on are proved too.
told() {
    left=$(echo bendsolve $(below bendsolve))
    began=$(date +%s)
    crate=
    while IFS= read -r line; do
        printf '%s\n' "$line" >>"$log"
        case $line in
            "crate "*": modules "*)
                crate=${line#crate }
                crate=${crate%%:*}
                ;;
            "logic=proved "*)
                [ -n "$crate" ] || continue
                now=$(date +%s)
                for proved in "$crate" $(below "$crate"); do
                    left=$(for c in $left; do [ "$c" = "$proved" ] || printf '%s ' "$c"; done)
                done
                echo "$crate proved ($((now - began)) s), $(set -- $left; echo $#) left"
                began=$now
                crate=
                ;;
        esac
    done
}

: >"$log"
if ! { tools/program.sh 2>&1 || echo "solve-example: not proved"; } | told || grep -q "^solve-example: not proved" "$log"; then
    tail -n 20 "$log" >&2
    echo "solve-example: bendsolve was not proved and built; $log has all that was said" >&2
    exit 1
fi

bend=examples/shaft-six-pads/shaft-six-pads.bend
echo
target/bin/bendsolve <"$bend" | PYTHONDONTWRITEBYTECODE=1 python3 tools/bend.py answer - "$bend"
