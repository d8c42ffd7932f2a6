#!/bin/sh
# Answers the session on standard input.
#
#   ./run.sh < SESSION              by the proved program, which is proved and built first where there
#                                   is none, or where a source is newer
#   ./run.sh --unproved < SESSION   at once, by a build that proves nothing: for a first look
#
# What goes on meanwhile is told on standard error.
set -eu

here=$(CDPATH='' cd -- "$(dirname -- "$0")" && pwd)
crate=$here/crates/awk_cli
program=$crate/out/awk_cli

tell() {
    echo "run.sh: $*" >&2
}

is_built() {
    [ -x "$program" ] || return 1
    newer=$(find "$here/crates" "$here/crates.txt" -name out -path '*/crates/*/out' -prune -o \
        -type f \( -name '*.rt' -o -name '*.antt' -o -name crates.txt \) -newer "$program" -print)
    [ -z "$newer" ]
}

# Proves all crates, as many side by side as there are processors, and tells of each.
prove() {
    crates=$(grep -c '^[a-z]' "$here/crates.txt")
    tell "proving $crates crates; this is done once, and again where a source changed"
    { (cd "$here" && rt all check --jobs "$(nproc)") 2>&1 || echo "FAILED"; } | awk -v of="$crates" '
        BEGIN { "date +%s" | getline start; close("date +%s") }
        /^== / { crate = $2; next }
        /: error[:[]/ { print > "/dev/stderr" }
        /^logic=proved/ {
            "date +%s" | getline now; close("date +%s")
            printf "run.sh: proved %s, %d of %d, %.1f minutes so far\n", crate, ++done, of, (now - start) / 60 > "/dev/stderr"
        }
        /^FAILED$/ { failed = 1 }
        END { exit failed }'
}

if [ "${1-}" = --unproved ]; then
    tell "this build is unproved, and stops at a session of more than some million steps"
    cd "$crate"
    exec rt try -- run
fi

if ! is_built; then
    # `rt run` leaves the program behind; it is run on an empty session.
    if ! prove || ! (cd "$crate" && rt run -- run) </dev/null >&2; then
        tell "the program could not be built"
        exit 70
    fi
fi

# Large arrays are asked of the system in large pages, where it gives them on request: the fewer
# pages, the sooner a load is done. What the caller has set for the C library stays.
export GLIBC_TUNABLES="${GLIBC_TUNABLES-glibc.malloc.hugetlb=1}"
exec "$program" run
