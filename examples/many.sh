#!/bin/sh
# What dimuon.py does in one session, over eight files by four programs side by side; then the
# histograms are added, and the sum is that of the one session.
#
#   examples/many.sh [PROGRAM]
#
# Without an argument the program is the one that JAGGED_PROGRAM names, else the built one.
set -eu

here=$(CDPATH='' cd -- "$(dirname -- "$0")" && pwd)
program=${1:-${JAGGED_PROGRAM:-$here/../crates/awk_cli/out/awk_cli}}
folder=$(mktemp -d)
trap 'rm -rf "$folder"' EXIT

python3 "$here/dimuon.py" write "$folder"
# A session is a filter of lines, and sessions share nothing.
printf '%s\n' "$folder"/*.session |
    xargs -P 4 -I FILE sh -c '"$1" run <"$2" >"$2.answers"' sh "$program" FILE
python3 "$here/dimuon.py" add "$folder"/*.answers
