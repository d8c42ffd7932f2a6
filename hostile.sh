#!/bin/sh
# Tries the built program where memory, its input or its output fail it, and with sessions that name
# far more than they hold. It is run by hand; docs/RELIABILITY.md has what came.
#
#   ./hostile.sh [PROGRAM]
set -eu

cd -- "$(dirname -- "$0")"
program=${1:-crates/awk_cli/out/awk_cli}
python3 bench/hostile.py "$program"
python3 bench/attacks.py "$program"
