#!/bin/sh
# Runs each example session and compares its answers with those that stand beside it.
set -eu

here=$(CDPATH='' cd -- "$(dirname -- "$0")" && pwd)
answers=$(mktemp)
trap 'rm -f "$answers"' EXIT
count=0
wrong=0

# Answers the session of a file, and compares the answers with those of another.
check() {
    status=0
    "$here/../run.sh" <"$1" >"$answers" || status=$?
    # 0: no answer is a fault; 1: some answer is one. Any other status ended the run early.
    if [ "$status" -gt 1 ] || ! diff "$2" "$answers"; then
        echo "$1: other answers, or status $status" >&2
        wrong=$((wrong + 1))
    fi
    count=$((count + 1))
}

for session in "$here"/*.jsonl "$here"/classes/*.jsonl; do
    case $session in *.answers.jsonl) continue ;; esac
    check "$session" "${session%.jsonl}.answers.jsonl"
done
# Of version 2, with its raw bytes as examples/join.sh has written them.
check "$here/../crates/awk_raw_examples/stdin" "$here/raw/version_2.answers.jsonl"

echo "$count sessions, $wrong wrong"
[ "$wrong" -eq 0 ]
