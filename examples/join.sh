#!/bin/sh
# Joins the example sessions into the stored session of awk_cli, and their answers into its
# answers, so that each example is written once. That of raw/ is the stored session of
# awk_raw_examples: a session of version 2 begins with its own line, and ends where bytes are cut.
#
#   examples/join.sh            writes stdin and stdout of these crates
#   examples/join.sh --check    tells whether they are as it would write them: the status is 0 then,
#                               and 1 where one is not
set -eu
export LC_ALL=C

cd -- "$(dirname -- "$0")"
joined=$(mktemp -d)
trap 'rm -rf "$joined"' EXIT

# The names of the sessions. The faults come first: they speak of names that other sessions bind.
sessions() {
    echo faults
    for session in *.jsonl classes/*.jsonl; do
        case $session in
        *.answers.jsonl | faults.jsonl) ;;
        *) echo "${session%.jsonl}" ;;
        esac
    done
}

# The answers of one session after the other, where one that lists names has those of all sessions
# so far, in the order in which each was bound first.
with_all_names() {
    awk '
        /^\{"bound":/ {
            name = substr($0, 10, length($0) - 10)
            if (!(name in bound)) names = names (names == "" ? "" : ",") name
            bound[name]
        }
        /^\{"names":/ { $0 = "{\"names\":[" names "]}" }
        { print }'
}

# The bytes of a session, where a line `= 00 0a ff` stands for these bytes and for no line.
with_raw_bytes() {
    printf %b "$(awk '
        function digit(c) { return index("0123456789abcdef", c) - 1 }
        /^= / {
            for (i = 2; i <= NF; i++)
                printf "\\0%03o", 16 * digit(substr($i, 1, 1)) + digit(substr($i, 2, 1))
            next
        }
        { gsub(/\\/, "\\\\"); printf "%s\\n", $0 }')"
}

# Puts the stored session and the answers of a crate in their places, or compares them.
store() {
    for file in stdin stdout; do
        if [ "$2" != --check ]; then
            cp "$joined/$file" "../crates/$1/$file"
        elif ! cmp -s "$joined/$file" "../crates/$1/$file"; then
            echo "examples/join.sh: crates/$1/$file is not what the examples give;" \
                "run examples/join.sh" >&2
            exit 1
        fi
    done
}

for session in $(sessions); do
    cat "$session.jsonl" >>"$joined/stdin"
    cat "$session.answers.jsonl" >>"$joined/answers"
done
with_all_names <"$joined/answers" >"$joined/stdout"
store awk_cli "${1-}"

with_raw_bytes <raw/version_2.txt >"$joined/stdin"
cat raw/version_2.answers.jsonl raw/cuts.answers.jsonl >"$joined/stdout"
store awk_raw_examples "${1-}"
