#!/usr/bin/env bash
# Tries the edits: wrong bodies of a crate, which its contracts alone must refuse. Those of
# crates/CRATE/must-fail/ are tried by each rt ci, and those of edits/CRATE/ by this script, which
# the gate runs for those of them that have a line '# gate'.
#
#   ./edits.sh [CRATE..]   tries edits/CRATE/*.edit, or those of every crate, in a scratch copy, and
#                          tells of each whether it is refused
#   ./edits.sh --gate      tries those with a line '# gate' alone, of all crates
#   ./edits.sh --applies   tells in seconds whether each edit of both places can be applied
#
# An edit has a line 'file: src/PATH' and then pairs of lines 'old: TEXT' and 'new: TEXT'. The old
# text stands in that file exactly once, as the pairs before have left it, and the new one takes its
# place. Other lines begin with '#':
#   # gate                     the gate tries the edit too
#   # compiler: TEXT           the edit is refused before the prover sees it: by the compiler, with
#                              an error of this text
#   # only: MODULE::FUNCTION   the function to try it on, where this is not the one that it changes
#
# The crates below are proved and built first; what a gate has left of them in out/ is taken, where
# no source is newer. An edit is then refused where the function that it changes is not proved.
# trial/__main__.py, which needs python3, tells how this is done, and what may be set:
#
#   EDITS_ROOM=FOLDER          keeps what is built and tried, for the next run of the same texts
#   EDITS_LANES=N              so many checks side by side, in place of one a processor
#
# The status is 0 where each edit is refused (or can be applied), 1 where one is not, cannot be
# applied or was not tried, and 2 where a word is no crate with edits.
set -euo pipefail
shopt -s nullglob

if [ -n "${EDITS_ROOM-}" ]; then
    EDITS_ROOM=$(realpath -m -- "$EDITS_ROOM")
    export EDITS_ROOM
fi
cd "$(dirname "$0")"

tell() {
    echo "edits.sh: $*"
}

# Why an edit of the crate in a folder cannot be applied; nothing where it can.
why_not() {
    # Texts are taken as bytes, which is many times faster.
    local LC_ALL=C edit=$1 folder=$2 line path='' old='' before rest
    local -A texts=() made=()
    while IFS= read -r line || [ -n "$line" ]; do
        case $line in
        'file: src/'*)
            path=${line#file: }
            if [ ! -f "$folder/$path" ]; then
                echo "there is no file $path"
                return
            fi
            if [ -z "${texts[$path]+read}" ]; then
                texts[$path]=$(<"$folder/$path")
                made[$path]=${texts[$path]}
            fi
            ;;
        'old: '*) old=${line#old: } ;;
        'new: '* | 'new:')
            if [ -z "$path" ] || [ -z "$old" ]; then
                echo "a new text has no file or no old text before it"
                return
            fi
            before=${made[$path]%%"$old"*}
            if [ "$before" = "${made[$path]}" ]; then
                echo "$path has no such text: $old"
                return
            fi
            rest=${made[$path]:${#before} + ${#old}}
            if [[ $rest == *"$old"* ]]; then
                echo "$path has this text more than once: $old"
                return
            fi
            line=${line#new:}
            made[$path]=$before${line# }$rest
            old=''
            ;;
        '' | '#'*) ;;
        *)
            echo "it has a line that is not read: $line"
            return
            ;;
        esac
    done <"$edit"
    if [ -n "$old" ]; then
        echo "an old text has no new one: $old"
        return
    fi
    for path in "${!made[@]}"; do
        if [ "${made[$path]}" != "${texts[$path]}" ]; then
            return
        fi
    done
    echo "it changes nothing"
}

# Whether each edit of both places can be applied; those that cannot are told.
all_apply() {
    local edit crate what why count=0 bad=0
    for edit in crates/*/must-fail/* edits/*/*; do
        crate=${edit#*/}
        crate=${crate%%/*}
        what=${edit##*/}
        why=''
        if [[ ! $what =~ ^[a-z][a-z0-9_]*\.edit$ ]]; then
            why="its name is not of small letters, digits and _, with .edit at its end"
        elif [ ! -d "crates/$crate/src" ]; then
            why="there is no crate $crate"
        elif [ "$edit" = "edits/$crate/$what" ] && [ -e "crates/$crate/must-fail/$what" ]; then
            why="an edit of the gate has its name"
        else
            why=$(why_not "$edit" "crates/$crate")
        fi
        count=$((count + 1))
        if [ -n "$why" ]; then
            tell "$edit: BAD EDIT: $why"
            bad=$((bad + 1))
        fi
    done
    tell "$count edits, of which $bad cannot be applied"
    [ "$bad" -eq 0 ]
}

if [ "${1-}" = --applies ]; then
    all_apply
    exit
fi
if [ "${1-}" = --gate ]; then
    exec python3 -B trial --gate
fi
if [ $# -eq 0 ]; then
    set -- edits/*/
    set -- "${@%/}"
    set -- "${@#edits/}"
fi
for crate in "$@"; do
    if [ ! -d "edits/$crate" ] || [ ! -d "crates/$crate/src" ]; then
        tell "there is no crate with edits of the name $crate" >&2
        exit 2
    fi
done
exec python3 -B trial "$@"
