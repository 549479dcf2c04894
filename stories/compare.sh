#!/usr/bin/env bash
# Plays all moves in storyhost and in glulxe and compares what they show. The moves of a file
# NAME-differs.moves meet rules of storyhost's own (docs/STORIES.md), and are to be shown otherwise.
# Wants, on Debian:
#     apt-get update; apt-get install -y --no-install-recommends glulxe
# Options go to compare.py: --host PROGRAM, --glulxe PROGRAM. The status is 0 where all is so.
set -eu
cd "$(dirname "$0")"
bad=0
for moves in *.moves; do
    story=${moves%.moves}
    story=${story%%-*}.ulx
    echo "$moves"
    if [ ! -e "$story" ]; then
        echo "no $story: stories/make.sh makes it"
        continue
    fi
    wanted=0
    but=()
    case $moves in
        *-differs.moves) wanted=1 ;;
        two_rooms.moves) but=(--but 'Rolled[0-9]') ;; # random words are the interpreter's own
    esac
    status=0
    python3 compare.py "$story" "$moves" "${but[@]}" "$@" > compared.tmp || status=$?
    if [ $status = $wanted ]; then
        tail -1 compared.tmp
    else
        cat compared.tmp
        bad=1
    fi
done
rm -f compared.tmp
exit $bad
