#!/bin/sh
# The same over a file that is cut into N parts at line ends, with the tools of every system; the verdicts of part i go
# to OUT.i:
#     sh examples/scale/parts.sh POLICY TOKENS N OUT
# TOKENS is a file and no pipe, since each part is cut out of it anew. If a part could not be read whole, its OUT.i is
# removed and the status is not 0. If a feed fails, the status is not 0, and the last line of its OUT.i is not `lines`.
set -eu
refuse() {
    echo "parts.sh: $1" >&2
    exit 1
}

policy=${1:?the policy file}
tokens=${2:?the file of tokens}
n=${3:?how many parts}
out=${4:?the front of the names of the answers}
[ $# -eq 4 ] || refuse "there are $# arguments, and not 4"
case $n in 0* | *[!0-9]*) refuse "the number of parts is $n, and has to be a whole number from 1" ;; esac
[ -e "$tokens" ] || refuse "there is no file $tokens"
{ [ -f "$tokens" ] && [ -r "$tokens" ]; } || refuse "$tokens is no file that can be read"

work=$(mktemp -d)
feeds=
finish() {
    # shellcheck disable=SC2086 # words
    [ -z "$feeds" ] || kill $feeds 2>/dev/null || :
    wait
    rm -rf "$work"
}
trap finish EXIT
trap 'exit 1' HUP INT TERM

# Where TOKENS is /dev/stdin, a part would find /dev/null there, since it runs in the background.
exec 3<&0
i=1
while [ "$i" -le "$n" ]; do
    { split -n "l/$i/$n" "$tokens" <&3 || : >"$work/$i"; } |
        "${SDJWT_TOOLS:-sdjwt_tools}" feed "$policy" 1073741824 >"$out.$i" &
    feeds="$feeds $!"
    i=$((i + 1))
done
status=0
i=1
# shellcheck disable=SC2086 # words
set -- $feeds
for feed; do
    came=0
    wait "$feed" || came=$?
    shift
    feeds=$*
    if [ "$came" -ne 0 ]; then
        status=$came
    elif [ -e "$work/$i" ]; then
        # a feed that ended before its part did is no fault of the file
        rm -f "$out.$i"
        echo "parts.sh: part $i of $tokens could not be read whole" >&2
        status=1
    fi
    i=$((i + 1))
done
[ "$status" -eq 0 ] || exit "$status"
