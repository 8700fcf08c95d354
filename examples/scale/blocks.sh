#!/bin/sh
# What cores.sh and hosts.sh do: judges the tokens of standard input, one a line, with one feed for each block of lines:
#     sh examples/scale/blocks.sh POLICY BLOCK OPTION .. <tokens >verdicts
# OPTION is one of GNU parallel, which says where the feeds run. The status is 0 only if the input was read to its end
# and each feed judged its whole block.
set -eu
policy=${1:?the policy file}
block=${2:?how long a block is}
shift 2
work=$(mktemp -d)
running=
finish() {
    # shellcheck disable=SC2086 # words
    [ -z "$running" ] || kill $running 2>/dev/null || :
    wait
    rm -rf "$work"
}
trap finish EXIT
trap 'exit 1' HUP INT TERM

# The verdicts without the last line, which is to be `lines` and their number: else the feed failed, and so does this.
# shellcheck disable=SC2016 # words of awk
whole='NR > 1 { print last } { last = $0 } END { if (last !~ /^lines [0-9]+$/) { if (NR) print last; exit 1 } }'
# parallel takes an input that fails for one that ends, so another program reads it.
exec 3<&0
mkfifo "$work/input"
cat <&3 >"$work/input" &
reading=$!
running=$reading
# shellcheck disable=SC2016 # the words of the shell that parallel starts
parallel --pipe --block "$block" --keep-order "$@" --quote \
    sh -c '"$1" feed "$2" 1073741824 | awk "$3"' sh "${SDJWT_TOOLS:-sdjwt_tools}" "$policy" "$whole" <"$work/input" &
judging=$!
running="$reading $judging"
status=0
wait "$judging" || status=$?
running=$reading
[ "$status" -eq 0 ] || exit "$status"
wait "$reading" || status=$?
running=
[ "$status" -eq 0 ] || {
    echo 'blocks.sh: standard input is not read to its end' >&2
    exit "$status"
}
