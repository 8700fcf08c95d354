#!/bin/sh
# Reads lines of a key, a tab and a token, and writes lines of the key, a tab and the verdict. It is for what hands
# lines to a program and does not keep their order, as Hadoop Streaming and the `pipe` of Spark do.
#     sh keyed.sh POLICY <keyed tokens >keyed verdicts
# The token is all that comes after the first tab, so a JSON token may have tabs in it; a line without a tab has an
# empty token, which is refused. The feed answers each line by one line, in order, so that keys and verdicts can be put
# side by side again. The lines are kept in a folder of TMPDIR, which is removed also if a signal ends this. If the
# input is not read to its end, or the feed fails, nothing is written and the status is not 0.
set -eu
refuse() {
    echo "keyed.sh: $1" >&2
    exit 1
}

policy=${1:?the policy file}
work=$(mktemp -d)
running=
finish() {
    [ -z "$running" ] || kill "$running" 2>/dev/null || :
    wait
    rm -rf "$work"
}
trap finish EXIT
trap 'exit 1' HUP INT TERM

# The status of what was started last. Each step is in the background, since a signal then ends the wait for it.
ended() {
    running=$!
    came=0
    wait "$running" || came=$?
    running=
    return "$came"
}

tab=$(printf '\t')
exec 3<&0
# a line without a tab gets one at its end
LC_ALL=C sed "/$tab/!s/\$/$tab/" <&3 >"$work/in" &
ended || refuse 'standard input is not read to its end, or not kept'
cut -f 1 "$work/in" >"$work/keys" || refuse 'the keys are not kept'
cut -f 2- "$work/in" | "${SDJWT_TOOLS:-sdjwt_tools}" feed "$policy" 1073741824 >"$work/out" &
ended
[ "$(tail -n 1 "$work/out")" = "lines $(($(wc -l <"$work/keys")))" ] || refuse 'the feed did not judge each line'
sed '$d' "$work/out" | paste "$work/keys" - &
ended
