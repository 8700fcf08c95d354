#!/bin/sh
# How many tokens a second: one feed, feeds on 1, 2 and 4 processes by cores.sh, and a run of sdjwt for each token.
#     sh examples/scale/measure.sh [TOKENS] [ROUNDS]
# Each figure is the median of some rounds by the clock. There are at least 1,000 tokens, and at least one round. sdjwt
# and sdjwt_tools are those on the path, or in SDJWT and SDJWT_TOOLS. A run that fails ends this, with its status.
set -eu
tokens=${1:-100000}
rounds=${2:-5}
{ [ "$tokens" -ge 1000 ] && [ "$rounds" -ge 1 ]; } 2>/dev/null || {
    echo "measure.sh: of $tokens tokens and $rounds rounds one is too few, or no number" >&2
    exit 2
}
here=$(cd "$(dirname "$0")" && pwd)
made=$(mktemp -d)
trap 'rm -rf "$made"' EXIT
trap 'exit 1' HUP INT TERM
cp "$here/policy.json" "$made"
export SDJWT_TOOLS="${SDJWT_TOOLS:-sdjwt_tools}" SDJWT="${SDJWT:-sdjwt}" here
python3 "$here/tokens.py" "$tokens" >"$made/tokens"
head -n 1000 "$made/tokens" | split -l 1 -a 4 - "$made/token."
cd "$made"

# The median over the rounds of how many of so many tokens are judged a second.
rate() {
    name=$1
    count=$2
    shift 2
    round=0
    : >rounds
    while [ "$round" -lt "$rounds" ]; do
        start=$(date +%s.%N)
        "$@" >out || failed "$name" $?
        echo "$count $start $(date +%s.%N)" >>rounds
        round=$((round + 1))
    done
    awk '{ print $1 / ($3 - $2) }' rounds | sort -n | awk -v name="$name" '{ r[NR] = $1 }
        END { printf "%s: %.0f tokens a second, from %.0f to %.0f\n", name, r[int((NR + 1) / 2)], r[1], r[NR] }'
}
failed() {
    echo "measure.sh: $1: status $2" >&2
    exit "$2"
}

one() { "$SDJWT_TOOLS" feed policy.json 1073741824 <tokens; }
cores() { sh "$here/cores.sh" policy.json "$1" <tokens; }
each() { for file in token.*; do "$SDJWT" verify policy.json "$file" || return; done; }

rate 'one feed' "$tokens" one
for processes in 1 2 4; do
    rate "$processes processes by cores.sh" "$tokens" cores "$processes"
done
rate 'a run of sdjwt verify for each token' 1000 each
