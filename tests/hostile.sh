#!/bin/sh
# What the programs do where the system fails or is slow: each request for memory refused in turn, reads and writes
# that move a few bytes, pipes that pause, a full disk, a limit on the size of files, a closed pipe, a file that is none
# or that never ends, standard output closed, and little stack. It stands beside the gate and proves nothing.
#
#     sh tests/hostile.sh PROGRAM [TOOLS]
#
# PROGRAM is sdjwt and TOOLS is sdjwt_tools, as prove.sh makes them. A run in which a request for memory is refused has
# to end with status 5, the line `memory` and nothing on standard output, and the same command run again has to give its
# answer. An audit that runs short of memory at its first look takes a second one, so it may give its answer all the
# same. A run whose reads and writes are cut short has to leave just what it leaves without. Both need a C compiler, and
# a program that is linked with the C library at run time: where nothing could be refused or cut the command is told as
# skipped. A feed without memory is tried by feed.py.
set -eu
[ $# -eq 1 ] || [ $# -eq 2 ] || {
    echo "usage: sh tests/hostile.sh PROGRAM [TOOLS]" >&2
    exit 1
}
here=$(cd "$(dirname "$0")" && pwd)
examples=$here/../examples
made=$(mktemp -d)
trap 'rm -rf "$made"' EXIT
trap 'exit 1' HUP INT TERM

# Puts a program beside the files, under this name.
take() {
    found=$(command -v "$2") || {
        echo "hostile.sh: there is no program $2" >&2
        exit 1
    }
    case $found in /*) ;; *) found=$(pwd)/$found ;; esac
    ln -s "$found" "$made/$1"
}

take sdjwt "$1"
[ $# -eq 1 ] || take sdjwt_tools "$2"
cp -r "$examples"/*.json "$examples"/*.txt "$examples/audit" "$examples/wallet" "$made"
cd "$made"
program=./sdjwt
tools=./sdjwt_tools
wrong=0

tell() {
    echo "hostile.sh: $1" >&2
    wrong=$((wrong + 1))
}

# A run of these words has to end with this status, and with this line on standard error.
ends() {
    status=$1
    line=$2
    shift 2
    came=0
    "$program" "$@" >out 2>err || came=$?
    { [ "$came" = "$status" ] && [ "$(cat err)" = "$line" ]; } || tell "$*: status $came, $(cat err)"
}

# The same, with standard output as the caller has it.
told() {
    status=$1
    line=$2
    shift 2
    came=0
    "$program" "$@" 2>err || came=$?
    { [ "$came" = "$status" ] && [ "$(cat err)" = "$line" ]; } || tell "$*: status $came, $(cat err)"
}

# Whether the file `out` holds the answer, whose key binding token may be of another moment, but of the same length.
is_answer() {
    sed 's/~[^~]*$//' out >shown
    sed 's/~[^~]*$//' answer | cmp -s - shown && [ "$(wc -c <out)" -eq "$(wc -c <answer)" ]
}

# Refuses each request for memory of a run of these words in turn. The first is the program.
refused() {
    "$@" >answer || tell "$*: no answer"
    rm -f requests
    REQUESTS=requests LD_PRELOAD=./refuse.so "$@" >out || :
    is_answer || tell "$*: another answer, with nothing refused"
    requests=0
    [ ! -s requests ] || requests=$(cat requests)
    [ "$requests" -gt 0 ] || {
        echo "skipped: $*, since it makes no request for memory that could be refused"
        return 0
    }
    number=0
    answered=0
    while [ "$number" -lt "$requests" ]; do
        came=0
        REFUSED=$number LD_PRELOAD=./refuse.so "$@" >out 2>err || came=$?
        if [ "$2" = audit ] && [ "$came" = 0 ] && [ ! -s err ] && is_answer; then
            answered=$((answered + 1))
        elif [ "$came" != 5 ] || [ -s out ] || [ "$(cat err)" != memory ]; then
            tell "$*: request $number ends with status $came"
        fi
        number=$((number + 1))
    done
    "$@" >out || :
    is_answer || tell "$*: another answer afterwards"
    [ "$answered" -lt "$requests" ] || tell "$*: no refused request ended it"
    echo "$*: each of $requests requests refused in turn; $answered runs gave their answer all the same"
}

# Cuts short the reads and writes of a run of these words, whose standard input is the file `lines.txt`.
cut_short() {
    status=0
    "$@" <lines.txt >answer 2>line || status=$?
    rm -f cuts
    came=0
    CUT=cuts LD_PRELOAD=./short.so "$@" <lines.txt >out 2>err || came=$?
    { [ "$came" = "$status" ] && is_answer && cmp -s line err; } || tell "$*: it ends otherwise, with status $came"
    reads=0
    writes=0
    [ ! -s cuts ] || read -r reads writes <cuts
    if [ "$reads" -gt 0 ] && [ "$writes" -gt 0 ]; then
        echo "$*: $reads reads and $writes writes cut short"
    else
        echo "skipped: $*, since its reads and writes can't be cut short"
    fi
}

# Hands each command to this function, over a token of nine hidden places, two of them elements of a list, with decoys,
# and over what was presented of it and of the token of RFC 9901.
each_command() {
    "$1" "$program" issue order.json seed.txt
    "$1" "$program" present present.json issued.txt
    "$1" "$program" present present_binding.json issued.txt
    "$program" present present_binding.json issued.txt >bound.txt
    "$1" "$program" verify policy_binding.json bound.txt
    "$1" "$program" verify policy.json rfc9901_chosen.txt
    "$1" "$program" verify policy.json rfc9901_chosen_general.json
    "$1" "$program" show bound.txt
    "$1" "$program" split bound.txt
    for from in compact flat general; do
        "$program" convert $from bound.txt >"bound_$from.txt"
        for form in compact flat general; do
            "$1" "$program" convert $form "bound_$from.txt"
        done
    done
    [ -x "$tools" ] || return 0
    "$1" "$tools" audit audit/order.json audit/honest.txt
    "$1" "$tools" wallet wallet/home_query.json card.txt membership.txt ticket.txt
}

"$program" issue order.json seed.txt >issued.txt
for credential in card membership ticket; do
    "$program" issue "wallet/${credential}_order.json" "wallet/${credential}_seed.txt" >$credential.txt
done
{
    echo a.b.c
    cat rfc9901_chosen.txt
    echo
} >lines.txt
[ -x "$tools" ] || echo "skipped: sdjwt_tools, since no second program is named"

ends 1 'refused 1 tooLong' split /dev/zero
ends 3 'unread 1' split .
ends 3 'unread 2' verify policy.json absent
ends 3 'unread 2' verify policy.json /dev/stdin <.
told 4 unwritten split issued.txt >&-
if [ -w /dev/full ]; then
    told 4 unwritten split issued.txt >/dev/full
fi
{
    sleep 1
    told 4 unwritten split issued.txt
    echo "$wrong" >piped
} | :
sleep 2
wrong=$(cat piped)
echo "files and streams that fail: each with its status and its line"

# Runs a command of the shell that writes the file `shown.txt`, while a file may have one block, of 512 or 1,024 bytes.
# It has to end with this status and this line, and to leave the front of the answer that there is room for.
limited() {
    : >shown.txt
    came=0
    (
        # what this shell says of a signal is not the program's
        exec 2>log
        (ulimit -f 1 && eval "$3" 2>err) || exit
    ) || came=$?
    { [ "$came" = "$1" ] && [ "$(cat err)" = "$2" ]; } || tell "a limit on files: $3: status $came, $(cat err)"
    size=$(wc -c <shown.txt)
    { [ "$size" -gt 0 ] && [ "$size" -lt "$(wc -c <answer)" ] && head -c "$size" answer | cmp -s - shown.txt; } ||
        tell "a limit on files: $3: it leaves $size bytes, and no front of its answer"
}

# The limit comes as the signal SIGXFSZ, which ends a program, unless its shell ignores it, as docs/FILES.md shows.
"$program" present present.json issued.txt >answer
ignoring=$(sed -n "s/^ *\\((trap '' XFSZ; .*)\\)\$/\\1/p" "$here/../docs/FILES.md")
[ -n "$ignoring" ] || tell 'a limit on files: docs/FILES.md has no command that ignores the signal'
PATH=$made:$PATH limited 4 unwritten "$ignoring"
came=0
(exec 2>log && (ulimit -f 1 && exec dd if=/dev/zero of=zero bs=9999 count=1) || exit) || came=$?
if [ "$came" = 153 ]; then
    limited 153 '' 'exec ./sdjwt present present.json issued.txt >shown.txt'
    echo "a limit on the size of files: status 153 and no line, and the line unwritten where the shell ignores the signal"
else
    echo "skipped: a program that SIGXFSZ ends, since whoever called this ignores that signal"
fi

# The bytes of a file, with a pause in the middle.
pausing() {
    dd if="$1" bs=100 count=1 2>dd.err
    sleep 1
    dd if="$1" bs=100 skip=1 2>dd.err
}

mkfifo pipe
"$program" verify policy.json rfc9901_chosen.txt >answer
pausing policy.json >pipe &
came=0
pausing rfc9901_chosen.txt | "$program" verify pipe /dev/stdin >out 2>err || came=$?
kill $! 2>/dev/null || :
{ [ "$came" = 0 ] && cmp -s answer out; } || tell "files from pipes that pause: status $came, $(cat err)"

# A program that is stopped and goes on, while it waits for room in a pipe, has written a part.
awk 'BEGIN {
    printf "{\"key\":\"YW4gZXhhbXBsZSBpc3N1ZXIga2V5LCAzMiBieXRlcy4\",\"payload\":{\"a\":\""
    for (i = 0; i < 78000; i++) printf "0123456789"
    printf "\"}}"
}' >large.json
"$program" issue large.json seed.txt >answer
"$program" issue large.json seed.txt >pipe &
writer=$!
{
    dd bs=1000 count=1 2>dd.err
    sleep 1
    kill -STOP "$writer" || :
    kill -CONT "$writer" || :
    cat
} <pipe >out
came=0
wait "$writer" || came=$?
{ [ "$came" = 0 ] && cmp -s answer out; } || tell "an answer larger than a pipe: status $came, $(wc -c <out) bytes"
echo "pipes that pause: the same answers"

# Builds what is loaded before a program out of this file of C.
built() { command -v cc >/dev/null && cc -shared -fPIC -O1 -o "$1" "$here/$2" -ldl 2>log; }

if built refuse.so refuse_memory.c; then
    each_command refused
    refused "$program" gen 3
else
    echo "skipped: refused memory, since there is no C compiler that builds refuse_memory.c"
fi
if built short.so short_io.c; then
    each_command cut_short
    cut_short "$program" verify policy.json plain_jwt.txt
    [ ! -x "$tools" ] || cut_short "$tools" feed policy.json 1000000000
else
    echo "skipped: short reads and writes, since there is no C compiler that builds short_io.c"
fi

# The texts that take the most stack are those that are read a second time, to tell why they are refused.
deep=$(awk 'BEGIN { for (i = 0; i < 126; i++) printf "{\"a\":"; printf "1.5"; for (i = 0; i < 126; i++) printf "}" }')
printf '%s' "$deep" >deep.txt
# shellcheck disable=SC3045 # asked of the shell that runs it
if ulimit -S -s 1024 2>/dev/null; then
    for command in split show 'verify policy.json' 'present present.json' 'convert general'; do
        # shellcheck disable=SC2086 # words
        ends 1 'refused 2 form at notWhole' $command deep.txt
    done
    echo "the deepest texts: each judged in the stack that c/sdjwt.h promises to be enough"
else
    echo "skipped: little stack, since it can't be limited here"
fi
[ "$wrong" = 0 ] || {
    echo "$wrong runs ended otherwise" >&2
    exit 1
}
