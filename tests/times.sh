#!/bin/sh
# Whether the time of a verdict tells where a wrong signature differs from the good one: counts the instructions of
# `verify` over tokens that differ in their signature alone. It stands beside the gate and proves nothing.
#
#   sh tests/times.sh PROGRAM [EACH]      PROGRAM is sdjwt, as prove.sh makes it
#
# For HS256, HS384 and HS512 it takes a token, and for each byte of its signature EACH signatures of which that byte
# alone is another one, 7 where nothing is said: so 144 places and 1,008 runs, each of which has to end with
# `refused 10 badSignature`. The runs of one algorithm have to take the same number of instructions, in the program and
# in the C library together, as callgrind of valgrind counts them. A run takes about a second.
#
# How many instructions it takes to see that a text is base64url depends on its letters, which whoever sent it knows:
# on which of them are capitals, small letters, digits, `-` and `_`. So a wrong signature here has at each place a
# letter of the same kind as the good one.
set -eu
refuse() {
    echo "times.sh: $1" >&2
    exit 1
}

[ $# -eq 1 ] || [ $# -eq 2 ] || refuse 'usage: sh tests/times.sh PROGRAM [EACH]'
program=$(command -v "$1") || refuse "there is no program $1"
case $program in /*) ;; *) program=$(pwd)/$program ;; esac
each=${2-7}
for tool in valgrind python3; do
    command -v "$tool" >/dev/null || refuse "there is no $tool on the path"
done
made=$(mktemp -d)
trap 'rm -rf "$made"' EXIT
trap 'exit 1' HUP INT TERM
cd "$made"

# A policy, and the tokens ALG.PLACE.NUMBER.
python3 - "$each" <<'END'
import base64
import hashlib
import hmac
import itertools
import json
import sys


def encoded(octets):
    return base64.urlsafe_b64encode(octets).rstrip(b"=").decode()


def kinds(text):
    return ["A" if each.isupper() else "a" if each.islower() else "0" if each.isdigit() else each for each in text]


def wrong_at(good, place):
    """The signatures that differ in this byte, with letters of the same kinds."""
    others = [good[:place] + bytes([good[place] ^ change]) + good[place + 1:] for change in range(1, 256)]
    return [encoded(other) for other in others if kinds(encoded(other)) == kinds(encoded(good))]


def signatures(alg, hashed, each):
    """A signed text, and for each place its wrong signatures: of a token that has enough of them at each."""
    for number in itertools.count():
        payload = json.dumps({"name": "Ada", "seat": f"{number:06}"}).encode()
        signed = encoded(json.dumps({"alg": alg}).encode()) + "." + encoded(payload)
        good = hmac.new(key, signed.encode(), hashed).digest()
        found = [wrong_at(good, place) for place in range(len(good))]
        if min(map(len, found)) >= each:
            return signed, [texts[:: len(texts) // each][:each] for texts in found]


key = bytes(range(64))
algorithms = {"HS256": hashlib.sha256, "HS384": hashlib.sha384, "HS512": hashlib.sha512}
with open("policy.json", "w") as file:
    json.dump({"keys": {"keys": [{"kty": "oct", "k": encoded(key)}]}, "algs": list(algorithms)}, file)
for alg, hashed in algorithms.items():
    signed, found = signatures(alg, hashed, int(sys.argv[1]))
    for place, texts in enumerate(found):
        for number, text in enumerate(texts):
            with open(f"{alg}.{place:02}.{number}", "w") as file:
                file.write(f"{signed}.{text}~")
END

# The instructions of a run over this token.
instructions() {
    cp "$1" token.txt
    status=0
    valgrind --tool=callgrind --callgrind-out-file=/dev/null "$program" verify policy.json token.txt \
        >out.txt 2>err.txt || status=$?
    [ "$status" -eq 1 ] && grep -q '^refused 10 badSignature$' err.txt || {
        cat err.txt >&2
        refuse "$1 was not refused for its signature"
    }
    sed -n 's/^==[0-9]*== Collected : *//p' err.txt
}

for token in HS*; do
    count=$(instructions "$token")
    echo "$token $count" | tr . ' ' >>counts.txt
done

# Of each algorithm the counts, and the places at which they are others than at the first.
awk '
    {
        counts[$1, $4]++
        runs[$1]++
        if (!($1 in first)) first[$1] = $4
        if ($4 != first[$1]) others[$1] = others[$1] " " $2 ":" $4
    }
    END {
        for (alg in runs) {
            kinds = 0
            for (pair in counts) if (index(pair, alg SUBSEP) == 1) kinds++
            printf "%s: %d signatures, %d counts, the first %d\n", alg, runs[alg], kinds, first[alg]
            if (kinds > 1) {
                print "  other counts, as place:count:" others[alg]
                differ = 1
            }
        }
        exit differ
    }' counts.txt | sort || :
kinds=$(cut -d' ' -f1,4 counts.txt | sort -u | wc -l)
[ "$kinds" -eq 3 ] || refuse 'the count depends on the signature'
echo "times.sh: $(wc -l <counts.txt) signatures: the count does not depend on where they differ"
