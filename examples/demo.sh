#!/bin/sh
# Proves and builds `sdjwt` by prove.sh, and runs it on the files of this folder, showing each command before its
# output. SDJWT=path runs a program that is built already; sh examples/look.sh gives a first look without proofs.
set -eu
case ${SDJWT:-} in
'' | /*) ;;
*/*) SDJWT=$(pwd)/$SDJWT ;;
*) SDJWT=$(command -v "$SDJWT" || echo "$SDJWT") ;;
esac
cd "$(dirname "$0")"
top=$(cd .. && pwd)
made=$(mktemp -d)
trap 'rm -rf "$made"' EXIT
trap 'exit 1' HUP INT TERM

sdjwt=${SDJWT:-$top/crates/sdjwt/out/sdjwt}
if [ -n "${SDJWT:-}" ]; then
    [ -x "$sdjwt" ] || { echo "demo.sh: SDJWT names no program: $SDJWT" >&2 && exit 1; }
else
    sh "$top/prove.sh" sdjwt
    echo
fi

show() {
    echo "\$ sdjwt $*"
    status=0
    "$sdjwt" "$@" || status=$?
    [ "$status" -eq 0 ] || echo "(status $status)"
    echo
}

# The same, with the answer in a file.
keep() {
    file=$1
    shift
    echo "\$ sdjwt $* > $file"
    "$sdjwt" "$@" >"$file"
    echo
}

cp ./*.json ./*.txt "$made"
cd "$made"

show split rfc9901.txt
show split rfc9901_chosen.txt
show split plain_jwt.txt
show show rfc9901_chosen.txt
show split absent.txt
show verify rfc9901.txt policy.json
show verify policy.json rfc9901.txt
show verify policy_birthdate.json rfc9901_chosen.txt
show verify policy.json rfc9901_chosen.txt

# With key binding: a token with the holder's, which is older than the policy allows, and one without.
show verify policy.json rfc9901_bound.txt
show verify policy_binding.json rfc9901_bound.txt
show verify policy_binding.json rfc9901_chosen.txt

# A token of one's own: issued, shown, and verified with all of its disclosures.
show issue seed.txt order.json
show issue order.json seed.txt
keep issued.txt issue order.json seed.txt
show show issued.txt
show verify policy.json issued.txt

# Another, with SHA-512 for its digests and its signature, which a verifier has to allow.
keep issued_hs512.txt issue order_hs512.json seed.txt
show show issued_hs512.txt
show verify policy_hs512.json issued_hs512.txt
show verify policy.json issued_hs512.txt

# What its holder shows of it: what was asked for, once without and once with key binding, but never the date of birth.
show present present.json issued.txt
keep shown.txt present present_binding.json issued.txt
show split shown.txt
show verify policy_binding.json shown.txt
show present present_birthdate.json issued.txt
show present present.json shown.txt

# The token of RFC 9901 in its JSON serializations, which each command reads, and back. A key binding token is good in
# each of them.
show convert flat rfc9901_bound.txt
show split rfc9901_bound_flat.json
show convert compact rfc9901_bound_flat.json
show convert general rfc9901_chosen.txt
show verify policy.json rfc9901_chosen_general.json
keep shown_flat.json convert flat shown.txt
show verify policy_binding.json shown_flat.json
show convert xml rfc9901.txt

# All three ends at work in one run, with no file: how much there is of a token with 30 members.
show gen 30
echo "The program is $sdjwt. Its files here are those of examples/."
