#!/bin/sh
# Issues an identity card, a membership and a ticket, and asks the wallet that has them three queries.
#
# The programs are $SDJWT and $SDJWT_TOOLS, or crates/sdjwt/out/sdjwt and crates/sdjwt_tools/out/sdjwt_tools, which
# prove.sh builds.
set -eu
top=$(cd "$(dirname "$0")/.." && pwd)
sdjwt=${SDJWT:-$top/crates/sdjwt/out/sdjwt}
tools=${SDJWT_TOOLS:-$top/crates/sdjwt_tools/out/sdjwt_tools}
made=$(mktemp -d)
trap 'rm -rf "$made"' EXIT
cd "$top/examples/wallet"

for credential in card membership ticket; do
    "$sdjwt" issue "${credential}_order.json" "${credential}_seed.txt" >"$made/$credential.txt"
done

# What each query finds: the credential, and how many disclosures it sends.
wrong=0
asked() {
    answer=$("$tools" wallet "$1" "$made/card.txt" "$made/membership.txt" "$made/ticket.txt" 2>&1) || :
    token=$(printf '%s\n' "$answer" | sed -n 2p)
    tildes=$(printf %s "$token" | tr -cd '~' | wc -c)
    found="$(printf '%s\n' "$answer" | sed -n 1p)${token:+, $((tildes - 1)) disclosures}"
    printf '%-20s %s\n' "$1" "$found"
    [ "$found" = "$2" ] || { wrong=$((wrong + 1)) && printf '%-20s %s\n' '  wanted' "$2"; }
}

# the ticket has the name in the open
asked name_query.json 'credential 2, 0 disclosures'
# only the membership has a level, and it is gold
asked member_query.json 'credential 1, 2 disclosures'
# only the card has an address, whose street stays hidden
asked home_query.json 'credential 0, 1 disclosures'
[ "$wrong" -eq 0 ]
