#!/bin/sh
# Writes the tokens of this folder from tokens.txt. It needs openssl. Run it after a change of tokens.txt; refusals.sh
# only reads what it wrote.
set -eu
cd "$(dirname "$0")"

code() { openssl base64 -A | tr '+/' '-_' | tr -d '='; }

digest() { printf %s "$1" | openssl dgst -sha256 -binary | code; }

key() {
    case $1 in
    office) printf %s "the ticket office key, not yours" ;;
    ada) printf %s "the key in Ada's phone, not ours" ;;
    stranger) printf %s "the key of somebody quite unknown" ;;
    *) echo "make.sh: no key of the name $1" >&2 && exit 1 ;;
    esac
}

# A signed header and payload: the header, the payload, the signer.
signed() {
    hex=$(key "$3" | od -An -v -tx1 | tr -d ' \n')
    head=$(printf %s "$1" | code)
    body=$(printf %s "$2" | code)
    signature=$(printf %s "$head.$body" | openssl dgst -sha256 -mac HMAC -macopt "hexkey:$hex" -binary | code)
    printf %s "$head.$body.$signature"
}

begin() {
    file=$1 header='{"alg":"HS256","kid":"tickets-1"}' payload='' disclosures='' count=0 signer=office fill=''
    binding='' binding_header='{"alg":"HS256","typ":"kb+jwt"}' binding_signer=ada
}

add() {
    disclosures=$disclosures$1~
    fill="$fill;s/<$count>/$(digest "$1")/g"
    count=$((count + 1))
}

fill_payload() {
    case $1 in
    *'<large>'*) text=$(sh large.sh text) && fill="$fill;s/<large>/$(digest "$text")/" ;;
    esac
    payload=$(printf %s "$1" | sed "$fill")
}

finish() {
    [ -n "$file" ] || return 0
    text=$(signed "$header" "$payload" "$signer")~$disclosures
    if [ -n "$binding" ]; then
        binding=$(printf %s "$binding" | sed "s/<hash>/$(digest "$text")/")
        text=$text$(signed "$binding_header" "$binding" "$binding_signer")
    fi
    printf '%s\n' "$text" >"$file"
    echo "$file"
    file=''
}

file=''
while read -r word rest; do
    case $word in
    '' | '#'*) ;;
    token) finish && begin "$rest" ;;
    header) header=$rest ;;
    disclosure) add "$(printf %s "$rest" | sed "$fill" | code)" ;;
    payload) fill_payload "$rest" ;;
    signer) signer=$rest ;;
    binding_header) binding_header=$rest ;;
    binding) binding=$rest ;;
    binding_signer) binding_signer=$rest ;;
    *) echo "make.sh: no line begins with $word" >&2 && exit 1 ;;
    esac
done <tokens.txt
finish
