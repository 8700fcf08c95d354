#!/bin/sh
# Runs each case of refusals/cases.txt and compares the status and the line, and compares docs/REFUSALS.md with the
# cases and with the names in the code. The last line counts; the status is 1 where anything differs.
#
# The program is $SDJWT, or the one that `sh examples/demo.sh` builds.
set -u
cd "$(dirname "$0")" || exit 1
top=$(cd .. && pwd)
sdjwt=${SDJWT:-$top/crates/sdjwt/out/sdjwt}
case $sdjwt in
/*) ;;
*/*) sdjwt=$OLDPWD/$sdjwt ;;
*) sdjwt=$(command -v "$sdjwt" || echo "$sdjwt") ;;
esac
if [ ! -x "$sdjwt" ]; then
    echo "refusals.sh: there is no program $sdjwt." >&2
    echo "Build it with sh examples/demo.sh, or name one that is built: SDJWT=path sh examples/refusals.sh" >&2
    exit 1
fi
work=$(mktemp -d)
trap 'rm -rf "$work"' EXIT
files=$work/files
cp -R refusals "$files" && sh refusals/large.sh "$files" || exit 1

# The status, and the line on standard error, of words; `wrote` where a refusal wrote an answer.
found() {
    (cd "$files" && eval "\"\$sdjwt\" $1" 2>"$work/line" >"$work/answer")
    status=$?
    line=$(cat "$work/line")
    [ "$status" -eq 0 ] || [ ! -s "$work/answer" ] || line="$line, and wrote an answer"
    echo "$status${line:+ $line}"
}

count=0
wrong=0
while IFS= read -r row; do
    case $row in '' | '#'*) continue ;; esac
    words=${row%% = *}
    wanted=${row#* = }
    answer=$(found "$words")
    count=$((count + 1))
    if [ "$answer" != "$wanted" ]; then
        wrong=$((wrong + 1))
        printf 'sdjwt %s\n  gives  %s\n  wanted %s\n' "$words" "$answer" "$wanted"
    fi
done <refusals/cases.txt

# One line for each name that is said somewhere: the number, or the status where there is none, and the name.
in_cases() {
    sed -n 's/^[^#].* = [1-6] //p' refusals/cases.txt | sed -n '
        s/^refused \([0-9]* [A-Za-z]*\).*/\1/p
        s/^unreadable [12] /6 /p
        s/^unread .*/3 unread/p
        s/^usage$/2 usage/p
        s/^unwritten$/4 unwritten/p'
    # what no file gives, or another program, or a library
    printf '%s\n' '60 digestClash' '5 memory' '77 noCredentialAnswers' '80 orderRefused' '81 signedPartDiffers' \
        '82 writtenFormDiffers' '83 payloadDiffers' '84 digestsDiffer' '85 decoysDiffer' '86 sdOrderDiffers' '87 feedTooLong' \
        '6 wrong equal' '6 missing algs' '8 notAsked'
}

on_page() {
    # shellcheck disable=SC2016 # the marks of a text
    sed -n '
        s/^### refused \([0-9]* [A-Za-z]*\) <a id="[0-9]*"><\/a>$/\1/p
        s/^### unreadable \([a-zA-Z_ ]*\)$/6 \1/p
        s/^| `\([a-zA-Z_ ]*\)` |.*|.*|.*|$/6 \1/p
        s/^### usage$/2 usage/p
        s/^### unread$/3 unread/p
        s/^### unwritten$/4 unwritten/p
        s/^### memory$/5 memory/p
        s/^### notAsked$/8 notAsked/p' ../docs/REFUSALS.md
}

# The numbers and the names of a table that gives both to each constructor.
numbered() {
    sed -n 's/^[a-z_]* [A-Za-z.]* = (\([0-9]*\), codes "\([A-Za-z]*\)")$/\1 \2/p' "$@"
}

# The printed words of the members that lines name.
words_of() {
    tr -c 'A-Za-z:' '\n' | sed -n 's/^Field::\([A-Z][A-Za-z]*\)$/\1/p' | sort -u |
        while read -r field; do
            sed -n "s/^field_word Field.$field = codes \"\(.*\)\"\$/\1/p" "$top/crates/file_members/specs/FileWords.antt"
        done
}

# The code that reads policies, orders, present orders and queries. The programs read no present order without keys, but
# the libraries do.
readers() {
    cat "$top/crates/verifier_core/src/policy.rt" "$top/crates/issuer_core/src/order_file.rt" \
        "$top/crates/wallet_core/src/query_file.rt" "$top/crates/holder_core/src/present_file.rt"
}

in_code() {
    specs=$top/crates
    numbered "$specs/refusals/specs/Condition.antt" "$specs/refusals/specs/Refusal.antt"
    sed -n 's/^reason [A-Za-z]* = codes "\([A-Za-z]*\)"$/6 \1/p; s/^short_seed .*unreadable 2 \([a-z]*\).*/6 \1/p' \
        "$specs/cli_parts/specs/Lines.antt"
    sed -n 's/^unasked_line = line (codes "\([A-Za-z]*\)")$/8 \1/p' "$specs/sdjwt_c/specs/Judging.antt"
    # the payload of an order may be any value
    readers | sed -n '/^const FIELDS/,/];/p' | words_of | sed '/^payload$/d; s/^/6 wrong /'
    readers | sed -n '/key[a-z_]*_member(/p; /Missing(Field/p' | words_of | sed 's/^/6 missing /'
    printf '%s\n' '2 usage' '3 unread' '4 unwritten' '5 memory'
}

for it in in_cases on_page in_code; do
    $it | sort -u >"$work/$it"
done
compare() {
    comm -3 "$work/on_page" "$work/$1" >"$work/names"
    sed -e "s/^[^	].*/&: on the page, and not $2/" -e "s/^	\(.*\)/\1: $2, and not on the page/" "$work/names"
    wrong=$((wrong + $(wc -l <"$work/names")))
}
compare in_cases "among the cases"
compare in_code "in the code"

echo "$count cases, $(wc -l <"$work/in_code") names, $wrong differ"
[ "$wrong" -eq 0 ]
