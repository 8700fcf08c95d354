#!/bin/sh
# Writes the files of this folder that are too large to be kept: sh large.sh FOLDER. `sh large.sh text` prints the text
# of a disclosure of eight megabytes.
set -eu

# A text, so many times: twice as long for each digit of the number in base two.
repeated() {
    awk -v text="$1" -v count="$2" '
        BEGIN { ORS = ""; for (; count; count = int(count / 2)) { if (count % 2) print text; text = text text } }'
}

# A list of numbers from 0 on, each between two texts, with commas between.
numbers() {
    awk -v front="$1" -v back="$2" -v count="$3" '
        BEGIN { for (i = 0; i < count; i++) printf "%s%s%d%s", (i ? "," : ""), front, i, back }'
}

# The letters of ["salt of a large text","large","xx..x"]: each eHh4 is xxx.
large_text() {
    printf %s WyJzYWx0IG9mIGEgbGFyZ2UgdGV4dCIsImxhcmdlIiwi
    repeated eHh4 2097058
    printf %s Il0
}

if [ "$1" = text ]; then
    large_text
    exit
fi

signed=$(cd "$(dirname "$0")" && pwd)/75_signed.txt
cd "$1"
repeated a 8388609 >1_tooLong.txt
{
    printf 'a.b.c~'
    repeated a~ 32769
} >3_tooMuch.txt
{
    printf '{"header":{"text":"'
    repeated a 16777134
    printf '"},"payload":"b","protected":"a","signature":"c"}'
} >3_tooMuch_written.json
{
    printf '{ "payload": { "list": ['
    numbers '' '' 32769
    printf '] }, "hide": ['
    numbers '"/list/' '"' 32769
    printf '], "key": "dGhlIHRpY2tldCBvZmZpY2Uga2V5LCBub3QgeW91cnM" }'
} >58_tooManyHidden.json
{
    printf '{ "payload": { "text": "'
    repeated a 7000000
    printf '" }, "key": "dGhlIHRpY2tldCBvZmZpY2Uga2V5LCBub3QgeW91cnM" }'
} >61_issueTooLong.json
{
    tr -d '\n' <"$signed"
    large_text
    echo '~'
} >75_presentTooLong.txt
repeated ' ' 16777217 >tooLong.json
