#!/bin/sh
# Proves a crate with those below it, saying how far it is, and builds it.
#
#   sh prove.sh sdjwt          the program crates/sdjwt/out/sdjwt
#   sh prove.sh sdjwt_tools    the program crates/sdjwt_tools/out/sdjwt_tools
#   sh prove.sh sdjwt_c        the archive crates/sdjwt_c/out/libsdjwt_c.a, which sh c/build.sh takes
#
# Beside it stands a record of what it was made of, crates/NAME/out/record, for a release. What an earlier run left of
# both is removed first, so that a run that fails leaves neither.
set -eu

refuse() {
    echo "prove.sh: $1" >&2
    exit 1
}

top=$(cd "$(dirname "$0")" && pwd)
crate=${1-}
case $crate in
    sdjwt | sdjwt_tools) makes=out/$crate ;;
    sdjwt_c) makes=out/libsdjwt_c.a ;;
    *) refuse 'usage: sh prove.sh sdjwt, or sdjwt_tools, or sdjwt_c' ;;
esac
command -v rt >/dev/null || refuse 'there is no rt on the path: a Rattle kit has to be installed first'
command -v python3 >/dev/null || refuse 'there is no python3 on the path'
cd "$top/crates/$crate"
mkdir -p out
rm -f "$makes"
record() { python3 -B "$top/release/record.py" "$@"; }
begun=$(record begin "$PWD/out/record") || refuse "the record of an earlier run can't be removed"
log=$PWD/out/prove.log
start=$(date +%s)

# How many processes share the proof of a crate: one for each core, of at most four, and 3 GB of memory for each.
share() {
    jobs=4
    cores=$(getconf _NPROCESSORS_ONLN 2>/dev/null || echo 1)
    memory=$(awk '$1 == "MemAvailable:" { print int($2 / 3000000) }' /proc/meminfo 2>/dev/null || echo 1)
    for most in "$cores" "${memory:-1}"; do
        [ "$jobs" -le "$most" ] || jobs=$most
    done
    [ "$jobs" -ge 1 ] || jobs=1
}

# The crates that this one stands on, as crates.txt has them, lowest first, and itself.
list() {
    awk -F: -v crate="$crate" '
        /^[a-z]/ { split($1, words, " "); name[++count] = words[1]; uses[words[1]] = $2 }
        END {
            wanted[crate] = 1
            for (i = count; i > 0; i--) {
                if (!(name[i] in wanted)) continue
                used = split(uses[name[i]], words, " ")
                for (k = 1; k <= used; k++) wanted[words[k]] = 1
            }
            for (i = 1; i <= count; i++) if (name[i] in wanted) print name[i]
        }' "$top/crates.txt"
}

minutes() { echo $((($(date +%s) - start + 30) / 60)); }

# Proves a library over those below it, by all processes, and makes what the crates above it read. Libraries that are
# proved side by side would often wait for one another, since most of them stand on the one before.
prove() (
    cd "$top/crates/$1" || exit
    rt lib --jobs "$jobs"
) >>"$log" 2>&1

# Proves the crate itself, and builds it. A program is run once, with no words, and then says `usage`.
build() {
    if [ -f src/main.rt ]; then
        rt run --jobs "$jobs" >>"$log" 2>&1 || [ "$(tail -n 1 "$log")" = usage ]
    else
        rt lib --jobs "$jobs" >>"$log" 2>&1
    fi
}

failed() {
    tail -n 20 "$log" >&2
    refuse "$1; all that rt said is in crates/$crate/out/prove.log"
}

share
names=$(list)
all=$(echo "$names" | wc -l)
echo "Proving the $all crates of $crate, one after the other, each by $jobs processes. From nothing this takes up to"
echo "40 minutes on four cores; what was proved on this machine before is not proved again."
: >"$log"
done=0
for name in $names; do
    if [ "$name" = "$crate" ]; then build; else prove "$name"; fi || failed "$name is not proved, or not built"
    done=$((done + 1))
    echo "$done of $all: $name ($(minutes) min)"
done
[ -f "$makes" ] || failed "$crate is not built"
record end "$PWD/out/record" "$begun" proved "crates/$crate/$makes" || refuse "the record of $crate can't be written"
echo "Proved and built in $(minutes) min: crates/$crate/$makes"
