#!/bin/sh
# Fuzzes the calls of the C library by libFuzzer, one after the other, under AddressSanitizer.
#
#   sh c/fuzz/run.sh [--install] [--keep] SECONDS [CALL ..]
#
# So many seconds each of verify, judge, present, issue, ask, sign, step, sent, show, split, convert, audit, wallet,
# policy, nonce and part, or of the calls that are named. It builds the library without proofs, with the counters by
# which libFuzzer sees which code an input reaches; so it finds faults of the code and of what it stands on, and
# proves nothing. It begins with the inputs of corpus.py, and what is found is kept in c/out/fuzz/CALL, where the next
# run goes on; with --keep those inputs that reach other code than these, the smallest that do, go into
# c/fuzz/found.tar.xz. An input that fails is left beside this corpus, and the status is not 0.
#
# A call fails if it takes more than a second of the processor, or more than 64 MiB of memory at one time: fuzz.c
# measures both. An input fails after twenty seconds by the clock, which a busy machine may need, and the whole process,
# which keeps all inputs and what was freed, at 2 GB. It needs a Rattle kit, python3, and clang with its libFuzzer.
set -eu
refuse() {
    echo "run.sh: $1" >&2
    exit 1
}

keep=no
while :; do
    case ${1-} in
        --install) apt-get install -y clang binutils python3 ;;
        --keep) keep=yes ;;
        *) break ;;
    esac
    shift
done
[ $# -ge 1 ] || refuse 'usage: sh c/fuzz/run.sh [--install] [--keep] SECONDS [CALL ..]'
seconds=$1
shift
[ $# -gt 0 ] || set -- verify judge present issue ask sign step sent show split convert audit wallet policy nonce part
for tool in rt "${CLANG:=clang}" nm objcopy python3; do
    command -v "$tool" >/dev/null || refuse "there is no $tool on the path"
done
here=$(cd "$(dirname "$0")" && pwd)
kept=$here/../out/fuzz
kit=$(dirname "$(rt doc)")
while [ ! -f "$kit/c/liblibc_c.a" ]; do
    [ "$kit" != / ] || refuse 'the kit has no c/liblibc_c.a'
    kit=$(dirname "$kit")
done
made=$(mktemp -d)
trap 'rm -rf "$made"' EXIT
trap 'exit 1' HUP INT TERM

# A kit whose clang counts what is reached: look.sh compiles by it.
mkdir -p "$made/kit/toolchain/bin" "$kept"
cat >"$made/kit/toolchain/bin/clang" <<END
#!/bin/sh
exec "$kit/toolchain/bin/clang" "\$@" -fsanitize-coverage=inline-8bit-counters,pc-table,trace-cmp
END
chmod +x "$made/kit/toolchain/bin/clang"
sh "$here/../look.sh" "$made/kit" "$made/sdjwt.o"
objcopy --wildcard --keep-global-symbol='sdjwt_*' "$made/sdjwt.o"
"$CLANG" -std=c11 -g -O1 -Wall -Wextra -fsanitize=fuzzer,address -I"$here/.." "$here/fuzz.c" "$made/sdjwt.o" \
    "$kit/c/liblibc_c.a" -o "$made/fuzz"

python3 "$here/corpus.py" "$made/corpus"
# whether a call that takes too much is told
: >"$made/nothing"
for call in slow large; do
    if SDJWT_FUZZ=$call "$made/fuzz" "$made/nothing" >"$made/said" 2>&1 ||
        ! grep -q '^fuzz.c: a call takes more' "$made/said"; then
        refuse "a call that takes too much is not told: $call"
    fi
done
for call; do
    mkdir -p "$kept/$call"
    echo "run.sh: $call, $seconds seconds"
    SDJWT_FUZZ=$call "$made/fuzz" -max_total_time="$seconds" -max_len=16384 -timeout=20 -rss_limit_mb=2048 \
        -artifact_prefix="$kept/$call-" -print_final_stats=1 -verbosity=1 "$kept/$call" "$made/corpus/$call" \
        >"$made/said" 2>&1 || { tail -n 40 "$made/said" >&2 && refuse "$call fails; the input is in c/out/fuzz"; }
    grep -E 'number_of_executed_units|peak_rss_mb|slowest_unit_time_sec' "$made/said"
    [ "$keep" = yes ] || continue
    mkdir -p "$made/small/$call"
    SDJWT_FUZZ=$call "$made/fuzz" -merge=1 -use_counters=0 -max_len=16384 "$made/small/$call" "$made/corpus/$call" \
        "$kept/$call" >"$made/said" 2>&1 || { tail -n 40 "$made/said" >&2 && refuse "the inputs of $call are not made small"; }
done
[ "$keep" = no ] || python3 "$here/corpus.py" --keep "$made/small"
echo "run.sh: nothing failed"
