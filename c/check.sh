#!/bin/sh
# Tests the C library: builds it, and runs c/tests/calls.c over the vectors of vectors/, on one thread and on eight, under
# AddressSanitizer with UndefinedBehaviorSanitizer, and under valgrind; then with each request for memory refused in turn;
# then all calls beside a second reading, at random; then the programs of c/examples that check signatures by OpenSSL,
# over the presentation of RFC 9901, and make them. The last line counts what ran and what was skipped.
#
#   sh c/check.sh               a tool that is missing is told and skipped
#   sh c/check.sh --install     what is missing is installed from Debian's packages first, and what would be skipped is a
#                               failure
#   sh c/check.sh --look        tests the library that c/build.sh --look builds, without proofs; also with --install
set -eu

install=no
look=
proved=
is_proved=1
for word; do
    case $word in
        --install) install=yes ;;
        --look)
            look=--look
            is_proved=0
            proved=', of a library that is not proved'
            ;;
        *) echo 'usage: sh c/check.sh [--look] [--install]' >&2; exit 2 ;;
    esac
done
[ "$install" = no ] || apt-get install -y gcc g++ binutils valgrind pkg-config python3 libssl-dev openssl
here=$(cd "$(dirname "$0")" && pwd)
# shellcheck disable=SC2086 # no word, or one
sh "$here/build.sh" $look
lib=$here/out/lib
: "${CC:=cc}" "${CXX:=c++}"
made=$(mktemp -d)
trap 'rm -rf "$made"' EXIT
trap 'exit 1' HUP INT TERM
strict='-std=c11 -Wall -Wextra -Wpedantic -Werror -g -O1 -pthread'
version=$(sed -n 's/^version = "\(.*\)"$/\1/p' "$here/../python/pyproject.toml")
due="-DVERSION=\"$version\" -DPROVED=$is_proved"

# Counts what ran, and what was skipped with the reason for it. With --install nothing may be.
ran=0
skips=0
skipped=
skip() {
    echo "skipped: $1"
    [ "$install" = no ] || { echo 'c/check.sh: with --install nothing may be skipped' >&2; exit 1; }
    skips=$((skips + 1))
    skipped="$skipped${skipped:+; }$1"
}
run() {
    "$@"
    ran=$((ran + 1))
}
has() { command -v "$1" >/dev/null; }

python3 "$here/tests/vectors.py" "$made/vectors"
printf '#include "sdjwt.h"\nextern sdjwt_policy handle;\nsdjwt_policy handle = SDJWT_POLICY_INIT;\n' >"$made/alone.c"
for standard in c99 c11 c17; do
    run "$CC" -std=$standard -Wall -Wextra -Wpedantic -Werror -I"$here/out/include" -c -o "$made/alone.o" "$made/alone.c"
done
cp "$made/alone.c" "$made/alone.cpp"
if has "$CXX"; then
    run "$CXX" -std=c++11 -Wall -Wextra -Wpedantic -Wmissing-field-initializers -Wzero-as-null-pointer-constant \
        -Werror -I"$here/out/include" -c -o "$made/alone.o" "$made/alone.cpp"
else
    skip "the header in C++ (no $CXX)"
fi

# shellcheck disable=SC2086 # words
compile() {
    output=$1
    shift
    "$CC" $strict $due -I"$here/out/include" "$here/tests/calls.c" "$@" -o "$made/$output"
}

compile sanitized -fsanitize=address,undefined -fno-sanitize-recover=all "$lib/libsdjwt.a"
echo 'Under AddressSanitizer and UndefinedBehaviorSanitizer:'
run env ASAN_OPTIONS=detect_leaks=1 "$made/sanitized" "$made/vectors" 8

compile shared -L"$lib" -lsdjwt -Wl,-rpath,"$lib"
echo 'With the shared library, on threads with the stack that the header tells:'
run "$made/shared" "$made/vectors" 8 small

compile plain "$lib/libsdjwt.a"
if has valgrind; then
    echo 'Under valgrind:'
    run valgrind --quiet --leak-check=full --show-leak-kinds=all --errors-for-leak-kinds=all --error-exitcode=9 \
        "$made/plain" "$made/vectors" 0
else
    skip 'the calls under valgrind (no valgrind)'
fi

# shellcheck disable=SC2086 # words
"$CC" $strict -I"$here/out/include" "$here/tests/memory.c" "$lib/libsdjwt.a" \
    -Wl,--wrap=malloc,--wrap=realloc,--wrap=free -o "$made/memory"
echo 'With each request for memory refused in turn:'
run "$made/memory" "$here/../examples/walk"

echo 'All calls beside a second reading, at random:'
run python3 "$here/../tests/library.py" "$lib/libsdjwt.so" --count 200

# The programs over OpenSSL that docs/C.md names: one verifies, and the other issues and presents.
if echo '#include <openssl/evp.h>' | "$CC" -E - >/dev/null 2>&1; then
    # shellcheck disable=SC2086 # words
    for how in '-fsanitize=address,undefined -fno-sanitize-recover=all' ''; do
        for name in public signed; do
            "$CC" $strict $how -I"$here/out/include" "$here/examples/$name.c" "$lib/libsdjwt.a" -lcrypto -o "$made/$name"
        done
        run python3 "$here/tests/letters.py" ${how:+--step 101} "$made/public" "$here/../vectors/rfc9901"
        if has openssl; then
            run python3 "$here/tests/issued.py" "$made/signed"
            run python3 "$here/tests/presented.py" "$made/signed" "$lib/libsdjwt.so"
        else
            skip 'tokens that are signed by OpenSSL (no openssl)'
        fi
    done
else
    skip 'signatures by OpenSSL (no libssl-dev)'
fi

if has pkg-config; then
    # shellcheck disable=SC2046,SC2086 # words
    "$CC" -std=c11 -pthread $due "$here/tests/calls.c" \
        $(PKG_CONFIG_PATH=$lib/pkgconfig pkg-config --cflags --libs sdjwt) -o "$made/by_pkg_config"
    run env LD_LIBRARY_PATH="$lib" "$made/by_pkg_config" "$made/vectors" 1
else
    skip 'the flags of pkg-config (no pkg-config)'
fi
echo "c/check.sh: $ran ran, $skips skipped${skipped:+ ($skipped)}$proved"
