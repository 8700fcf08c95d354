#!/bin/sh
# Tests the package for Node.js over the C library in c/out: it is packed, installed into an empty folder without
# network, and its README, its types and its tests run there; then its tests run under AddressSanitizer. The last line
# counts what ran and what was skipped.
#
#   sh node/check.sh               what is missing is reported and skipped
#   sh node/check.sh --install     what would be skipped is a failure
#
# SDJWT_DIR names another folder with the library, and PACKED a package that is tested instead, such as that of a
# release. ANSWERS is the number of random results of check, by default 1000000.
set -eu
install=no
case ${1-} in
    '') ;;
    --install) install=yes ;;
    *) echo 'usage: sh node/check.sh [--install]' >&2; exit 2 ;;
esac
[ "$install" = no ] || command -v tsc >/dev/null ||
    apt-get install -y --no-install-recommends node-typescript >/dev/null
here=$(cd "$(dirname "$0")" && pwd)
SDJWT_DIR=${SDJWT_DIR:-$here/../c/out}
PACKED=${PACKED:-}
export SDJWT_DIR
made=$(mktemp -d)
trap 'rm -rf "$made"' EXIT
trap 'exit 1' HUP INT TERM
ran=0
skipped=0

skip() {
    [ "$install" = no ] || { echo "check.sh: FAILED: skipped: $1" >&2 && exit 1; }
    echo "skipped: $1"
    skipped=$((skipped + 1))
}
holds() {
    name=$1
    shift
    "$@" >"$made/said" 2>&1 || { cat "$made/said" >&2 && echo "check.sh: FAILED: $name" >&2 && exit 1; }
    last=$(tail -n 1 "$made/said")
    echo "$name${last:+: $last}"
    ran=$((ran + 1))
}
ended() {
    echo "$ran ran, $skipped skipped"
    exit 0
}

for tool in node npm "${CC:=cc}"; do
    command -v "$tool" >/dev/null || { skip "all of it, since there is no $tool" && ended; }
done
if [ -z "$PACKED" ] && ! [ -f "$SDJWT_DIR/lib/libsdjwt.a" ]; then
    echo "check.sh: $SDJWT_DIR has no lib/libsdjwt.a: run sh c/build.sh" >&2
    exit 1
fi

# A copy of what is in the repository, so that nothing is written there.
mkdir -p "$made/top/release" "$made/packed" "$made/app"
cp -R "$here" "$made/top/node"
cp -R "$here/../vectors" "$here/../LICENSE-MIT" "$here/../LICENSE-APACHE" "$made/top/"
cp -R "$here/../release/linked.py" "$here/../release/linked" "$made/top/release/"
packed() { (cd "$made/top/node" && npm pack --offline --silent --pack-destination "$made/packed"); }
if [ -n "$PACKED" ]; then
    cp "$PACKED" "$made/packed/sdjwt-released.tgz"
else
    holds 'npm pack' packed
fi
# By the commands of README.md, in an empty folder, with no compiler on the path and no network.
installed() {
    mkdir "$made/path" && for tool in node npm sh env; do ln -s "$(command -v "$tool")" "$made/path/$tool"; done &&
        name=$(sed -n 's|^npm install \./\(sdjwt-.*\.tgz\)$|\1|p' "$here/README.md") && [ -n "$name" ] &&
        cp "$made"/packed/sdjwt-*.tgz "$made/app/$name" &&
        sed -n '/^npm i/p' "$here/README.md" >"$made/commands" && [ "$(wc -l <"$made/commands")" -eq 2 ] &&
        (cd "$made/app" && PATH=$made/path npm_config_offline=true npm_config_audit=false npm_config_fund=false \
            sh -eu "$made/commands" >/dev/null) &&
        rm "$made/app/$name" && ls "$made/app/node_modules/sdjwt/sdjwt.node" >/dev/null &&
        cd "$made/app/node_modules/sdjwt" && ls LICENSE-MIT LICENSE-APACHE THIRD-PARTY.txt >/dev/null &&
        echo "$(find . -type f | wc -l) files"
}
holds 'npm install in an empty folder, without network and compiler' installed
# The examples of README.md in one program, which prints what their comments say.
sed -n '/^```js$/,/^```$/p' "$here/README.md" | sed '/^```/d' >"$made/app/ticket.mjs"
sed -n 's/^.*console\.log(.*) *\/\/ //p' "$made/app/ticket.mjs" >"$made/due"
[ -s "$made/due" ] || { echo 'check.sh: FAILED: README.md has no examples' >&2 && exit 1; }
readme() { (cd "$made/app" && node ticket.mjs) | diff - "$made/due" && echo "$(wc -l <"$made/due") lines"; }
holds 'the examples of README.md' readme
cp "$here/examples/throughput.mjs" "$made/app/"
throughput() { (cd "$made/app" && node throughput.mjs 1); }
holds throughput throughput
# The tests over the package that was installed. What a test prints stands before the counts.
cp -R "$made/app/node_modules/sdjwt" "$made/top/installed"
cp -R "$here/test" "$made/top/installed/"
tested() {
    (cd "$made/top/installed" && node --test test/ >"$made/tests" 2>&1) || { cat "$made/tests" && return 1; }
    grep -Eo '[0-9]+ (vectors, |random results).*' "$made/tests" &&
        sed -n 's/^[^a-z]*\(pass [0-9]*\)$/\1/p' "$made/tests"
}
holds tests tested
sanitizer=$("$CC" -print-file-name=libasan.so)
if [ -n "$PACKED" ]; then
    :
elif [ -f "$sanitizer" ]; then
    under_sanitizer() {
        (cd "$made/top/node" && CFLAGS='-fsanitize=address -g' node build.js) &&
            cp "$made/top/node/sdjwt.node" "$made/top/installed/" &&
            ANSWERS=2000 LD_PRELOAD=$sanitizer ASAN_OPTIONS=detect_leaks=0:abort_on_error=1 tested
    }
    holds 'tests under AddressSanitizer' under_sanitizer
else
    skip 'AddressSanitizer (the compiler has none)'
fi
if command -v tsc >/dev/null; then
    cp "$here/test/types.ts" "$made/app/types.mts"
    types() { (cd "$made/app" && tsc --noEmit --strict --module nodenext --target es2022 types.mts) && tsc --version; }
    holds 'the types' types
    # a type that is wrong is found
    sed 's/const ticket: string = /const ticket: number = /' "$here/test/types.ts" >"$made/app/types.mts"
    if types >/dev/null; then echo 'check.sh: FAILED: tsc takes a wrong type' >&2 && exit 1; fi
else
    skip 'the types (no tsc)'
fi
ended
