#!/bin/sh
# Builds the plain program of bench/plain by cargo, over the crates of a Debian system and without the network.
#
#   sh bench/build.sh          the last line is the folder of the programs: plain, soft/plain, floor and runner
#
# soft/plain hashes without the SHA instructions of the processor. The folder is $PLAIN_OUT, or bench/out. It needs
# cargo, a C compiler and
#     apt-get install librust-base64-dev librust-hmac-dev librust-indexmap-dev librust-rand-chacha-dev \
#         librust-serde-json-dev librust-sha2-dev
# DEBIAN_CRATES is where Debian puts these, if not /usr/share/cargo/registry. Status 3 says that a tool is missing.
set -eu
here=$(cd "$(dirname "$0")" && pwd)
out=${PLAIN_OUT:-$here/out}
crates=${DEBIAN_CRATES:-/usr/share/cargo/registry}
lacks() {
    echo "build.sh: skipped: $1" >&2
    exit 3
}
command -v cargo >/dev/null || lacks 'there is no cargo on the path'
command -v "${CC:-cc}" >/dev/null || lacks 'there is no C compiler'
for crate in base64 hmac indexmap rand_chacha serde serde_json sha2; do
    ls -d "$crates/$crate-"[0-9]* >/dev/null 2>&1 || lacks "there is no crate $crate in $crates"
done
mkdir -p "$out/soft"
printf '[source.crates-io]\nreplace-with = "debian"\n[source.debian]\ndirectory = "%s"\n' "$crates" >"$out/cargo.toml"
${CC:-cc} -O2 -static -o "$out/runner" "$here/runner.c" 2>/dev/null || ${CC:-cc} -O2 -o "$out/runner" "$here/runner.c"
build() {
    target=$out/target$1
    shift
    cargo --config "$out/cargo.toml" build --quiet --release --offline --manifest-path "$here/plain/Cargo.toml" \
        --target-dir "$target" "$@" >&2
}
build ''
build -soft --features soft --bin plain
cp "$out/target/release/plain" "$out/target/release/floor" "$out/"
cp "$out/target-soft/release/plain" "$out/soft/"
echo "$out"
