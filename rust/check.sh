#!/bin/sh
# Tests the crate for Rust over the C library in c/out: its examples and tests, the first minute of README.md, clippy,
# and the tests under valgrind. The last line counts what ran and what was skipped.
#
#   sh rust/check.sh               what is missing is reported and skipped
#   sh rust/check.sh --install     what is missing is installed from Debian's packages first, and what would be skipped
#                                  is a failure
#
# The crates that only tests use are those of Debian, in /usr/share/cargo/registry. SDJWT_DIR names another folder with
# the library, CRATE another folder with the crate, and CARGO_TARGET_DIR a folder to build in, which is kept.
set -eu
install=no
case ${1-} in
    '') ;;
    --install) install=yes ;;
    *) echo 'usage: sh rust/check.sh [--install]' >&2; exit 2 ;;
esac
if [ "$install" = yes ]; then
    apt-get install -y cargo librust-serde-json-dev librust-serde-derive-dev librust-openssl-dev libssl-dev pkg-config \
        valgrind >/dev/null
fi
here=$(cd "$(dirname "$0")" && pwd)
SDJWT_DIR=${SDJWT_DIR:-$here/../c/out}
CRATE=${CRATE:-$here}
export SDJWT_DIR
made=$(mktemp -d)
trap 'rm -rf "$made"' EXIT
trap 'exit 1' HUP INT TERM
ran=0
skipped=0

skip() {
    [ "$install" = no ] || { echo "check.sh: FAILED: skipped: $1" >&2 && exit 1; }
    echo "skipped: $1"
    skipped=$((skipped + 1))
}
holds() {
    name=$1
    shift
    "$@" >"$made/said" 2>&1 || { cat "$made/said" >&2 && echo "check.sh: FAILED: $name" >&2 && exit 1; }
    last=$(tail -n 1 "$made/said")
    echo "$name${last:+: $last}"
    ran=$((ran + 1))
}
ended() {
    echo "$ran ran, $skipped skipped"
    exit 0
}

command -v cargo >/dev/null || { skip 'all of it, since there is no cargo' && ended; }
[ -f "$SDJWT_DIR/lib/libsdjwt.a" ] ||
    { echo "check.sh: $SDJWT_DIR has no lib/libsdjwt.a: run sh c/build.sh" >&2 && exit 1; }

# A copy, in which Cargo finds Debian's crates and writes nothing into the repository.
cp -R "$CRATE" "$made/rust"
cp -R "$here/../vectors" "$made/vectors"
mkdir "$made/.cargo"
cat >"$made/.cargo/config.toml" <<END
[source.crates-io]
replace-with = "debian"
[source.debian]
directory = "/usr/share/cargo/registry"
[net]
offline = true
END
cd "$made/rust"
CARGO_TARGET_DIR=${CARGO_TARGET_DIR:-$made/target}
export CARGO_TARGET_DIR

# Cargo looks for the crates of features and tests even if it builds neither.
if ! { [ -d /usr/share/cargo/registry ] && cargo fetch >/dev/null 2>&1; }; then
    skip 'the tests, since Debian'"'"'s crates serde_json and openssl are not there'
    ended
fi

# Prints the counts of all tests in one line, or what they said if one failed.
tested() {
    cargo test --quiet --features serde "$@" >"$made/tests" 2>&1 || { cat "$made/tests" && return 1; }
    grep -E '^[0-9]+ (vectors|random)' "$made/tests" || :
    sed -n 's/^test result: ok\. \([0-9]*\) passed; 0 failed; 0 ignored.*/\1/p' "$made/tests" >"$made/counts"
    awk '{ all += $1 } END { print all " passed"; exit !all }' "$made/counts"
}
first_minute() {
    mkdir "$made/first" "$made/first/src" &&
        folder=$(sed -n 's|^sdjwt = { path = "../\(.*\)" }$|\1|p' README.md) && [ -n "$folder" ] &&
        cp -R "$made/rust" "$made/$folder" &&
        printf '[package]\nname = "ticket"\nversion = "0.1.0"\nedition = "2021"\n\n' >"$made/first/Cargo.toml" &&
        sed -n '/^```toml$/,/^```$/p' README.md | sed '/^```/d' >>"$made/first/Cargo.toml" &&
        sed -n '/^```rust$/,/^```$/p' README.md | sed '1d; /^```/,$d' >"$made/first/src/main.rs" &&
        due=$(sed -n 's|^.*println!.* // ||p' "$made/first/src/main.rs") && [ -n "$due" ] &&
        said=$(cd "$made/first" && cargo run --quiet) && echo "$said" && [ "$said" = "$due" ]
}
documented() { RUSTDOCFLAGS='-D warnings' cargo doc --quiet --no-deps --features serde; }
measured() { cargo run --quiet --example throughput 1; }

holds 'the crate without its features' cargo build --quiet --lib
holds 'the first minute of README.md' first_minute
holds 'tests' tested --tests -- --nocapture
holds 'the examples of README.md and of the documentation' tested --doc
holds 'the documentation' documented
holds 'throughput' measured
if cargo clippy --version >/dev/null 2>&1; then
    holds clippy cargo clippy --quiet --all-targets --features serde -- -D warnings
else
    skip 'clippy (none)'
fi
if command -v valgrind >/dev/null; then
    for name in shared key_pairs wrong_hands random_answers; do
        test=$(cargo test --quiet --no-run --features serde --message-format=json --test "$name" |
            sed -n 's/.*"executable":"\([^"]*\)".*/\1/p' | tail -n 1)
        holds "valgrind: $name" valgrind --quiet --error-exitcode=9 --leak-check=full --show-leak-kinds=definite \
            --errors-for-leak-kinds=definite --main-stacksize=8388608 \
            "$test" --skip each_letter --skip a_million --skip too_long --skip of_no_form --skip any_length \
            --test-threads 2
    done
else
    skip 'valgrind (none)'
fi
ended
