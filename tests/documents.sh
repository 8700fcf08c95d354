#!/bin/sh
# Holds documents and examples to the sources and to the programs: what README.md and examples/ say is run. It proves
# nothing, and stands behind the gate: .ci/run calls it over the programs that rt ci has built.
#
#   sh tests/documents.sh
#   SDJWT=path SDJWT_TOOLS=path sh tests/documents.sh      over other programs, with both by their whole paths
#
# It ends at the first that fails, with its status. A tool that is missing is told and skipped.
set -eu
exec </dev/null
top=$(cd "$(dirname "$0")/.." && pwd)
cd "$top"
SDJWT=${SDJWT:-$top/crates/sdjwt/out/sdjwt}
SDJWT_TOOLS=${SDJWT_TOOLS:-$top/crates/sdjwt_tools/out/sdjwt_tools}
export SDJWT SDJWT_TOOLS
made=$(mktemp -d)
trap 'rm -rf "$made"' EXIT
trap 'exit 1' HUP INT TERM

# the programs by their names, for what takes words
mkdir "$made/bin"
ln -s "$SDJWT" "$made/bin/sdjwt"
ln -s "$SDJWT_TOOLS" "$made/bin/sdjwt_tools"
PATH=$made/bin:$PATH
export PATH

# Runs these words, and shows what they said if they fail.
holds() {
    began=$(date +%s)
    status=0
    "$@" >"$made/said" 2>&1 || status=$?
    if [ "$status" -ne 0 ]; then
        cat "$made/said" >&2
        echo "documents.sh: FAILED with status $status: $*" >&2
        exit "$status"
    fi
    last=$(tail -n 1 "$made/said")
    echo "documents.sh: $*${last:+: $last} ($(($(date +%s) - began)) s)"
}

skip() { echo "documents.sh: skipped: $1"; }

has() { command -v "$1" >/dev/null; }

# The command that proves, from its first line, in a copy of the folder in which nothing is built, with another rt: one
# that finds each library proved, and for the program takes the one that is built. So nothing here gets a record of it.
demo_from_nothing() {
    copy=$made/copy
    mkdir -p "$made/other" "$copy/release"
    cp -R crates.txt examples prove.sh "$copy/"
    cp release/record.py "$copy/release/"
    for crate in crates/*/; do mkdir -p "$copy/$crate/src"; done
    : >"$copy/crates/sdjwt/src/main.rt"
    cat >"$made/other/rt" <<END
#!/bin/sh
case \$1 in
    lib) ;;
    run) cp "$SDJWT" out/sdjwt && out/sdjwt ;;
    version | doc) exit 1 ;;
    *) echo "another word: \$*" >&2; exit 1 ;;
esac
END
    chmod +x "$made/other/rt"
    SDJWT='' PATH=$made/other:$PATH sh "$copy/examples/demo.sh" >"$made/demo" 2>&1 ||
        { cat "$made/demo" && return 1; }
    tail -n 1 "$made/demo" | grep '^The program is ' && cmp "$SDJWT" "$copy/crates/sdjwt/out/sdjwt" &&
        grep -x 'proved: no: there is no kit' "$copy/crates/sdjwt/out/record"
}

# What install.sh copies: all can read it, whatever the mask is, and it copies nothing where it can't copy all.
installs() {
    from=$made/sources
    mkdir -p "$from/crates/sdjwt/out" "$from/crates/sdjwt_tools/out" "$made/prefix"
    cp -R LICENSE-* completions docs install.sh python "$from/"
    cp "$SDJWT" "$from/crates/sdjwt/out/sdjwt"
    cp "$SDJWT" "$from/crates/sdjwt_tools/out/sdjwt_tools"
    for mask in 022 077 000; do
        prefix=$made/prefix/$mask/usr
        (umask "$mask" && sh "$from/install.sh" --prefix "$prefix") || return 1
        other=$(find "$prefix" -type d ! -perm 755 && find "$prefix/bin" -type f ! -perm 755 &&
            find "$prefix/share" -type f ! -perm 644)
        [ -z "$other" ] || { echo "under the mask $mask other modes: $other" && return 1; }
    done
    count=$(find "$prefix" -type f | wc -l)
    for target in bin/sdjwt share/zsh/site-functions/_sdjwt_tools bin/sdjwt-explain.new; do
        prefix=$made/prefix/folder
        mkdir -p "$prefix/$target"
        ! sh "$from/install.sh" --prefix "$prefix" >"$made/answer" 2>&1 || return 1
        grep -x "install.sh: $prefix/$target is a folder, and nothing was copied" "$made/answer" || return 1
        [ -z "$(find "$prefix" -type f)" ] || return 1
        rm -r "$prefix"
    done
    mkdir -p "$prefix" && ln -s nowhere "$prefix/share" && ! sh "$from/install.sh" --prefix "$prefix" || return 1
    [ -z "$(find "$prefix" -type f)" ] && echo "$count files"
}

# Recipes that write keys, or files with keys in them: nobody else can read what they leave, under the usual mask too.
recipes() {
    mkdir "$made/recipes"
    cp examples/walk/order.json "$made/recipes/"
    echo '{"binding": {"nonce": "NONCE"}}' >"$made/recipes/policy.in"
    awk '/^## / { on = $0 == "## Keys and seeds of your own"; next } on && sub(/^[$] /, "")' docs/WALK.md >"$made/walk"
    awk '/^\*\*A nonce/ { on = 1 } /^\*\*Files\./ { on = 0 } on && /^```/ { code = !code; next } on && code' \
        docs/FILES.md >"$made/files"
    awk '/^A key, and a token/ { on = 1 } /^\.Ed/ { on = 0 } on && /^[^.A]/' docs/sdjwt.1 >"$made/manual"
    grep -Eo '\(umask 077; .* > (key\.txt|seed\.bin)\)' docs/FILES.md >"$made/keys"
    for recipe in walk files manual keys; do
        mkdir "$made/left"
        cp "$made"/recipes/* "$made/left/"
        (cd "$made/left" && umask 022 && sh -eu "$made/$recipe") || return 1
        rm "$made/left/order.json" "$made/left/policy.in"
        [ -n "$(ls "$made/left")" ] || { echo "the recipe of $recipe leaves nothing" && return 1; }
        other=$(find "$made/left" -type f ! -perm 600)
        [ -z "$other" ] || { echo "others can read what the recipe of $recipe leaves: $other" && return 1; }
        rm -r "$made/left"
    done
}

# documents and sources
if has python3; then
    holds python3 tools/core.py --check
    holds python3 tools/contracts.py --check
    holds python3 tools/facts.py
    holds python3 tools/links.py
    holds python3 tools/width.py
    holds python3 tools/picture.py
    holds python3 vectors/write.py --check
    holds python3 python/refusals.py --check
    if has rt; then
        holds python3 release/linked.py check "$(dirname "$(rt doc)")"
    else
        skip 'the notices of what is linked, since there is no rt'
    fi
    if [ -f c/out/lib/libsdjwt.a ] && has nm; then
        holds python3 c/header.py c/out/lib/libsdjwt.a c/out/lib/libsdjwt.so
    else
        holds python3 c/header.py
        skip 'what the C library exports, since c/out has none'
    fi
else
    skip 'what python3 compares, since there is none'
fi

# sdjwt
[ -x "$SDJWT" ] || { echo "documents.sh: there is no program $SDJWT: build it with sh examples/demo.sh" >&2 && exit 1; }
holds sh examples/demo.sh
holds demo_from_nothing
holds installs
if has openssl; then holds recipes; else skip 'recipes of keys (no openssl)'; fi
holds sh examples/refusals.sh
if has python3; then
    holds python3 examples/walk.py sdjwt
    # with a clock that stands, for the vectors that name their moment
    if has cc && cc -shared -fPIC -O1 -o "$made/clock.so" tests/still_clock.c 2>"$made/said"; then
        holds python3 vectors/run.py sdjwt --at "env LD_PRELOAD=$made/clock.so MOMENT={moment}"
    else
        holds python3 vectors/run.py sdjwt
        skip 'the vectors that name their moment, since there is no C compiler that builds still_clock.c'
    fi
fi

# sdjwt_tools
if [ -x "$SDJWT_TOOLS" ]; then
    holds sh examples/audit.sh
    holds sh examples/wallet.sh
    ! has python3 || holds python3 tests/feed.py sdjwt_tools
else
    skip "sdjwt_tools, since there is no program $SDJWT_TOOLS"
fi

# the first look, which builds without proofs
if has rt; then
    holds sh examples/look.sh
else
    skip 'the first look, since there is no rt'
fi
echo 'documents.sh: all as it should be'
