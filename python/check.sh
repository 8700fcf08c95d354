#!/bin/sh
# Tests the package: builds the library, installs the package into a virtual environment without network, and runs its
# examples and its tests there; then the service of examples/service. The last line counts what ran and what was skipped.
#
#   sh python/check.sh               what is missing is told and skipped
#   sh python/check.sh --install     what is missing is installed from Debian's packages first, for /usr/bin/python3, which
#                                    is then used; what would be skipped is a failure
#
# pytest, mypy and the implementations that it is held against, jwcrypto and joserfc, are those of the
# interpreter: python3, or the one that PYTHON names.
set -eu

install=no
case ${1-} in
    '') ;;
    --install) install=yes ;;
    *) echo 'usage: sh python/check.sh [--install]' >&2; exit 2 ;;
esac
: "${PYTHON:=python3}"
export SDJWT_PEERS='jwcrypto joserfc'
without=
if [ "$install" = yes ]; then
    PYTHON=/usr/bin/python3
    packages='python3-venv python3-pip python3-pytest python3-cryptography python3-jwcrypto mypy chromium'
    if apt-cache show python3-joserfc >/dev/null 2>&1; then
        packages="$packages python3-joserfc"
    else
        SDJWT_PEERS=jwcrypto
        without=', without joserfc, which is no package of this Debian'
    fi
    # shellcheck disable=SC2086 # words
    apt-get install -y $packages
fi
here=$(cd "$(dirname "$0")" && pwd)
made=$(mktemp -d)
trap 'rm -rf "$made"' EXIT
trap 'exit 1' HUP INT TERM

# Counts what ran, and what was skipped with the reason for it. With --install nothing may be.
ran=0
skips=0
skipped=
skip() {
    echo "skipped: $1"
    [ "$install" = no ] || { echo "python/check.sh: with --install nothing may be skipped" >&2; exit 1; }
    skips=$((skips + 1))
    skipped="$skipped${skipped:+; }$1"
}
run() {
    "$@"
    ran=$((ran + 1))
}
has() { "$python" -c "import $1" 2>/dev/null; }

run "$PYTHON" "$here/refusals.py" --check
[ -f "$here/../c/out/lib/libsdjwt.so" ] || sh "$here/../c/build.sh"
"$PYTHON" -m venv --system-site-packages "$made/venv"
python=$made/venv/bin/python
"$python" -m pip install --quiet --no-index --disable-pip-version-check "$here"
cd "$made"
run "$python" -c "import doctest, sdjwt, sys; sys.exit(doctest.testmod(sdjwt).failed > 0)"
sed -n '/^```python$/,/^```$/p' "$here/README.md" | sed '/^```/d' >first_minute.py
run "$python" first_minute.py
if has cryptography; then
    sed -n '/^```py$/,/^```$/p' "$here/README.md" | sed '/^```/d; s,"vectors/,"'"$here"'/../vectors/,' >public_keys.py
    run "$python" public_keys.py
else
    skip 'the example of public keys (no cryptography)'
fi
if has pytest; then
    for peer in $SDJWT_PEERS; do
        has "$peer" || skip "the tests against $peer (no $peer)"
    done
    run "$python" -m pytest -q -p no:cacheprovider "$here/tests"
else
    skip 'the tests (no pytest)'
fi
if has mypy; then
    run "$python" -m mypy --strict "$here/src/sdjwt"
else
    skip 'the types (no mypy)'
fi
run "$python" "$here/../examples/service/check.py" --browser >service
cat service
without_service=$(sed -n 's/^skipped: //p' service)
[ -z "$without_service" ] || skip "$without_service"
case $("$python" -c 'import sdjwt; print(sdjwt.proved)') in
    True) proved= ;;
    False) proved=', of a library that is not proved' ;;
    *) proved=', of a library of which it is not known whether it is proved' ;;
esac
echo "python/check.sh: $ran ran, $skips skipped${skipped:+ ($skipped)}$without$proved"
