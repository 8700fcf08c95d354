#!/bin/sh
# Whether c/check.sh tells a step that it skips, and fails by it under --install, over tools that do nothing.
# tests/documents.sh runs it.
#
#   sh c/tests/skips.sh
set -eu
here=$(cd "$(dirname "$0")" && pwd)
made=$(mktemp -d)
trap 'rm -rf "$made"' EXIT
trap 'exit 1' HUP INT TERM

mkdir "$made/c" "$made/python" "$made/bin" "$made/away"
echo 'version = "1"' >"$made/python/pyproject.toml"
cp "$here/../check.sh" "$made/c/"
echo 'exit 0' >"$made/c/build.sh"
for tool in sh env dirname mktemp rm cp chmod sed; do ln -s "$(command -v "$tool")" "$made/bin/$tool"; done
# it makes each file that -o names a program that does nothing
cat >"$made/bin/cc" <<'END'
#!/bin/sh
while [ $# -gt 1 ]; do
    [ "$1" != -o ] || { echo '#!/bin/sh' >"$2" && chmod 755 "$2"; }
    shift
done
END
chmod 755 "$made/bin/cc"
for tool in c++ valgrind python3 openssl pkg-config apt-get; do cp "$made/bin/cc" "$made/bin/$tool"; done

# check WORD ..: a run of c/check.sh, whose status is $status, and whose last line is $last
check() {
    status=0
    PATH=$made/bin sh "$made/c/check.sh" "$@" >"$made/said" 2>&1 || status=$?
    last=$(tail -n 1 "$made/said")
}
failed() {
    cat "$made/said" >&2
    echo "skips.sh: FAILED: $1: status $status" >&2
    exit 1
}
# ends FORM WHAT: whether the last line has this form
ends() {
    # shellcheck disable=SC2254 # a pattern
    case $last in $1) ;; *) failed "$2" ;; esac
}

unset CC CXX
check --install
[ "$status" -eq 0 ] || failed 'with all tools'
ends 'c/check.sh: 16 ran, 0 skipped' 'with all tools'
check --look
ends 'c/check.sh: 16 ran, 0 skipped, of a library that is not proved' 'a library that is not proved'
for tool in c++ valgrind openssl pkg-config; do
    mv "$made/bin/$tool" "$made/away/"
    check
    [ "$status" -eq 0 ] || failed "without $tool"
    ends "c/check.sh: 1[245] ran, [12] skipped (* (no $tool)*)" "without $tool"
    check --install
    [ "$status" -ne 0 ] || failed "without $tool, under --install"
    ends 'c/check.sh: with --install nothing may be skipped' "without $tool, under --install"
    mv "$made/away/$tool" "$made/bin/"
done
echo 'skips.sh: each step that is skipped is told, and fails under --install'
