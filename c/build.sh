#!/bin/sh
# Builds sdjwt for C into the folder out/ beside this file: lib/libsdjwt.a, lib/libsdjwt.so, lib/pkgconfig/sdjwt.pc,
# include/sdjwt.h, and a record of what they were made of and whether they are proved. What an earlier run left there is
# removed first. The crate crates/sdjwt_c is proved, with what it stands on, where that was not done before: from
# nothing this takes up to 40 minutes on four free cores.
#
#   sh c/build.sh                  builds
#   sh c/build.sh --prefix DIR     builds, and copies it below DIR
#   sh c/build.sh --look           builds without proofs, in a minute or two, for a first look
#
# It needs a Rattle kit, whose rt is on the path, and a C compiler with binutils. CC and CFLAGS are taken as they are.
set -eu
# All can read what is copied, whatever the mask is.
umask 022

refuse() {
    echo "build.sh: $1" >&2
    exit 1
}

prefix=
proved=yes
while [ $# -gt 0 ]; do
    case $1 in
        --look) proved=no ;;
        --prefix) [ -n "${2-}" ] || refuse 'usage: sh c/build.sh [--look] [--prefix DIR]'; prefix=$2; shift ;;
        *) refuse 'usage: sh c/build.sh [--look] [--prefix DIR]' ;;
    esac
    shift
done
for tool in rt "${CC:=cc}" ld ar nm objcopy python3; do
    command -v "$tool" >/dev/null || refuse "there is no $tool on the path"
done

here=$(cd "$(dirname "$0")" && pwd)
top=$(cd "$here/.." && pwd)
abi=1
version=$(sed -n 's/^version = "\(.*\)"$/\1/p' "$top/python/pyproject.toml")
[ -n "$version" ] || refuse 'python/pyproject.toml says no version'
record() { python3 -B "$top/release/record.py" "$@"; }

# The kit's archive has the calls of malloc, realloc and free.
kit=$(dirname "$(rt doc)")
while [ ! -f "$kit/c/liblibc_c.a" ]; do
    [ "$kit" != / ] || refuse 'the kit has no c/liblibc_c.a'
    kit=$(dirname "$kit")
done

made=$(mktemp -d)
trap 'rm -rf "$made"' EXIT
trap 'exit 1' HUP INT TERM
mkdir -p "$made/lib/pkgconfig" "$made/include"
rm -rf "$here/out"
begun=$(record begin "$here/out/record")
if [ "$proved" = yes ]; then
    how=proved
    is_proved=1
    sh "$top/prove.sh" sdjwt_c
    functions=$top/crates/sdjwt_c/out/libsdjwt_c.a
    said=$(record value "$top/crates/sdjwt_c/out/record" proved)
    [ "$said" = yes ] || refuse "by its record the crate sdjwt_c is not proved: $said"
else
    how='not proved'
    is_proved=0
    echo 'Not proved: this builds the library without proofs, in a minute or two. sh c/build.sh proves.'
    functions=$made/look.o
    sh "$here/look.sh" "$kit" "$functions"
fi

# One object, of which others see the functions of the header alone. Those of built.c are not of the crate.
ld -r -o "$made/crate.o" --whole-archive "$functions" --no-whole-archive "$kit/c/liblibc_c.a"
objcopy --redefine-sym sdjwt_policy_free=policy_free "$made/crate.o"
"$CC" -std=c99 -O2 -fPIC -fno-ident -I"$here" -DBUILT_VERSION="\"$version\"" -DBUILT_PROVED=$is_proved \
    -c -o "$made/built.o" "$here/built.c"
ld -r -o "$made/sdjwt.o" "$made/crate.o" "$made/built.o"
objcopy --wildcard --keep-global-symbol='sdjwt_*' "$made/sdjwt.o"
ar rcsD "$made/lib/libsdjwt.a" "$made/sdjwt.o"
# shellcheck disable=SC2086 # CFLAGS are words
"$CC" ${CFLAGS--O2} -shared -o "$made/lib/libsdjwt.so.$abi" "$made/sdjwt.o" \
    -Wl,-soname,libsdjwt.so.$abi -Wl,-z,defs -Wl,-z,relro -Wl,-z,now -Wl,-z,noexecstack
ln -s libsdjwt.so.$abi "$made/lib/libsdjwt.so"
cp "$here/sdjwt.h" "$made/include/"
cat >"$made/lib/pkgconfig/sdjwt.pc" <<END
prefix=\${pcfiledir}/../..
libdir=\${prefix}/lib
includedir=\${prefix}/include

Name: sdjwt
Description: SD-JWT (RFC 9901), $how: issue, present and verify
Version: $version
Libs: -L\${libdir} -lsdjwt
Cflags: -I\${includedir}
END
python3 "$here/header.py" "$made/lib/libsdjwt.a" "$made/lib/libsdjwt.so.$abi"

cp -R "$made/lib" "$made/include" "$here/out/"
record end "$here/out/record" "$begun" "$how" c/out/include/sdjwt.h c/out/lib/libsdjwt.a \
    "c/out/lib/libsdjwt.so.$abi" c/out/lib/pkgconfig/sdjwt.pc
if [ -n "$prefix" ]; then
    mkdir -p "$prefix"
    cp -R "$made/lib" "$made/include" "$prefix/"
    echo "build.sh: copied below $prefix"
fi
[ "$proved" = yes ] || how='NOT proved, for a first look'
echo "build.sh: c/out has lib/libsdjwt.a, lib/libsdjwt.so, lib/pkgconfig/sdjwt.pc and include/sdjwt.h: $how"
