#!/bin/sh
# Copies the built programs, their manual pages and their completions below a folder, and says what it did: sdjwt, and
# sdjwt_tools where it is built. Beside them goes sdjwt-explain, which explains their refusals and is a Python program.
#
#   sh install.sh [--prefix DIR] [--dry-run]
#
# The folder is /usr/local where none is given. With --dry-run it only says what it would do. What it says at its end is
# what the shells still need to find all of this.
set -eu

usage() {
    echo 'usage: sh install.sh [--prefix DIR] [--dry-run]' >&2
    exit 2
}

refuse() {
    echo "install.sh: $1" >&2
    exit 1
}

prefix=/usr/local
dry=no
while [ $# -gt 0 ]; do
    case $1 in
        --prefix) [ $# -ge 2 ] || usage; prefix=$2; shift ;;
        --prefix=*) prefix=${1#--prefix=} ;;
        --dry-run) dry=yes ;;
        *) usage ;;
    esac
    shift
done
case $prefix in
    '') usage ;;
    /*) ;;
    *) prefix=$(pwd)/$prefix ;;
esac

cd "$(dirname "$0")"
program=crates/sdjwt/out/sdjwt
[ -x "$program" ] || refuse "the program is not built yet ($program): run 'sh examples/demo.sh' first"

# What is copied: MODE FILE TARGET.
tools=crates/sdjwt_tools/out/sdjwt_tools
put() { "$step" "$@"; }
files() {
    put 755 "$program" bin/sdjwt
    put 644 docs/sdjwt.1 share/man/man1/sdjwt.1
    put 644 completions/sdjwt.bash share/bash-completion/completions/sdjwt
    put 644 completions/_sdjwt share/zsh/site-functions/_sdjwt

    put 755 python/explain.py bin/sdjwt-explain
    put 644 docs/sdjwt-explain.1 share/man/man1/sdjwt-explain.1
    put 644 docs/REFUSALS.md share/sdjwt/REFUSALS.md
    put 644 python/src/sdjwt/_detail.py share/sdjwt/_detail.py
    put 644 python/src/sdjwt/_lines.py share/sdjwt/_lines.py
    for licence in LICENSE-MIT LICENSE-APACHE; do
        [ ! -f "$licence" ] || put 644 "$licence" "share/doc/sdjwt/$licence"
    done

    [ -x "$tools" ] || return 0
    put 755 "$tools" bin/sdjwt_tools
    put 644 docs/sdjwt_tools.1 share/man/man1/sdjwt_tools.1
    put 644 completions/sdjwt_tools.bash share/bash-completion/completions/sdjwt_tools
    put 644 completions/_sdjwt_tools share/zsh/site-functions/_sdjwt_tools
}

# Refuses what can't be copied.
judge() {
    target=$prefix/$3
    [ -f "$2" ] || refuse "there is no file $2"
    for name in "$target" "$target.new"; do
        [ ! -d "$name" ] || refuse "$name is a folder, and nothing was copied"
    done
    folder=$(dirname "$target")
    until [ -e "$folder" ] || [ -h "$folder" ]; do folder=$(dirname "$folder"); done
    [ -d "$folder" ] || refuse "$folder is no folder, and nothing was copied"
    [ -w "$folder" ] || refuse "$folder can't be written, and nothing was copied"
}

copy() {
    target=$prefix/$3
    if [ "$dry" = yes ]; then
        echo "would copy $2 to $target"
        return
    fi
    mkdir -p "$(dirname "$target")" || refuse "cannot make the folder of $target"
    cp "$2" "$target.new" || refuse "cannot write $target"
    chmod "$1" "$target.new"
    mv -f "$target.new" "$target"
    echo "copied $2 to $target"
}

# Folders that are made can be read by all, as the files can, whatever the mask was.
umask 022
for step in judge copy; do files; done
[ -x "$tools" ] || echo "sdjwt_tools is not built yet: run 'sh prove.sh sdjwt_tools' for it, and then this again"

case :${PATH:-}: in
    *:"$prefix/bin":*) ;;
    *) echo "$prefix/bin is not on the path: add it, as by PATH=$prefix/bin:\$PATH" ;;
esac
command -v python3 >/dev/null || echo "sdjwt-explain needs python3, 3.9 or later, and there is none on the path"

# zsh looks for completions in the folders of fpath, to which ~/.zshrc adds what is not there from the start
functions=$prefix/share/zsh/site-functions
if command -v zsh >/dev/null && ! zsh -fc 'print -rl -- $fpath' | grep -qxF -- "$functions" &&
    ! grep -qsF -- "$functions" "${ZDOTDIR:-${HOME:-/}}/.zshrc"; then
    echo "zsh does not look into $functions: for its completions write this line into ~/.zshrc, above the one with compinit:"
    echo "    fpath=('$functions' \$fpath)"
    echo "Where no line there has compinit, write below it: autoload -Uz compinit && compinit"
fi
