#!/bin/sh
# Tests what build.sh takes of what was built, and what it refuses, and the records that tell it (release/record.py), in
# a clone and in temporary folders. Nothing is proved, and nothing that it makes is a release.
#
#   sh release/refuses.sh
#
# It needs a Rattle kit, git, binutils, dpkg, Python, and a C library in c/out, also one of c/build.sh --look. The last
# line counts what ran.
set -eu

here=$(cd "$(dirname "$0")" && pwd)
top=$(cd "$here/.." && pwd)
version=$(sed -n 's/^version = "\(.*\)"$/\1/p' "$top/python/pyproject.toml")
[ -f "$top/c/out/lib/libsdjwt.a" ] || { echo 'refuses.sh: there is no library in c/out' >&2 && exit 1; }
made=$(mktemp -d)
trap 'rm -rf "$made"' EXIT
trap 'exit 1' HUP INT TERM

# Runs words under a name, and shows what they said if they fail, and else the last line. In a function that is run so,
# sh goes on behind a command that fails, so these are joined by &&.
ran=0
holds() {
    name=$1
    shift
    if ! "$@" >"$made/said" 2>&1; then
        cat "$made/said" >&2
        echo "release/refuses.sh: FAILED: $name" >&2
        exit 1
    fi
    ran=$((ran + 1))
    last=$(tail -n 1 "$made/said")
    echo "$name${last:+: $last}"
}

# The recipe of CONTRIBUTING.md, in a clone, with another rt: one that finds all proved, and in the place of what it
# would build puts other programs, and the library at hand, under the mark of the kit's logic. So all counts as proved
# there, and nothing is. The library has two functions that c/build.sh adds, and adds again.
clone=$made/clone
git clone -q "$top" "$clone"
marked() {
    objcopy --remove-section .comment "$1" "$made/unmarked" &&
        objcopy --add-section .comment="$made/mark" --add-symbol sdjwt::main=0,local "$made/unmarked" "$2" &&
        chmod 755 "$2"
}
counts_as_proved() {
    kit=$(dirname "$(rt doc)") && mkdir "$made/rt" "$made/built" &&
        printf 'rattle logic=%s\0a test marked it so, and nobody proved it' \
            "$(grep -a '^logic ' "$kit/rlibs/core.rlib/format" | cut -d ' ' -f 2)" >"$made/mark" &&
        marked "$(command -v env)" "$made/built/sdjwt" && marked "$(command -v cat)" "$made/built/sdjwt_tools" &&
        objcopy --localize-symbol=sdjwt_version --localize-symbol=sdjwt_is_proved "$top/c/out/lib/libsdjwt.a" \
            "$made/library.a" && marked "$made/library.a" "$made/built/libsdjwt_c.a" || return 1
    cat >"$made/rt/rt" <<END
#!/bin/sh
# FAILS is a command and a crate that fails. CHANGES is a command that is run with each crate.
crate=\$(basename "\$(pwd)")
case \$1 in lib | run) \${CHANGES-} ;; esac
[ "\$1 \$crate" != "\${FAILS-}" ] || exit 1
case "\$1 \$crate" in
    'run sdjwt' | 'run sdjwt_tools') cp "$made/built/\$crate" out/ ;;
    'lib sdjwt_c') cp "$made/built/libsdjwt_c.a" out/ ;;
    lib*) ;;
    ci*)
        for name in sdjwt sdjwt_tools; do mkdir -p crates/\$name/out && cp "$made/built/\$name" crates/\$name/out/; done
        echo '12 passed, 0 failed' ;;
    *) exec "$(command -v rt)" "\$@" ;;
esac
END
    chmod 755 "$made/rt/rt" &&
        git -C "$clone" config user.name test && git -C "$clone" config user.email test &&
        echo "exit \"\${DOCUMENTS:-0}\"" >"$clone/tests/documents.sh" &&
        git -C "$clone" commit -qam 'A test: the documents are not looked at'
}
# Runs a script of the clone with that rt, and with the variables before it.
by_other() { (cd "$clone" && PATH=$made/rt:$PATH env "$@"); }
# Its lines: the gate, what is built, and what makes the release, with the record of the gate.
awk '/^## A release$/ { on = 1 } on && /^ *```/ { code = !code; next } on && code { sub(/^ */, ""); print }' \
    "$top/CONTRIBUTING.md" >"$made/recipe"
gate=$clone/$(sed -n '3s/^sh release\/check\.sh --gate \([^ ]*\) .*/\1/p' "$made/recipe")
recipe() {
    [ "$(wc -l <"$made/recipe")" -eq 3 ] && said=$(by_other sh -eu -c "$(sed -n 1p "$made/recipe")") || return 1
    [ "$(echo "$said" | tail -n 1)" = '12 passed, 0 failed' ] || return 1
    by_other sh -eu -c "$(sed -n 2p "$made/recipe")" && [ -f "$gate" ] || return 1
    for file in .ci crates/sdjwt crates/sdjwt_tools crates/sdjwt_c c; do
        grep -x 'proved: yes' "$clone/$file/out/record" && grep -x 'clean: yes' "$clone/$file/out/record" || return 1
    done
}
holds 'in a clone what is not proved counts as proved' counts_as_proved
holds 'the recipe of a release, there' recipe

# A release, for which everything agrees.
proved=$made/proved
taken() {
    sh "$clone/release/build.sh" "$version" --gate "$gate" --out "$proved" &&
        grep -x 'not proved: nothing' "$proved/PROVENANCE" &&
        grep -x 'gate (rt ci): 12 passed, 0 failed' "$proved/PROVENANCE" &&
        grep -x "commit: $(git -C "$clone" rev-parse HEAD)" "$proved/PROVENANCE" &&
        grep -Ex 'kit, whole .*: logic [0-9a-f]{64}, files [0-9a-f]{64}' "$proved/PROVENANCE"
}
holds 'takes what records vouch for' taken
# What the Python package says of its library: in the wheel, in the Debian package, and where the library is exchanged.
says_proved() {
    (cd "$1" && PYTHONPATH=. python3 -B -c 'import sdjwt; print(sdjwt.proved)')
}
python_says() {
    rm -rf "$made/wheel" "$made/packages" && mkdir "$made/packages" &&
        python3 -m zipfile -e "$1"/*.whl "$made/wheel" &&
        dpkg-deb -x "$1"/python3-sdjwt_*.deb "$made/packages" && dpkg-deb -x "$1"/libsdjwt1_*.deb "$made/packages" &&
        debian=$made/packages/usr/lib/python3/dist-packages &&
        [ "$(says_proved "$made/wheel") $(says_proved "$debian")" = "$2 $2" ] &&
        echo >>"$made/wheel/sdjwt/libsdjwt.so" && echo >>"$(readlink -f "$debian/sdjwt/libsdjwt.so")" &&
        [ "$(says_proved "$made/wheel") $(says_proved "$debian")" = 'None None' ] && echo "$2, and None of another"
}
holds 'of a proved library Python says so' python_says "$proved" True

# What build.sh refuses, without a word of a release.
refuses() {
    wanted=$1
    shift
    if sh "$clone/release/build.sh" "$@" --out "$made/none" >"$made/answer" 2>&1; then
        echo "it was not refused: $*"
        return 1
    fi
    grep -qF -- "$wanted" "$made/answer" || { cat "$made/answer" && return 1; }
    [ ! -e "$made/none" ]
}
holds 'refuses another version' refuses 'it is of another version' 9.9.9 --look
echo >>"$clone/README.md"
holds 'refuses files that differ from the commit' refuses 'files differ from the commit' "$version" --look
git -C "$clone" checkout -q README.md
for file in crates/sdjwt/out/sdjwt crates/sdjwt_tools/out/sdjwt_tools c/out/lib/libsdjwt.a c/out/lib/libsdjwt.so.1 \
    c/out/lib/pkgconfig/sdjwt.pc c/out/include/sdjwt.h; do
    mv "$clone/$file" "$made/away"
    holds "refuses where $file is missing" refuses "there is no" "$version" --look
    mv "$made/away" "$clone/$file"
done

# What is refused of a release of that clone, with a file that a command changes for this time.
faulty() {
    wanted=$1 file=$clone/$2
    shift 2
    cp -p "$file" "$made/kept" && "$@" "$file" || return 1
    status=0
    refuses "$wanted" "$version" --gate "$gate" || status=1
    rm -rf "$file" && cp -p "$made/kept" "$file" && return "$status"
}
with_a_byte_more() { printf x >>"$1"; }
foreign() { cp "$(command -v sort)" "$1"; }
marked_foreign() { marked "$(command -v sort)" "$1"; }
of_another() { cp "$made/built/sdjwt_tools" "$1"; }
emptied() { rm "$1" && ar rcsD "$1"; }
truncated() { : >"$1"; }
cut_short() { head -n -1 "$made/kept" >"$1"; }
cut_in_a_line() { head -c -9 "$made/kept" >"$1"; }
twice() { cat "$made/kept" "$made/kept" >"$1"; }
by_hand() { sed 's/^commit: .*/commit: 0/' "$made/kept" >"$1"; }
a_folder() { rm "$1" && mkdir "$1"; }
gone() { rm "$1"; }
of_the_tools() { cp "$clone/crates/sdjwt_tools/out/record" "$1"; }
for how in with_a_byte_more foreign marked_foreign of_another truncated; do
    holds "refuses a program: $how" faulty 'crates/sdjwt/out/sdjwt is another file' crates/sdjwt/out/sdjwt "$how"
done
holds 'refuses another sdjwt_tools' faulty 'sdjwt_tools is another file' crates/sdjwt_tools/out/sdjwt_tools foreign
holds 'refuses another library' faulty 'libsdjwt.so.1 is another file' c/out/lib/libsdjwt.so.1 with_a_byte_more
holds 'refuses an empty archive' faulty 'libsdjwt.a is another file' c/out/lib/libsdjwt.a emptied
holds 'refuses a false header' faulty 'sdjwt.h is another file' c/out/include/sdjwt.h with_a_byte_more
holds 'refuses another sdjwt.pc' faulty 'sdjwt.pc is another file' c/out/lib/pkgconfig/sdjwt.pc with_a_byte_more
for how in cut_short cut_in_a_line twice by_hand truncated with_a_byte_more foreign; do
    for named in crates/sdjwt/out/record c/out/record; do
        case $how in foreign) due='it cannot be read' ;; *) due='it is not whole' ;; esac
        holds "refuses $named: $how" faulty "$named: $due" "$named" "$how"
    done
done
for named in crates/sdjwt/out/record crates/sdjwt_tools/out/record c/out/record; do
    holds "refuses where there is no $named" faulty "$named: there is none" "$named" gone
    holds "refuses where $named is a folder" faulty "$named: there is none" "$named" a_folder
done
holds 'refuses the record of another program' faulty 'its SHA-256 is' crates/sdjwt/out/record of_the_tools

# Records of a gate: of another commit, of something else, of what did not pass.
gate_record() {
    python3 -B - "$clone/release" "$gate" "$made/gate" "$@" <<'END'
import sys
from pathlib import Path
sys.path.insert(0, sys.argv[1])
import record
said = record.read(sys.argv[2])
said.update(word.split("=", 1) for word in sys.argv[4:])
record.write(Path(sys.argv[3]), said)
END
}
with_gate() {
    wanted=$1
    shift
    gate_record "$@" && refuses "$wanted" "$version" --gate "$made/gate"
}
zeros=0000000000000000000000000000000000000000
holds 'refuses a gate of another commit' with_gate "it is of commit $zeros, and not of" "commit=$zeros"
holds 'refuses a gate over changed sources' with_gate 'c/sdjwt.h differs' 'clean=no: c/sdjwt.h differs from the commit'
holds 'refuses a gate by another kit' with_gate "is of the kit 'another'" 'kit=another'
holds 'refuses a gate by a kit with other files' with_gate 'is of a kit with the logic' 'kit sum=0'
for last in '1 passed, 1 failed' '0 passed, 0 failed' '12 passed, 0 failed and more' 'none' \
    '12 passed, 0 failed (sdjwt and the crates below alone: not the gate)'; do
    holds "refuses a gate whose last line is '$last'" with_gate "but '$last'" "gate=$last"
done
printf 'all of it\n12 passed, 0 failed\n' >"$made/gate"
holds 'refuses what a gate only said' refuses 'it is not whole' "$version" --gate "$made/gate"
holds 'refuses the record of a program as that of a gate' refuses "but 'none'" "$version" --gate \
    "$clone/crates/sdjwt/out/record"
holds 'refuses a gate that is not there' refuses 'there is no file' "$version" --gate "$made/no such file"

# What is stale, and how the records say it.
old=$(git -C "$clone" rev-parse HEAD)
git -C "$clone" commit -q --allow-empty -m 'A test: nothing was built of this'
holds 'refuses what was built of another commit' refuses "it is of commit $old, and not of" "$version"
git -C "$clone" reset -q --hard "$old"
# How the sources stand, with a change, which is undone.
stand() {
    wanted=$1
    shift
    (cd "$clone" && "$@") && said=$(cd "$clone" && python3 -B release/record.py begin out/record) || return 1
    git -C "$clone" update-index -q --no-assume-unchanged crates.txt
    git -C "$clone" checkout -q . && git -C "$clone" clean -qfdx -e out -- crates c && echo "${said#* * }" || return 1
    [ "${said#* "$old" }" = "$wanted" ]
}
overlooked() { git update-index --assume-unchanged crates.txt && echo '# more' >>crates.txt; }
ignored() { echo '*.rt' >>.git/info/exclude && : >crates/sdjwt/src/more.rt; }
holds 'sources that are those of the commit' stand yes true
holds 'a document that differs' stand yes sh -c 'echo >>README.md'
holds 'a source that differs' stand 'no: crates/sdjwt/src/main.rt differs from the commit' \
    sh -c 'echo >>crates/sdjwt/src/main.rt'
holds 'a source that is gone' stand 'no: c/sdjwt.h differs from the commit' rm c/sdjwt.h
holds 'a source of another mode' stand 'no: c/sdjwt.h differs from the commit' chmod 755 c/sdjwt.h
holds 'crates.txt that differs, which git was told to overlook' stand 'no: crates.txt differs from the commit' \
    overlooked
holds 'HANDLES that differs' stand 'no: HANDLES differs from the commit' sh -c 'echo >HANDLES'
holds 'a source that is not in the commit' stand 'no: crates/sdjwt/src/new.rt is not in the commit' \
    sh -c ': >crates/sdjwt/src/new.rt'
holds 'a source of C that is not in the commit' stand 'no: c/new.h is not in the commit' sh -c ': >c/new.h'
holds 'a source that git ignores' stand 'no: crates/sdjwt/src/more.rt is not in the commit' ignored
: >"$clone/.git/info/exclude"

# A build during which a source is written, or another commit is checked out, and what a run that fails leaves.
while_built() {
    by_other CHANGES="$2" sh prove.sh sdjwt && refuses "$1" "$version" || return 1
    git -C "$clone" reset -q --hard "$old" && sed -n 's/^clean: //p' "$clone/crates/sdjwt/out/record"
}
holds 'a source that is written while it is proved' while_built 'sdjwt/src/main.rt was written while it was built' \
    "touch $clone/crates/sdjwt/src/main.rt"
holds 'another commit while it is proved' while_built "the commit was $old when it was begun" \
    'git commit -q --allow-empty -m meanwhile'
leaves_nothing() {
    fails=$1
    shift
    # what an earlier run left
    mkdir -p "$clone/.ci/out" "$clone/c/out"
    for file in .ci/out/record crates/sdjwt/out/sdjwt crates/sdjwt/out/record c/out/record; do : >"$clone/$file"; done
    if by_other FAILS="$fails" "$@"; then return 1; fi
    case $* in
        *.ci/run) [ ! -e "$clone/.ci/out/record" ] ;;
        *prove.sh*) [ ! -e "$clone/crates/sdjwt/out/sdjwt" ] && [ ! -e "$clone/crates/sdjwt/out/record" ] ;;
        *c/build.sh*) [ ! -e "$clone/c/out/record" ] && [ ! -e "$clone/c/out/lib" ] ;;
    esac
}
holds 'a program that is not proved leaves no record' leaves_nothing 'run sdjwt' sh prove.sh sdjwt
holds 'nor does one over a library that is not' leaves_nothing 'lib disclosure' sh prove.sh sdjwt
holds 'nor a C library that is not proved' leaves_nothing 'lib sdjwt_c' sh c/build.sh
holds 'nor one that does not compile' leaves_nothing 'try sdjwt_c' sh c/build.sh --look
holds 'nor a gate that does not pass' leaves_nothing 'ci clone' sh .ci/run
holds 'nor one whose documents are wrong' leaves_nothing none DOCUMENTS=3 sh .ci/run

# What is linked, and has no notice or another.
sources=$made/sources
lacks() {
    wanted=$1
    shift
    rm -rf "$sources" && mkdir -p "$sources/release" && cp "$top/crates.txt" "$sources/" || return 1
    cp -R "$here/linked" "$here/linked.py" "$sources/release/" || return 1
    cp "$made/built/libsdjwt_c.a" "$sources/library.a" && (cd "$sources" && "$@") || return 1
    if (cd "$sources" && python3 -B release/linked.py check "$kit" library.a) >"$made/answer" 2>&1; then return 1; fi
    grep -xF -- "$wanted" "$made/answer"
}
holds 'what is linked has its notice' python3 -B "$here/linked.py" check "$kit" "$made/built/libsdjwt_c.a"
holds 'a part without notice' lacks 'there is no notice of memchr, which may be linked' \
    sed -i 's/"crates": \["core", "memchr"\]/"crates": ["core"]/' release/linked/parts.json
holds 'a crate of the kit that is named anew' lacks 'there is no notice of hex, which may be linked' \
    sed -i 's/^sd_outside:/& hex/' crates.txt
holds 'a notice of what is not linked' lacks 'there is a notice of memchr, which is not linked' \
    sed -i 's/ memchr//' crates.txt
holds 'code without notice' lacks 'library.a has code of hyper, of which there is no notice' \
    objcopy --add-symbol hyper::http1::read=0,local library.a
holds 'a file without names' lacks 'library.a has no symbols that say what is linked' strip --strip-unneeded library.a
holds 'a file that is no library' lacks 'library.a has no symbols that say what is linked' cp crates.txt library.a
holds 'a crate that the kit does not have' lacks "$kit has no crate no_such: it is no kit, or another" \
    sed -i 's/^sd_outside:/& no_such/' crates.txt
holds 'another text of a licence' lacks 'the kit has another text of the licence of base64 0.23.1' \
    sed -i s/Alice/Alicia/ release/linked/base64.txt

echo "release/refuses.sh: $ran ran, and all is as it should be"
