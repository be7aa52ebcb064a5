#!/usr/bin/env bash
# Tries ./ravenhost --install in a fresh clone of what is committed, with a stand-in for the proved program: what it puts where,
# that the sources may be gone afterwards, that files are replaced at once, DESTDIR, and each error. It proves and builds
# nothing, and takes a minute. Needs git, man and flock; the last look at completions and syntax needs Python, zsh and vim.
# What a person without rights meets is only tried by root, through setpriv.
set -u

top=$(dirname "$(dirname "$(readlink -f "$0")")")
folder=$(mktemp -d)
trap 'kill $(jobs -p) 2>/dev/null; rm -rf "$folder"' EXIT
chmod 755 "$folder"
faults=0
umask 077
unset DESTDIR

fault() {
    faults=$((faults + 1))
    echo "NOT AS DUE: $1"
}

# holds NAME COMMAND..: what must hold.
holds() {
    local name=$1
    shift
    if "$@" >/dev/null 2>&1; then echo "as due: $name"; else fault "$name"; fi
}

# due NAME STATUS ERROR WORDS..: the launcher's status and its one line on standard error; none where ERROR is empty.
due() {
    local name=$1 status=$2 error=$3 got
    shift 3
    "$launcher" "$@" </dev/null >"$folder/out" 2>"$folder/err"
    got=$?
    # shellcheck disable=SC2053 # a pattern
    if [ "$got" = "$status" ] && [ "$(wc -l <"$folder/err")" = "$([ -z "$error" ]; echo $?)" ] &&
        [[ $(cat "$folder/err") == $error ]]; then
        echo "as due: $name"
    else
        fault "$name: status $got, due $status; on standard error: $(cat "$folder/err")"
    fi
}

# left WHERE: names of files below a folder that an installation left beside their places.
left() {
    find "$1" -name '.ravenhost.*' | grep .
}

git clone -q "$top" "$folder/clone" && git -C "$folder/clone" checkout -q "$(git -C "$top" rev-parse HEAD)" || exit 2
launcher=$folder/clone/ravenhost program=$folder/clone/crates/ravenhost/out/ravenhost
mkdir "$folder/prefix"

due "nothing is proved" 126 'ravenhost: --install asks for the proved program, and nothing is proved yet: ./ravenhost --prove first' \
    --install "$folder/prefix"
holds "nothing is installed then" test -z "$(ls "$folder/prefix")"

review=$folder/clone/crates/ravenreview/out/ravenreview

# stand_in WORD: a program, younger than the sources, that says the word and its own words; and one for questions about journals.
stand_in() {
    mkdir -p "${program%/*}" "${review%/*}"
    printf '#!/bin/sh\necho %s "$@"\n%065536d\n' "$1" 0 | sed 's/^0*$/#&/' >"$program"
    cp "$program" "$review"
    chmod 700 "$program" "$review"
    echo "rattle-kit-0" >"$program.kit"
}
stand_in proved

usage='ravenhost: --install takes one folder, as ./ravenhost --install /usr/local'
due "no folder" 2 "$usage" --install
due "an empty folder" 2 "$usage" --install ""
due "no folder behind =" 2 "$usage" --install=
due "two folders" 2 "$usage" --install "$folder/prefix" "$folder/other"
due "a flag for a folder" 2 "$usage" --install --help

due "an installation" 0 "" --install "$folder/prefix"
cp "$folder/out" "$folder/places"
while read -r place; do holds "${place#"$folder/"} is there" test -f "$place"; done <"$folder/places"
holds "nothing else is there" diff <(find "$folder/prefix" ! -type d | sort) <(sort "$folder/places")
holds "the program may be run by all" test "$(stat -c %a "$folder/prefix/bin/ravenhost")" = 755
holds "the others may be read by all" test "$(find "$folder/prefix" -type f ! -perm 644 | wc -l)" = 3
holds "all folders may be entered" test -z "$(find "$folder/prefix" -mindepth 1 -type d ! -perm 755)"
holds "the program" cmp "$program" "$folder/prefix/bin/ravenhost"
holds "the program for questions" cmp "$review" "$folder/prefix/bin/ravenreview"
share=$folder/prefix/share
for pair in docs/ravenhost.1:man/man1/ravenhost.1 manual/ravenhost.bash:bash-completion/completions/ravenhost \
    manual/_ravenhost:zsh/site-functions/_ravenhost manual/vim/syntax/raven.vim:vim/vimfiles/syntax/raven.vim \
    manual/vim/ftdetect/raven.vim:vim/vimfiles/ftdetect/raven.vim docs/SCRIPTS.md:doc/ravenhost/docs/SCRIPTS.md \
    README.md:doc/ravenhost/README.md examples/first.raven:doc/ravenhost/examples/first.raven; do
    holds "share/${pair#*:}" cmp "$folder/clone/${pair%%:*}" "$share/${pair#*:}"
done
version="$(cat "$folder/clone/crates/ravenhost/usage/version") (proved, rattle-kit-0)"
holds "the version" test "$(cat "$share/doc/ravenhost/VERSION")" = "$version"
holds "man finds the page" test "$(man -M "$share/man" -w ravenhost)" = "$share/man/man1/ravenhost.1"

# The sources may be gone.
mv "$folder/clone" "$folder/away"
holds "it runs without the sources" test "$(cd / && "$folder/prefix/bin/ravenhost" play --all)" = "proved play --all"
mv "$folder/away" "$folder/clone"

# A program that runs is replaced, and goes on; who opens it meanwhile has the old one or the new one whole.
cp "$(type -P sleep)" "$folder/prefix/bin/ravenhost"
"$folder/prefix/bin/ravenhost" 60 &
running=$!
stand_in again
cp "$program" "$folder/new" && cp "$folder/prefix/bin/ravenhost" "$folder/old"
due "an installation over one whose program runs" 0 "" --install "$folder/prefix"
holds "the old program goes on" kill -0 "$running"
holds "the new one stands in its place" test "$("$folder/prefix/bin/ravenhost")" = again
kill "$running"
(
    for ((n = 0; n < 400; n++)); do
        cat "$folder/prefix/bin/ravenhost" >"$folder/seen" && { cmp -s "$folder/seen" "$folder/new" || echo "a part at look $n"; }
    done
) >"$folder/looks" 2>&1 &
looking=$!
for _ in 1 2 3 4 5 6; do "$launcher" --install "$folder/prefix" >/dev/null 2>&1 || fault "an installation while others look"; done
wait "$looking"
holds "nobody sees a part" test ! -s "$folder/looks"
holds "no file is left beside" test -z "$(left "$folder/prefix")"

# Where it goes.
due "a folder that isn't there yet" 0 "" --install "$folder/fresh"
holds "it is made" test -x "$folder/fresh/bin/ravenhost"
due "behind =" 0 "" "--install=$folder/equal"
holds "it is there" test -x "$folder/equal/bin/ravenhost"
due "strokes at the end" 0 "" --install "$folder/strokes//"
holds "it is there" test -x "$folder/strokes/bin/ravenhost"
holds "places have no stroke twice" test -z "$(grep // "$folder/out")"
odd="$folder/an odd 'place' \$HOME * é"
due "a name of odd characters" 0 "" --install "$odd"
holds "it is there" test -x "$odd/bin/ravenhost"
holds "its places are told" grep -qxF "$odd/bin/ravenhost" "$folder/out"
cd "$folder" || exit 2
due "a folder from here" 0 "" --install here
holds "it is there" test -x "$folder/here/bin/ravenhost"
holds "places are whole names" grep -qx "$folder/here/bin/ravenhost" "$folder/out"
ln -s clone/ravenhost link
launcher=$folder/link
due "through a link to the launcher" 0 "" --install "$folder/by_link"
launcher=$folder/clone/ravenhost
holds "it is there" test -x "$folder/by_link/bin/ravenhost"
ln -sf "$folder/file" "$folder/by_link/share/man/man1/ravenhost.1"
due "over a link" 0 "" --install "$folder/by_link"
holds "the link is replaced" test ! -L "$folder/by_link/share/man/man1/ravenhost.1"
holds "what it named isn't touched" test ! -e "$folder/file"

# DESTDIR.
export DESTDIR=$folder/stage/deep
due "DESTDIR" 0 "" --install /usr
holds "it is there" test -x "$folder/stage/deep/usr/bin/ravenhost"
holds "places are told with it" grep -qx "$folder/stage/deep/usr/bin/ravenhost" "$folder/out"
DESTDIR=$folder/slash/
due "DESTDIR with a stroke at its end" 0 "" --install /usr
holds "it is there" test -x "$folder/slash/usr/bin/ravenhost"
DESTDIR=from_here
due "DESTDIR from here" 0 "" --install usr/local
holds "it is there" test -x "$folder/from_here/usr/local/bin/ravenhost"
DESTDIR=
due "an empty DESTDIR" 0 "" --install "$folder/empty"
holds "it is there" test -x "$folder/empty/bin/ravenhost"
unset DESTDIR

# Errors, each in one line.
due "no such place" 4 "ravenhost: there is no folder $folder/none" --install "$folder/none/there"
echo >"$folder/file"
due "a file in place of the folder" 4 "ravenhost: the folder $folder/file/bin can't be made" --install "$folder/file"
due "a file above the folder" 4 "ravenhost: there is no folder $folder/file" --install "$folder/file/there"
mkdir -p "$folder/taken/bin/ravenhost"
due "a folder in place of the program" 4 "ravenhost: $folder/taken/bin/ravenhost is a folder, where a file is to stand" --install "$folder/taken"
mkdir -p "$folder/late/share/vim/vimfiles/ftdetect/raven.vim" "$folder/late/bin" && echo old >"$folder/late/bin/ravenhost"
due "a folder in place of a later file" 4 "ravenhost: $folder/late/share/vim/vimfiles/ftdetect/raven.vim is a folder*" --install "$folder/late"
holds "then nothing is replaced" test "$(cat "$folder/late/bin/ravenhost")" = old
holds "and nothing is left beside" test -z "$(left "$folder/late")"
due "a file system that takes nothing" 4 "ravenhost: the folder /proc/ravenhost/bin can't be made" --install /proc/ravenhost
mkdir -p "$folder/full/bin" && echo old >"$folder/full/bin/ravenhost"
(
    ulimit -f 16
    trap '' XFSZ
    due "no room for the program" 4 "ravenhost: $folder/full/bin/ravenhost can't be written" --install "$folder/full"
    exit "$faults"
) || faults=$?
holds "the old one stays" test "$(cat "$folder/full/bin/ravenhost")" = old
holds "and nothing is left beside" test -z "$(left "$folder/full")"
if [ -e /dev/full ]; then
    "$launcher" --install "$folder/prefix" >/dev/full 2>"$folder/err"
    holds "a full standard output" test "$?:$(cat "$folder/err")" = "4:ravenhost: standard output can't be written"
fi
mv "$folder/clone/docs/ravenhost.1" "$folder/kept"
due "a file of the sources is gone" 4 "ravenhost: $folder/clone/docs/ravenhost.1 can't be read" --install "$folder/gone"
holds "then nothing is installed" test -z "$(find "$folder/gone" ! -type d)"
mv "$folder/kept" "$folder/clone/docs/ravenhost.1"

# Without rights.
if [ "$(id -u)" = 0 ] && command -v setpriv >/dev/null; then
    chmod -R go+rX "$folder/clone" && mkdir -p "$folder/mine/bin" && echo old >"$folder/mine/bin/ravenhost"
    chmod -R 755 "$folder/mine"
    chmod 700 "$program"
    cat >"$folder/nobody" <<END
#!/bin/sh
exec setpriv --reuid=65534 --regid=65534 --clear-groups "$launcher" "\$@"
END
    chmod 755 "$folder/nobody"
    launcher=$folder/nobody
    due "a program that may not be run" 126 "ravenhost: --install asks for the proved program, and nothing is proved yet*" --install "$folder/mine"
    chmod 755 "$program"
    due "a folder that may not be written to" 4 "ravenhost: the folder $folder/mine/bin can't be written to" --install "$folder/mine"
    holds "the old one stays" test "$(cat "$folder/mine/bin/ravenhost")" = old
    due "a folder that may not be made" 4 "ravenhost: the folder $folder/nobodys/bin can't be made" --install "$folder/nobodys"
    launcher=$folder/clone/ravenhost
fi

# An end in the midst: cat is slow here.
mkdir "$folder/slow"
printf '#!/bin/sh\nsleep 0.3\nexec %s "$@"\n' "$(type -P cat)" >"$folder/slow/cat"
chmod 700 "$folder/slow/cat"
PATH=$folder/slow:$PATH "$launcher" --install "$folder/full" >/dev/null 2>"$folder/err" &
midst=$!
sleep 1
kill -TERM "$midst"
wait "$midst"
holds "an end in the midst" test "$?" = 143
holds "the old one stays" test "$(cat "$folder/full/bin/ravenhost")" = old
holds "and nothing is left beside" test -z "$(left "$folder/full")"

# While it is being proved, and behind a change of the sources.
exec 8<"$folder/clone/crates"
flock 8
due "while it is being proved" 126 'ravenhost: --install asks for the proved program, and it is being proved: wait *' --install "$folder/prefix"
exec 8<&-
sleep 1
touch "$folder/clone/crates/rv_text/src/lib.rt"
newer='ravenhost: --install asks for the proved program, and crates/rv_text/src/lib.rt is newer than the proved program: *first'
due "a source newer than it" 126 "$newer" --install "$folder/prefix"

# What is installed as shells and the editor find it, with a program that is no script.
if command -v zsh >/dev/null && command -v vim >/dev/null && command -v python3 >/dev/null; then
    cp "$(type -P true)" "$program" && cp "$(type -P true)" "$review"
    due "a program that is no script" 0 "" --install "$folder/whole"
    holds "completions of what is installed" "$top/bench/complete_words.py" "$folder/whole" "$launcher"
    echo "$folder/whole/share/doc/ravenhost/examples/plant.raven" >"$folder/files"
    WHAT=errors FILES=$folder/files SHOWN=$folder/shown vim -u NONE -i NONE -n -es -N \
        --cmd "set runtimepath^=$folder/whole/share/vim/vimfiles" --cmd 'filetype on' --cmd 'syntax on' \
        -S "$top/bench/editor/shown.vim" </dev/null
    holds "the syntax of what is installed" test "$(stat -c %s "$folder/shown")" = 0
fi

"$launcher" --help </dev/null >/dev/null 2>"$folder/err"
holds "the help names it" grep -q -- '--install PREFIX' "$folder/err"
echo "faults: $faults"
exit $((faults > 0))
