#!/bin/sh
# Judges a file, or standard input, by the proved program, and prints its one line: ./dm [FILE]. The program is proved and built on first use, and
# again when a source is newer. The program ends well whatever its line says; this script gives an exit status by the line that it printed.
usage="usage: dm [FILE]

Judges a mapping file, or standard input, by the proved program, and prints one line:

  accepted 9 records 1 items       the file is whole
  refused 10 at record 6           it is not; 'dmtool explain FILE' says what to do
  too long                         more than 65,520 bytes: judge it by 'dmtool judge FILE'
  not judged: read error           the input could not be read to its end: try again, or copy it first

Exit status: 0 accepted; 1 refused or too long; 2 no answer: the input cannot be read, the output cannot be written, or the program cannot be built."

fail() {
    echo "dm: $1" >&2
    exit 2
}

case $# in
0) file= ;;
1) file=$1; [ -n "$file" ] || { echo "dm: the file's name is empty" >&2; exit 2; } ;;
*) echo "$usage" >&2; exit 2 ;;
esac
if [ "$file" = --help ] || [ "$file" = -h ]; then
    echo "$usage" || exit 2
    exit 0
fi

self=$(readlink -f "$0") || fail "its own folder cannot be found"
root=$(dirname "$self")
program=$root/crates/dm/out/dm
# building starts here
stale() {
    [ ! -x "$program" ] && return 0
    # What rt makes, in the folders out, is no source.
    [ -n "$(find "$root/crates" "$root/crates.txt" -name out -prune -o -newer "$program" \( -name '*.rt' -o -name '*.antt' -o -name crates.txt \) -print -quit)" ]
}
if stale; then
    mkdir -p "$root/target" || fail "$root/target cannot be made"
    # Two at once build one after the other, and the second finds it done. Where there is no flock, they do not wait.
    exec 9>"$root/target/dm-build.lock" || fail "$root/target cannot be written"
    if command -v flock >/dev/null; then flock 9; fi
fi
if stale; then
    echo "dm: proving and building the program, some minutes on first use" >&2
    # rt runs what it built, here on the example.
    (cd "$root/crates/dm" && rt run <stdin) >"$root/target/dm-build.log" 2>&1 9>&- || fail "it could not be built; see $root/target/dm-build.log"
    # A source that is newer but changes nothing leaves the program as it was: it is up to date from now on.
    touch "$program" || fail "$program cannot be written"
fi
exec 9>&-
# building ends here
[ -x "$program" ] || fail "$program is missing; install it again"

if [ -n "$file" ]; then
    [ -e "$file" ] || fail "$file: there is no such file; check the name and the folder"
    [ ! -d "$file" ] || fail "$file: it is a folder; name a file in it"
    [ -r "$file" ] || fail "$file: it may not be read; ask its owner for the right to"
    exec <"$file" || fail "$file: it cannot be opened"
fi
line=$("$program") || fail "the program ended early; try again"
# Whoever reads the output may have closed it: then there is nobody to answer.
trap '' PIPE
printf '%s\n' "$line" 2>/dev/null || fail "the answer could not be printed; make room or send it elsewhere"
case $line in
"accepted "*) exit 0 ;;
"refused "* | "too long") exit 1 ;;
*) exit 2 ;;
esac
