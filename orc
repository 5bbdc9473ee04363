#!/bin/sh
# Runs the proved program with the words, folder, streams and status of the caller. Where there is no program of the
# sources as they stand, that of release/ is taken, or it is proved and built; only then are there messages of the
# build, all on standard error. `help`, `explain` and `page` are words of this door, and `--help` and `--version`
# where they come first.
here=$(CDPATH='' cd -- "$(dirname -- "$0")" && pwd) || exit 1
program=$here/crates/orc/out/orc

# What the file system tells of each source: a change shows, also one that keeps the time of the file.
sources() {
    cd "$here" && find crates.txt HANDLES $(cat "$program.crates") \( -name out -o -name must-fail \) -prune -o -type f -printf '%p %s %C@\n'
}

is_current() {
    [ -x "$program" ] && [ -f "$program.crates" ] && [ -f "$program.sources" ] && sources 2>/dev/null | cmp -s - "$program.sources"
}

case ${1-} in
    help | --help | --version | explain | page) exec "$here/tools/door.py" "$@" ;;
esac
is_current || "$here/tools/build_orc.py" || exit 1
[ -t 2 ] || exec "$program" "$@"
"$program" "$@"
status=$?
[ $status -ne 100 ] || echo "orc: status 100 is for words that don't fit; ./orc help shows those that do" >&2
exit $status
