#!/usr/bin/env bash
# Tries the edits of crates that the prover is to refuse: those in must-fail/, and those in
# must-fail/more/, which the gate doesn't read since their names end in `.edit.md`. They are tried in a copy, in which they all stand in
# must-fail/, and which begins with the proofs that are kept on this machine. Where one isn't refused,
# the exit status is 1.
#
# tools/edits.sh [CRATE..]: all crates where none is named.
set -eu
top=$(cd "$(dirname "$0")/.." && pwd)
copy=$(mktemp -d)
trap 'rm -rf "$copy"' EXIT
tar -C "$top" --exclude=out -cf - crates crates.txt | tar -C "$copy" -xf -
[ ! -e "$top/HANDLES" ] || cp "$top/HANDLES" "$copy/"
[ $# -gt 0 ] || set -- $(cd "$top/crates" && ls)
status=0
for crate in "$@"; do
    edits=$copy/crates/$crate/must-fail
    if [ -d "$edits/more" ]; then
        for edit in "$edits"/more/*.edit.md; do
            mv "$edit" "$edits/$(basename "$edit" .md)"
        done
        rmdir "$edits/more"
    fi
    [ -d "$edits" ] || continue
    echo "$crate"
    (cd "$copy" && rt must-fail "$crate") || status=1
done
exit "$status"
