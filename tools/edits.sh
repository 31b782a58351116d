#!/usr/bin/env bash
# Tries the edits that `rt ci` leaves out, crates/NAME/also-refused/*.edit: the prover must refuse each. They are tried in a copy.
#
#     tools/edits.sh                 all of them
#     tools/edits.sh CRATE...        those of some crates
#     tools/edits.sh --tenth [N]     a tenth of them: each tenth in its list, from the one at N mod 10 on; N is the number of the newest
#                                    commit, so that every ten commits all are tried, and 0 where there is no history
#
# The first two begin with what `rt check` keeps of the crates on this machine (`rt must-fail`); the last one, a part of the gate, with what
# `rt ci` has just passed: `rt ci` takes every proof of the copy from there, and tries the edits.
set -eu
cd "$(dirname "$0")/.."

all=$(ls crates/*/also-refused/*.edit | sort)
tenth=
if [ "${1:-}" = --tenth ]; then
    tenth=yes
    number=${2:-$(git rev-list --count HEAD 2>/dev/null || echo 0)}
    chosen=$(echo "$all" | awk -v from=$((number % 10)) 'NR % 10 == (from + 1) % 10')
elif [ $# -gt 0 ]; then
    chosen=$(for name in "$@"; do echo "$all" | grep "^crates/$name/" || { echo "$name has none" >&2; exit 2; }; done)
else
    chosen=$all
fi

work=$(mktemp -d)
trap 'rm -rf "$work"' EXIT
mkdir -p "$work/tree/crates" "$work/tree/.git"
cp crates.txt "$work/tree"
[ ! -f HANDLES ] || cp HANDLES "$work/tree"
for crate in crates/*/; do
    mkdir "$work/tree/$crate"
    for part in "$crate"*; do
        case ${part##*/} in out | must-fail | also-refused) ;; *) cp -R "$part" "$work/tree/$crate" ;; esac
    done
done
for edit in $chosen; do
    mkdir -p "$work/tree/crates/$(echo "$edit" | cut -d/ -f2)/must-fail"
    cp "$edit" "$work/tree/crates/$(echo "$edit" | cut -d/ -f2)/must-fail/"
done
count=$(echo "$chosen" | wc -l)
echo "$count of $(echo "$all" | wc -l) edits outside of the gate"
cd "$work/tree"
if [ -z "$tenth" ]; then
    # shellcheck disable=SC2046
    rt must-fail $(echo "$chosen" | cut -d/ -f2 | sort -u)
    exit
fi
ended=0
rt ci >"$work/said" 2>&1 || ended=$?
grep '^rt: must-fail ' "$work/said" || true
if [ "$ended" -ne 0 ] || [ "$(grep -c '^rt: must-fail .*: refused, as it must be' "$work/said")" -ne "$count" ]; then
    grep -v '^rt: must-fail ' "$work/said"
    exit 1
fi
echo "$count refused"
