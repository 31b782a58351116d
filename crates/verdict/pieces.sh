#!/bin/sh
# Runs the proved program (`rt run` builds it here, and so does `rt ci`) on input that comes in pieces, that ends at the buffer's end,
# and that cannot be read. What it writes must be the stored line, the line of an image that is too long, and nothing.
set -eu
cd "$(dirname "$0")"
program=out/verdict
[ -x "$program" ] || { echo "build it first: rt run <stdin" >&2; exit 2; }
size=$(wc -c <stdin)
long='2 0 0 0 0 0 0 0 0'
tried=0 wrong=0

same() { # WHAT EXPECTED WROTE
    tried=$((tried + 1))
    [ "$2" = "$3" ] && return
    wrong=$((wrong + 1))
    echo "$1: expected '$2', and it wrote '$3'"
}

# The image cut before each of the bytes named, with a pause at each cut.
pieces() { # CUT...
    from=0
    for cut in "$@" "$size"; do
        dd if=stdin bs=1 skip="$from" count=$((cut - from)) 2>/dev/null
        sleep 0.1
        from=$cut
    done
}

for cut in 1 2 8 $((size / 2)) $((size - 1)); do
    same "cut at $cut" "$(cat stdout)" "$(pieces "$cut" | "$program")"
done
same "three pieces" "$(cat stdout)" "$(pieces 9 30 | "$program")"
# A byte a piece for 40 bytes, then the rest.
same "a byte a piece" "$(cat stdout)" "$(pieces $(seq 1 40) | "$program")"
for extra in 0 1 5000; do
    same "65,536 bytes and $extra" "$long" "$({ head -c 60000 /dev/zero; sleep 0.1; head -c $((5536 + extra)) /dev/zero; } | "$program")"
done
same "nothing" "$long" "$("$program" </dev/null)"
same "a folder" "" "$("$program" <. 2>/dev/null)"
echo "$tried inputs, $wrong wrong"
[ "$wrong" -eq 0 ]
