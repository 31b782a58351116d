#!/bin/sh
# Runs the proved program (`rt run` builds it here, and so does `rt ci`) on images with a count above 255 and a line of 19 characters, on
# inputs of 65,535 and 65,536 bytes, and on the stored one. What it writes must be, byte for byte, the line that the independent checker
# makes of each.
set -eu
cd "$(dirname "$0")"
program=out/verdict
[ -x "$program" ] || { echo "build it first: rt run <stdin" >&2; exit 2; }
work=$(mktemp -d)
trap 'rm -rf "$work"' EXIT
cargo run --release --offline --quiet -p sets --bin program_inputs "$work"

tried=0 wrong=0
for image in "$work"/*.image; do
    tried=$((tried + 1))
    "$program" <"$image" >"$work/wrote" || :
    cmp -s "$work/wrote" "${image%.image}.line" && continue
    wrong=$((wrong + 1))
    echo "$(basename "$image"): expected '$(cat "${image%.image}.line")', and it wrote '$(cat "$work/wrote")'"
done
echo "$tried inputs, $wrong wrong"
[ "$tried" -eq 6 ] && [ "$wrong" -eq 0 ]
