#!/usr/bin/env bash
# Compiles the examples in C against the header, warnings as errors, links them with the archive crates/hidokpalu/out/libhidokpalu.a, and
# runs them: `check` on images that are accepted, refused and none, whose lines have to be the independent checker's; `service` on an
# accepted image with a trace.
set -eu
cd "$(dirname "$0")/.."

work=$(mktemp -d)
trap 'rm -rf "$work"' EXIT
cargo build --release --offline --quiet -p outline -p reference
tools=${CARGO_TARGET_DIR:-target/rust}/release
for name in check service; do
    cc -std=c11 -Wall -Wextra -Wpedantic -Werror -Iinclude "examples/$name.c" crates/hidokpalu/out/libhidokpalu.a -o "$work/$name"
done

fail() {
    echo "$*"
    exit 1
}

# Runs `check` on an image: its line is the independent checker's, its status the one expected.
judged() { # IMAGE STATUS
    status=0
    "$work/check" "$1" >"$work/wrote" || status=$?
    "$tools/reference" "$1" >"$work/line"
    [ "$status" -eq "$2" ] || fail "check: status $status for $1, and $2 was expected"
    cmp -s "$work/wrote" "$work/line" || fail "check: '$(cat "$work/wrote")' for $1, and '$(cat "$work/line")' was expected"
}

for name in polling message-passing; do
    "$tools/outline" build "examples/$name.outline" -o "$work/$name.image" >/dev/null
    judged "$work/$name.image" 0
done
"$tools/outline" build examples/message-passing-wrong-1.outline -o "$work/wrong.image" --partial >/dev/null 2>&1 || [ $? -eq 1 ]
judged "$work/wrong.image" 1
judged examples/check.c 1
status=0
"$work/check" "$work/missing" 2>/dev/null || status=$?
[ "$status" -eq 2 ] || fail "check: status $status for a file that is not there"

# The writer's two stores.
printf '\001\000\001\000' >"$work/trace"
"$work/service" "$work/message-passing.image" "$work/trace" || fail "service: status $?"
"$work/service" "$work/wrong.image" >/dev/null && fail "service: a refused image is served"
echo "the examples in C run"
