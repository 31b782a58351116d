#!/bin/sh
# Compares the final states of litmus tests with herd7's, where herd7 is installed: all of examples/litmus that are C11, and so many
# generated ones (1,000 if nothing is said). The model is herd7's rc11.cat with the release sequence of C++20, in which a relaxed store of
# the same thread carries no release on. What herd7 does not read is told and not compared. It is no part of the gate.
#
#   tools/herd.sh [NUMBER]
set -eu
cd "$(dirname "$0")/.."
number=${1:-1000}
tool=target/rust/release/outline
if ! command -v herd7 > /dev/null; then
    echo "herd7 is not installed: nothing is compared"
    exit 0
fi
folder=$(mktemp -d)
trap 'rm -rf "$folder"' EXIT
cp examples/litmus/*.litmus "$folder"
rm -f "$folder"/LK-*.litmus
cargo run --release --offline -q -p outline --bin litmus-random -- "$number" "$folder"

# The final states of an answer, one a line, in order.
states() {
    sed -n '/^States/,/^\(Ok\|No\)$/p' | sed -e '1d' -e '$d' | tr -d ' ' | sort
}

sed 's/^let rs = .*/let rs = [W]; (rf; myrmw)*/' "$(herd7 -libdir)/rc11.cat" > "$folder/rc11-2020.cat"
grep -q '^let rs = \[W\]; (rf; myrmw)\*$' "$folder/rc11-2020.cat"

same=0
other=0
unread=0
for test in "$folder"/*.litmus; do
    (herd7 -model "$folder/rc11-2020.cat" "$test" 2> "$folder/mistakes" || true) > "$folder/said"
    if ! grep -q '^Observation' "$folder/said"; then
        unread=$((unread + 1))
        echo "not read by herd7: $(head -n 1 "$test"): $(head -n 1 "$folder/mistakes")"
        continue
    fi
    states < "$folder/said" > "$folder/herd7"
    ("$tool" litmus "$test" || true) | states > "$folder/ours"
    if cmp -s "$folder/herd7" "$folder/ours"; then
        same=$((same + 1))
    else
        other=$((other + 1))
        echo "other states: $(head -n 1 "$test")"
        diff "$folder/herd7" "$folder/ours" || true
    fi
done
echo "$same tests with the same states, $other with others, $unread not read by herd7"
test "$other" -eq 0
