#!/usr/bin/env bash
# Writes every stored set: those that `vectors` makes; `examples`, the images of ../examples and the two with proofs
# written by hand; `replay-examples`, traces of the accepted ones among them; `trim-examples`, the accepted ones of
# ../examples with every line that the search found, trimmed.
#
# Usage: stored.sh FOLDER
set -euo pipefail

mkdir -p "$1"
folder=$(realpath "$1")
cd "$(dirname "${BASH_SOURCE[0]}")"
images=$(mktemp -d)
trap 'rm -rf "$images"' EXIT

cargo build --quiet --release --offline -j1 -p outline -p sets
../examples/build-all.sh "$images" >/dev/null
../target/rust/release/vectors "$folder"
for name in message-passing two-writes; do
    cp "$folder/$name.image" "$images/$name-by-hand.image"
done
../target/rust/release/pack "$images" "$folder" examples
../target/rust/release/pack --replay "$images" "$folder" replay-examples

rm "$images"/*
for source in ../examples/*.outline; do
    if ! grep -q '^# refused:' "$source"; then
        ../target/rust/release/outline build "$source" -o "$images/$(basename "$source" .outline).image" --all-lines >/dev/null
    fi
done
../target/rust/release/pack --trim "$images" "$folder" trim-examples
