#!/bin/sh
# Builds every source here into images in the folder given (default: target/images of the repository, which git does not show).
# Sources whose header foretells a refusal are built with --partial.
# Needs the tool: cargo build --release --offline -p outline.
set -eu
cd "$(dirname "$0")"
target="${1:-../target/images}"
mkdir -p "$target"
for source in *.outline; do
    partial=""
    if grep -q '^# refused:' "$source"; then partial="--partial"; fi
    ../target/rust/release/outline build "$source" -o "$target/${source%.outline}.image" $partial 2>/dev/null
done
