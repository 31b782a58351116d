#!/usr/bin/env bash
# Whether the archive for C needs memcpy and memset of the C library and nothing else, as `include/hidokpalu.h` says. It is built before:
# `rt lib` in crates/hidokpalu, or `tools/archive.py hidokpalu`.
set -eu
cd "$(dirname "$0")/.."

named=$(nm -u crates/hidokpalu/out/libhidokpalu.a)
needed=$(echo "$named" | awk '$1 == "U" { print $2 }' | sort -u | tr '\n' ' ')
if [ "$needed" != "memcpy memset " ]; then
    echo "libhidokpalu.a needs: $needed"
    exit 1
fi
