#!/usr/bin/env bash
# Changes one clause of the reference checker at a time and judges the stored sets
# again. A change that no stored verdict shows is reported as SURVIVES.
#
# Usage: mutants.sh [EDIT-FILE...]
#
# An edit file has lines "file PATH", a path in rust/reference/src, and pairs of lines
# "- OLD" and "+ NEW": OLD occurs in the file, its first occurrence becomes NEW.
# A line "sets NAME.." says which sets are judged again; without it all are.
set -euo pipefail

here=$(cd "$(dirname "${BASH_SOURCE[0]}")" && pwd)
if [ $# -eq 0 ]; then
    set -- "$here"/mutants/*.edit
fi
work=$(mktemp -d)
trap 'rm -rf "$work"' EXIT
mkdir "$work/rust" "$work/lists"
# Copies, so that lists and sources may be changed meanwhile.
cp "$@" "$work/lists"
cp -r "$here/../rust/reference" "$here/../rust/sets" "$work/rust/"
cp -r "$here/../rust/reference/src" "$work/original"
# The workspace without the members that are not needed here.
sed -e 's|^members = .*|members = ["rust/reference", "rust/sets"]|' -e '/^default-members/d' \
    "$here/../Cargo.toml" >"$work/Cargo.toml"
cd "$work"
export CARGO_TARGET_DIR="$work/target" CARGO_PROFILE_DEV_DEBUG=0 RUSTFLAGS="-Awarnings"

cargo build --quiet --offline -j1 --bin vectors --bin recheck
"$work/target/debug/vectors" "$work/sets" >"$work/log"
"$work/target/debug/recheck" "$work/sets" >"$work/log"

tried=0 survived=0 unfit=0

# Builds the changed copy and says what became of the stored verdicts.
judge() {
    if ! cargo build --quiet --offline -j1 -p reference --bin recheck 2>"$work/log"; then
        echo "DOES NOT BUILD  $1"
        unfit=$((unfit + 1))
    elif timeout 120 "$work/target/debug/recheck" "$work/sets" "${sets[@]}" >"$work/log" 2>&1; then
        echo "SURVIVES        $1"
        survived=$((survived + 1))
    fi
}

# Applies one edit, judges, and puts the file back.
try_edit() {
    local file=$1 old=$2 new=$3 content
    content=$(<"$work/original/$file")
    tried=$((tried + 1))
    if [[ "$content" != *"$old"* ]]; then
        echo "NOT FOUND       $file: $old"
        unfit=$((unfit + 1))
        return
    fi
    printf '%s\n' "${content/"$old"/"$new"}" >"rust/reference/src/$file"
    judge "$file: $old -> $new"
    printf '%s\n' "$content" >"rust/reference/src/$file"
}

for edits in "$work"/lists/*; do
    file='' old='' sets=()
    while IFS= read -r line; do
        case $line in
        'file '*) file=${line#file } ;;
        'sets '*) read -ra sets <<<"${line#sets }" ;;
        '- '*) old=${line#- } ;;
        '+ '*) try_edit "$file" "$old" "${line#+ }" ;;
        esac
    done <"$edits"
done
echo "$tried tried, $survived survive, $unfit could not be tried"
[ "$survived" -eq 0 ] && [ "$unfit" -eq 0 ]
