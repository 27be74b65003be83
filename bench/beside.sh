#!/usr/bin/env bash
# Times the program of a bench beside one in plain Rust that does the same COUNT times, in rounds in which both take turns, and prints
# the fastest of each. NAME is the bench, FILE the other program in its folder, OTHER what that one is called in the figures.
# Usage: bench/beside.sh NAME FILE OTHER COUNT ROUNDS CRATE..
set -euo pipefail
here=$(cd "$(dirname "$0")" && pwd)
name=$1 file=$2 other=$3 count=$4 rounds=$5
shift 5
program=$("$here/build.sh" "$name" "$@")
work=$(mktemp -d)
trap 'rm -rf "$work"' EXIT
rustc -O -o "$work/other" "$here/$name/$file"
for _ in $(seq "$rounds"); do
    "$program" | sed 's/^/ours /'
    "$work/other" | sed "s/^/$other /"
done >"$work/lines"
awk -v count="$count" -f "$here/ratios.awk" "$work/lines"
