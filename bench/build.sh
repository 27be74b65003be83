#!/usr/bin/env bash
# Proves and builds the program of a bench, outside the gate, and prints its path. It makes a repository of its own from the
# crates that the program names, those below them, and the files of bench/NAME/program, whose ending .txt it takes off.
# The repository stays, in BENCH_FOLDER or else under /tmp, so that the next run proves only what has changed.
# With BENCH_COPY=1 it ends before `rt`. Usage: bench/build.sh NAME CRATE..
set -euo pipefail
top=$(cd "$(dirname "$0")/.." && pwd)
name=$1
shift
repository=${BENCH_FOLDER:-/tmp/bench-$(id -u)}/$name
bench=$repository/crates/${name}_bench

# The crates of the checkout among these, each behind those that it stands on. The others are the kit's.
lowest_first() (
    for crate in "$@"; do
        line=$(grep "^$crate:" "$top/crates.txt") || continue
        lowest_first ${line#*:}
        echo "$crate"
    done
)

# Leaves nothing in a crate's folder but what `rt` keeps there.
clear() {
    mkdir -p "$1"
    find "$1" -mindepth 1 -maxdepth 1 -not -name out -exec rm -rf {} +
}

mkdir -p "$repository"
git init -q "$repository"
: >"$repository/crates.txt"
for crate in $(lowest_first "$@" | awk '!seen[$0]++'); do
    clear "$repository/crates/$crate"
    for part in src specs proofs; do
        if [ -d "$top/crates/$crate/$part" ]; then cp -rp "$top/crates/$crate/$part" "$repository/crates/$crate"; fi
    done
    grep "^$crate:" "$top/crates.txt" >>"$repository/crates.txt"
done
clear "$bench"
cp -rp "$top/bench/$name/program/." "$bench"
find "$bench" -name '*.txt' -not -path "$bench/out/*" | while read -r file; do mv "$file" "${file%.txt}"; done
echo "${name}_bench: $*" >>"$repository/crates.txt"
echo "$bench/out/${name}_bench"
if [ -n "${BENCH_COPY:-}" ]; then exit; fi
(cd "$bench" && rt run >"$repository/build.log" 2>&1) || { tail -40 "$repository/build.log" >&2; exit 1; }
