#!/usr/bin/env bash
# Times the rows of a table beside SQLite in memory: 100,000 rows under three indexes, put in shuffled order, looked up,
# walked, found and changed. Prints the fastest of some rounds, in which both take turns. What a row takes of memory is
# read off the process for ours, and told by SQLite itself for SQLite.
# Needs `rt`, `cc`, and SQLite's header and library. Usage: bench/rows/run.sh [rounds]
set -euo pipefail
here=$(cd "$(dirname "$0")" && pwd)
program=$("$here/../build.sh" rows row_types request_types table_rows find_filter find_scan find_modify)
work=$(mktemp -d)
trap 'rm -rf "$work"' EXIT
cc -O2 -o "$work/sqlite" "$here/sqlite.c" -lsqlite3

# The most bytes that our program has had in memory at a stage.
peak() {
    /usr/bin/time -f %M -o "$work/peak" "$program" "$1" >/dev/null
    echo $(($(cat "$work/peak") * 1024))
}
for _ in $(seq "${1:-3}"); do
    "$program" | sed 's/^/ours /'
    "$work/sqlite" | sed 's/^/SQLite /'
done >"$work/lines"
echo "ours memory-of-a-row 100000 $(($(peak fill) - $(peak none)))" >>"$work/lines"
awk -v count=100000 -f "$here/../ratios.awk" "$work/lines"
