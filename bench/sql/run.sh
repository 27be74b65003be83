#!/usr/bin/env bash
# Times `parse` beside SQLite's sqlite3_prepare_v2 over the same three statements. SQLite makes a program of each, beyond reading
# it. Prints the fastest of some rounds, in which both take turns.
# Needs `rt`, `cc`, and SQLite's header and library. Usage: bench/sql/run.sh [rounds]
set -euo pipefail
here=$(cd "$(dirname "$0")" && pwd)
program=$("$here/../build.sh" sql row_types request_types sql_value sql_parse)
work=$(mktemp -d)
trap 'rm -rf "$work"' EXIT
cc -O2 -o "$work/sqlite" "$here/sqlite.c" -lsqlite3
for _ in $(seq "${1:-5}"); do
    "$program" | sed 's/^/ours /'
    "$work/sqlite" | sed 's/^/SQLite /'
done >"$work/lines"
awk -v count=100000 -f "$here/../ratios.awk" "$work/lines"
