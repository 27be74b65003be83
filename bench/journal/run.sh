#!/usr/bin/env bash
# Times appends to a journal in a file beside inserts into SQLite, one a transaction with every commit synced. Prints the
# fastest of some rounds, in which both take turns.
# Needs `rt` and Python with its `sqlite3`. Usage: bench/journal/run.sh [folder on the disk that is to be measured] [rounds]
set -euo pipefail
here=$(cd "$(dirname "$0")" && pwd)
program=$("$here/../build.sh" journal hs_disk redo_journal)
work=$(mktemp -d)
disk=$(mktemp -d "${1:-/tmp}/journal.XXXXXX")
trap 'rm -rf "$work" "$disk"' EXIT
cd "$disk"
for _ in $(seq "${2:-7}"); do
    rm -f "$disk"/*
    "$program" | sed 's/^/ours /'
    python3 "$here/sqlite.py" | sed 's/^/SQLite /'
done >"$work/lines"
awk -v count=1000 -f "$here/../ratios.awk" "$work/lines"
