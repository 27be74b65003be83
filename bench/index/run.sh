#!/usr/bin/env bash
# Times a tree that takes the order of its items from outside beside Rust's BTreeMap: 100,000 keys in three orders,
# inserted, looked up, and walked both ways. Prints the fastest of some rounds, in which both take turns.
# Needs `rt` and `rustc`. Usage: bench/index/run.sh [rounds]
set -euo pipefail
here=$(cd "$(dirname "$0")" && pwd)
exec "$here/../beside.sh" index btree.rs BTreeMap 100000 "${1:-3}" index_tree
