#!/usr/bin/env bash
# Times `decode_shared` beside a plain loop in Rust over the same line, whose texts borrow or are its own: 1,000,000 tokens a
# round, of which 1 in 10 has an escape. Prints the fastest of seven rounds of each.
# Needs `rt` and `rustc`. Usage: bench/tokens/run.sh
set -euo pipefail
here=$(cd "$(dirname "$0")" && pwd)
program=$("$here/../build.sh" tokens hs_token bytes)
work=$(mktemp -d)
trap 'rm -rf "$work"' EXIT
rustc -O -o "$work/plain" "$here/plain.rs"

# both read `line`: ten tokens, of which nine are texts and one is NULL
cd "$(dirname "$program")/.."
set -- $("$program") $("$work/plain")
[ "$2" = 9 ] || { echo "decode_shared found $2 texts in a line and not 9"; exit 1; }
awk -v ours="$1" -v borrowed="$3" -v owned="$4" -v count=1000000 'BEGIN {
    printf "a token %.0f ns, with texts that borrow %.0f ns  ratio %.2f\n", ours / count, borrowed / count, ours / borrowed
    printf "a token %.0f ns, with texts of its own %.0f ns  ratio %.2f\n", ours / count, owned / count, ours / owned
}'
