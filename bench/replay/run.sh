#!/usr/bin/env bash
# Times `hs_tool replay` on 1,000,000 finds by key over 100,000 rows, on one connection and on 200, beside a plain program
# in Rust that answers the same lines. Both read a script and print what was sent, and must print the same bytes. The time
# that filling the table takes is taken off. Prints the fastest of some rounds, and the most memory of the process.
# Needs `rt` and `rustc`. Without a program it takes the checkout's own hs_tool, which is proved and built if it isn't there
# or is older than a source. Usage: bench/replay/run.sh [rounds] [program]
set -euo pipefail
here=$(cd "$(dirname "$0")" && pwd)
top=$(cd "$here/../.." && pwd)
rounds=${1:-3}
tool=${2:-$top/crates/hs_tool/out/hs_tool}
work=$(mktemp -d)
trap 'rm -rf "$work"' EXIT

is_current() {
    [ -x "$tool" ] && [ -z "$(find "$top"/crates/*/src -newer "$tool" -name '*.rt' | head -n 1)" ]
}
if [ $# -lt 2 ] && ! is_current; then
    (cd "$top/crates/hs_tool" && rt run -- --help >"$work/build.log" 2>&1) || { tail -40 "$work/build.log"; exit 1; }
fi
tool=$(realpath "$tool")
for program in script plain; do rustc -O -o "$work/$program" "$here/$program.rs"; done
cd "$work"
./script one >one
./script many >many
# the lines before the first find: 500 turns of 200 inserts, behind the table and the connection
head -n 1002 one >fill

# Runs a program on a script, and writes WHO SCRIPT SECONDS KB and a sum of what it printed.
run() {
    local who=$1 script=$2
    shift 2
    /usr/bin/time -f '%e %M' -o taken "$@" <"$script" >printed
    echo "$who $script $(cat taken) $(sha256sum <printed | cut -c 1-16)"
}
for _ in $(seq "$rounds"); do
    for script in fill one many; do
        run ours "$script" "$tool" replay journal
        run plain "$script" ./plain
    done
done >runs
awk '
    !(($1, $2) in least) || $3 < least[$1, $2] { least[$1, $2] = $3; memory[$1, $2] = $4 }
    { sum[$1, $2] = $5 }
    function rate(who, script) { return 1000000 / (least[who, script] - least[who, "fill"]) }
    function tell(script) {
        if (sum["ours", script] != sum["plain", script]) { print script ": the two print different bytes"; failed = 1 }
        printf "%-5s ours %8d finds a second, %d MB  plain %8d, %d MB  ratio %.2f\n", script,
            rate("ours", script), memory["ours", script] / 1024, rate("plain", script), memory["plain", script] / 1024,
            rate("plain", script) / rate("ours", script)
    }
    END {
        tell("one")
        tell("many")
        printf "ours: a find of many / of one, ratio %.2f\n", rate("ours", "one") / rate("ours", "many")
        exit failed
    }' runs
