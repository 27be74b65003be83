#!/usr/bin/env bash
# Times an empty turn under the turn lock beside Rust's Mutex, by one, two and four threads. Prints the nanoseconds of a turn, the
# fastest of some rounds, in which both take turns. Needs `rt`, `rustc` and four processors. Usage: bench/lock/run.sh [rounds]
set -euo pipefail
here=$(cd "$(dirname "$0")" && pwd)
exec "$here/../beside.sh" lock mutex.rs Mutex 400000 "${1:-3}" turn_lock
