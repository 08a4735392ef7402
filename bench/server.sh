#!/usr/bin/env bash
# How many rows a second the steps of batches pass, without SQL and without a device: 100 rows a batch, of a table with one index, on a disk in
# memory and on one processor. Each row of the table is new, and then changed; the share of each step of the time is told. A round has
# 2,000 rows of each kind, in a new folder; the best one of each kind is told. Usage: bench/server.sh [ROUNDS] (100)
set -eu
cd "$(dirname "$0")/../crates/px_bench_steps"
# Proves and builds the program by LLVM, where that wasn't done yet.
echo "server.sh: proving and building first, which takes some minutes where it wasn't done yet" >&2
rt run >/dev/null
printf '%s processors, load %s\n' "$(nproc)" "$(cut -d' ' -f1 /proc/loadavg)"
exec taskset -c 0 ./out/px_bench_steps "${1:-100}"
