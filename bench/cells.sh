#!/usr/bin/env bash
# How many cells a second the store in memory puts, a point sees, a horizon keeps, and the merged list gives of 2, 8 and
# 64 sources, how many changes of one row, and how many cells it puts in batches of 300 that lie all over it. Six cells a row, three in batches. Usage: bench/cells.sh [ROWS].
set -eu
rows=${1:-200000}
cd "$(dirname "$0")/../crates/px_bench_cells"
# Proves and builds the program, where that wasn't done yet.
echo "cells.sh: proving and building first, which takes some minutes where it wasn't done yet" >&2
rt run >/dev/null
printf '%s processors\n' "$(nproc)"
./out/px_bench_cells "$rows" 2>&1
