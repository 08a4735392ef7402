#!/usr/bin/env bash
# How many base versions of an index are made a second, on one processor, on two and so on, up to as many as there are: the part of a build that is
# outside the server's turn. The best of some runs each. Usage: bench/making.sh [ROWS [ROUNDS]]: rows (200,000) and rounds (5).
set -eu
rows=${1:-200000} rounds=${2:-5}
cd "$(dirname "$0")/../crates/px_bench_builds"
# Proves and builds the program, where that wasn't done yet.
echo "making.sh: proving and building first, which takes some minutes where it wasn't done yet" >&2
rt run >/dev/null
for ((count = 1; count <= $(nproc); count++)); do
    best=0
    for ((round = 0; round < rounds; round++)); do
        rate=$(taskset -c "0-$((count - 1))" ./out/px_bench_builds "$rows" 2>&1 >/dev/null | awk '{ print $NF }')
        ((rate > best)) && best=$rate
    done
    printf '%s processors: %s base versions a second\n' "$count" "$best"
done
