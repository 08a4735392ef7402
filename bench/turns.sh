#!/usr/bin/env bash
# How long a turn takes under the turn lock, beside std's mutex, with 1, 2, 8 and 32 seats, and beside a device sync.
# Each thread takes as many turns, and leaves a mark of 8 bytes in each. `least` and `most` are the turns of a seat
# while all of them took turns. Usage: bench/turns.sh [TURNS], the turns of all seats together.
set -eu
turns=${1:-400000}
cd "$(dirname "$0")/../crates/px_bench_turn"
# Proves and builds the program, where that wasn't done yet.
echo "turns.sh: proving and building first, which takes some minutes where it wasn't done yet" >&2
rt run >/dev/null
printf '%s processors\n' "$(nproc)"
for which in turn mutex; do
    printf '%s:\n' "$which"
    for seats in 1 2 8 32; do
        ./out/px_bench_turn "$which" "$seats" "$((turns / seats))"
    done
done
file=$(mktemp ./out/sync.XXXXXX)
trap 'rm -f "$file"' EXIT
start=$(date +%s%N)
dd if=/dev/zero of="$file" bs=4096 count=200 oflag=dsync 2>/dev/null
end=$(date +%s%N)
printf 'device: %s syncs a second, each after 4,096 bytes\n' "$((200000000000 / (end - start)))"
