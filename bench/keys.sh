#!/usr/bin/env bash
# How many keys a second are written and read: of a short text and a number, and of a text of 900 bytes and a number, in
# either direction. Usage: bench/keys.sh [KEYS], how many short keys are written; of the long ones it is a tenth.
set -eu
keys=${1:-2000000}
cd "$(dirname "$0")/../crates/px_bench_keys"
# Proves and builds the program, where that wasn't done yet.
echo "keys.sh: proving and building first, which takes some minutes where it wasn't done yet" >&2
rt run >/dev/null
printf '%s processors\n' "$(nproc)"
long=$(printf 'x%.0s' $(seq 900))
for direction in asc desc; do
    printf '%s: ' "$direction"
    ./out/px_bench_keys "$keys" "$direction" 'customer of the north'
    printf '%s: ' "$direction"
    ./out/px_bench_keys "$((keys / 10))" "$direction" "$long"
done
