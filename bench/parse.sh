#!/usr/bin/env bash
# Times the parser beside the lexer on three statements of about 1 MiB: an IN list, a chain of ORs, and a CREATE TABLE of many
# NOT NULL columns which its CONSTRAINT names. Parsing lexes too. Usage: bench/parse.sh [RUNS], of which the least times count.
set -eu
runs=${1:-20}
cd "$(dirname "$0")/../crates/px_bench_parse"
# Proves and builds the program, where that wasn't done yet.
echo "parse.sh: proving and building first, which takes some minutes where it wasn't done yet" >&2
rt run >/dev/null
printf '%s processors, load %s\n' "$(nproc)" "$(cut -d' ' -f1 /proc/loadavg)"
./out/px_bench_parse "$runs"
