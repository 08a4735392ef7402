#!/usr/bin/env bash
# How long single UPSERTs take: of the program, and of SQLite's command line with one transaction a statement and full
# syncs, beside what the disk takes for the program's syncs alone. Each run begins in an empty folder, which is removed
# at the end, and reads one script: a new key of 10 bytes and a value of 100 in each statement. All are run in turn, in
# some rounds, and the best time of each is told. A machine that has other work needs more rounds. Then the first 50
# statements at most are done again, each in a run of its own on one folder, which adds the start and the opening.
# The table is KV, which each folder has; or one with an index that covers the value, behind a text of 8 bytes.
# Usage: bench/upserts.sh [UPSERTS [ROUNDS [FOLDER [TABLE]]]]: 1 to 7,000 statements (1,000), rounds (5), the folder on
# whose file system it is done (that of the program's build), and plain (KV) or indexed, of which 5,000 statements fit.
# NIPUHAKO in the environment names another program.
set -eu
upserts=${1:-1000}
rounds=${2:-5}
case ${4:-plain} in
    plain)
        # A record of such a row from its kind to the gate behind it, in bytes (docs/use/FORMAT.md).
        records=168
        # The syncs of a new folder beside its rows: of the catalogue, of the log, and of the names of their files and of the folder.
        first_syncs=9
        most=7000
        ;;
    indexed)
        # The record that marks the index row, that of the row, and the one that verifies.
        records='187 201 53'
        # Those of the catalogue and its three records, and of three logs, as KV has one too.
        first_syncs=23
        most=5000
        ;;
    *) most=0 ;;
esac

fail() {
    echo "upserts.sh: $1" >&2
    exit 2
}
{ [ "$upserts" -ge 1 ] && [ "$upserts" -le "$most" ] && [ "$rounds" -ge 1 ]; } 2>/dev/null ||
    fail '1 to 7,000 statements, or to 5,000 of an indexed table, and at least one round'
top=$(cd "$(dirname "$0")/.." && pwd)
program=${NIPUHAKO:-$top/crates/px_main/out/px_main}
# Proves and builds the program, where that wasn't done yet.
if [ -z "${NIPUHAKO:-}" ]; then
    "$top/nipuhako" run "$top/crates/px_main/out/none" </dev/null
    rm -rf "$top/crates/px_main/out/none"
fi
work=$(mktemp -d "${3:-$(dirname "$program")}/upserts.XXXXXX")
work=$(cd "$work" && pwd)
trap 'rm -rf "$work"' EXIT

# A script: its first words, the words before each row, those after it, and whether there is a text of 8 bytes behind the key.
script() {
    awk -v n="$upserts" -v first="$1" -v before="$2" -v after="$3" -v texts="$texts" 'BEGIN {
        printf "%s", first
        value = sprintf("%0100d", 0)
        for (i = 1; i <= n; i++) {
            text = texts ? sprintf("\047c%07d\047,", i * 7919 % 10000000) : ""
            printf "%s (\047key%07d\047,%s\047%s\047)%s;\n", before, i, text, value, after
        }
    }'
}
if [ "${4:-plain}" = plain ]; then
    texts=0 text='' name=KV own_table=''
    table='CREATE TABLE KV (K TEXT NOT NULL PRIMARY KEY, V TEXT) WITHOUT ROWID;'
    changed='V = excluded.V'
else
    texts=1 text="'c0000000'," name=P
    own_table='CREATE TABLE P (K VARCHAR NOT NULL PRIMARY KEY, C VARCHAR, V VARCHAR); CREATE INDEX BY_C ON P (C) INCLUDE (V);'
    table='CREATE TABLE P (K TEXT NOT NULL PRIMARY KEY, C TEXT, V TEXT) WITHOUT ROWID; CREATE INDEX BY_C ON P (C, V);'
    changed='C = excluded.C, V = excluded.V'
fi
script "$own_table" "UPSERT INTO $name VALUES" '' >"$work/nipuhako.sql"
for mode in DELETE WAL; do
    script "PRAGMA journal_mode=$mode; PRAGMA synchronous=FULL; $table" "INSERT INTO $name VALUES" \
        " ON CONFLICT (K) DO UPDATE SET $changed" >"$work/SQLite-$mode.sql"
done

begin() { rm -rf "$work/run" && mkdir "$work/run" && cd "$work/run" && start=$(date +%s%N); }

# Runs the script of the first word in the folder of `begin`. Further words go before the command.
run() {
    local which=$1 && shift
    case $which in
        nipuhako) "$@" "$program" run "$work/run" ;;
        *) HOME=$work "$@" sqlite3 -batch kv.db ;;
    esac <"$work/$which.sql" >/dev/null
}

# How many rows a run left, to see that it did its work.
rows_left() {
    case $1 in
        nipuhako) echo "SELECT * FROM $name" | "$program" run "$work/run" | awk 'END { print $1 }' ;;
        *) HOME=$work sqlite3 -batch kv.db "SELECT count(*) FROM $name" ;;
    esac
}

declare -A best syncs
# Keeps the time since $start, in nanoseconds, where it is the best of its name.
keep() {
    local took=$(($(date +%s%N) - start))
    if [ "$took" -lt "${best[$1]:-$((took + 1))}" ]; then best[$1]=$took; fi
}

time_of() {
    begin
    run "$1"
    keep "$1"
    [ "$(rows_left "$1")" = "$upserts" ] || fail "$1 didn't keep its rows"
}

# The syncs of as many records alone: each after a record's bytes at the file's end, then each after a byte in place.
time_bare() {
    local record
    begin
    for record in $records; do
        dd if=/dev/zero of="bare$record" bs="$record" count="$upserts" oflag=dsync 2>/dev/null
    done
    keep appends
    start=$(date +%s%N)
    for record in $records; do
        dd if=/dev/zero of="bare$record" bs=1 count="$upserts" conv=notrunc oflag=dsync 2>/dev/null
    done
    keep gates
}

timed=(nipuhako)
if command -v sqlite3 >/dev/null; then timed+=(SQLite-DELETE SQLite-WAL); else
    echo 'SQLite is not there, so the program is timed alone. Debian has it: apt-get install sqlite3'
fi
for ((round = 0; round < rounds; round++)); do
    time_bare
    for which in "${timed[@]}"; do time_of "$which"; done
done
singles=$((upserts < 50 ? upserts : 50))
# One statement in each run, on one folder.
time_singles() {
    local value which=$1 mode=${1#SQLite-}
    value=$(printf '%0100d' 0)
    begin
    case $which in
        nipuhako) echo "$own_table" | "$program" run "$work/run" >/dev/null ;;
        *) HOME=$work sqlite3 -batch kv.db "PRAGMA journal_mode=$mode; $table" >/dev/null ;;
    esac
    start=$(date +%s%N)
    for ((i = 1; i <= singles; i++)); do
        case $which in
            nipuhako) echo "UPSERT INTO $name VALUES ('key$i',$text'$value');" | "$program" run "$work/run" ;;
            *) echo "PRAGMA synchronous=FULL; INSERT INTO $name VALUES ('key$i',$text'$value')
                ON CONFLICT (K) DO UPDATE SET $changed;" | HOME=$work sqlite3 -batch kv.db ;;
        esac >/dev/null
    done
    keep "single $which"
}
for ((round = 0; round < rounds; round++)); do
    for which in "${timed[@]}"; do time_singles "$which"; done
done
counted='by the format, as strace is not there to count them'
records_each=$(wc -w <<<"$records")
syncs[nipuhako]=$((2 * records_each * upserts + first_syncs))
if strace -o /dev/null true 2>/dev/null; then
    counted='counted by strace in one more run'
    for which in "${timed[@]}"; do
        begin
        run "$which" strace -f -c -e trace=fsync,fdatasync -o "$work/calls"
        syncs[$which]=$(awk '$NF ~ /^f(data)?sync$/ { n += $4 } END { print n + 0 }' "$work/calls")
    done
fi

printf '%s processors, load %s, file system %s\n' "$(nproc)" "$(cut -d' ' -f1 /proc/loadavg)" "$(df --output=fstype "$work" | tail -1)"
echo "$upserts UPSERTs in a run, best of $rounds runs; syncs $counted"
for which in "${timed[@]}"; do echo "$which ${best[$which]} ${syncs[$which]:--}"; done |
    awk -v n="$upserts" -v each="$records_each" -v first="$first_syncs" -v appends="${best[appends]}" -v gates="${best[gates]}" '
    NR == 1 {
        own = $2
        all = n * each
        least = (appends * (1 + first / all) + gates) / 1e9
        printf "a bare sync: %.3f ms after a record, %.3f ms after a byte in place\n", appends / all / 1e6, gates / all / 1e6
        printf "the %d syncs that the format asks for take %.3f s by that\n", 2 * all + first, least
        printf "%-13s %9s %7s %11s %14s %15s\n", "", "seconds", "syncs", "per UPSERT", "to bare syncs", "nipuhako to it"
    }
    { printf "%-13s %9.3f %7s %11s %14s %15.2f\n", $1, $2 / 1e9, $3, $3 == "-" ? "-" : sprintf("%.2f", $3 / n),
          NR == 1 ? sprintf("%.2f", $2 / 1e9 / least) : "-", own / $2 }'
for which in "${timed[@]}"; do
    echo "$which ${best["single $which"]}"
done | awk -v n="$singles" '{ printf "%s: %.2f ms a run, of %d runs of one UPSERT each\n", $1, $2 / n / 1e6, n }'
