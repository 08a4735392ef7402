#!/usr/bin/env bash
# Runs the command `load` of the built program on real folders: the load of one row, and the same again, which is refused; and one of 20,000 rows,
# twice, of which what is told, and the rows that queries of both ways give afterwards, are compared with a plain map that is filled by the same
# numbers. Exit status 0 where all is as it should be.
set -u
cd "$(dirname "$0")/.." || exit 1
work=$(mktemp -d -p /dev/shm 2>/dev/null || mktemp -d)
trap 'rm -rf "$work"' EXIT
program=${NIPUHAKO:-./nipuhako}
. tests/shared/folders.sh
title='a load'

# $1 is the status, $2 the folder, the words after it those behind the folder; standard input is what is to be printed.
loads() {
    local status=$1
    shift
    prints "$status" '' load "$@"
}

# What a load of the number $1 with $2 rows tells, and with `rows` behind them its rows as a query gives them.
map() {
    python3 - "$@" <<'PYTHON'
import sys
number, count = int(sys.argv[1]), int(sys.argv[2])
state, rows = number, {}

def draw():
    global state
    state = (state * 6364136223846793005 + 1442695040888963407) % 2 ** 64
    return state >> 33

for _ in range(count):
    key, group, amount = draw() % count, draw() % 50, draw() % 1000
    rows[key] = ("G%d" % group, amount)
if sys.argv[3:] == ["rows"]:
    for key in sorted(rows):
        print("%d, '%s', %d" % (key, *rows[key]))
else:
    print("load %d rows %d" % (number, count))
    print("table rows %d" % len(rows))
    print("index rows %d" % len(rows))
    print("amount %d" % sum(amount for _, amount in rows.values()))
PYTHON
}

# The rows of a folder's load by the way that a hint names, in the order of their keys.
rows_by() {
    echo "SELECT /*+ $2 */ ID, GRP, AMT FROM LOAD ORDER BY ID" | "$program" run "$work/$1" | sed '$d'
}

printf 'load 0 rows 1\ntable rows 1\nindex rows 1\namount 937\n' | loads 0 one --number 0 --rows 1
echo 'E03 name exists: LOAD' | loads 1 one --number 0 --rows 1
echo "0, 'G24', 937" >"$work/want"
rows_by one NO_INDEX >"$work/got"
same 'the row of the first load' "$work/want" "$work/got"
map 18446744073709551615 101 | loads 0 greatest --rows=101 --number=18446744073709551615

for words in '--number 0' '--rows 1' '--number 0 --rows 0' '--number 0 --rows 100001' '--number +0 --rows 1' '--number 0 --rows 1 --rows 1' \
    '--number 18446744073709551616 --rows 1' '--number 0 --rows 1 --kind ONLY' '--number 0x1 --rows 1'; do
    # shellcheck disable=SC2086
    printf '' | loads 2 none $words
done
[ -e "$work/none" ] && { echo 'WRONG: a folder was made for bad words'; wrong=1; }

for folder in first second; do
    map 7 20000 | loads 0 "$folder" --number 7 --rows 20000
done
map 7 20000 rows >"$work/want"
rows_by first NO_INDEX >"$work/by_table"
rows_by first 'INDEX(LOAD LOAD_GRP)' >"$work/by_index"
rows_by second NO_INDEX >"$work/by_second"
same 'the rows by the table' "$work/want" "$work/by_table"
same 'the rows by the index' "$work/want" "$work/by_index"
same 'the rows of the second folder' "$work/want" "$work/by_second"
report "$(wc -l <"$work/want")" 0 0 0 0 >"$work/report"
"$program" verify "$work/first" --table LOAD --index LOAD_GRP --kind ONLY >"$work/out"
same 'the report on the index' "$work/report" "$work/out"

[ "$wrong" = 0 ] && echo "the command load: all as it should be"
exit "$wrong"
