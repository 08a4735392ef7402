#!/usr/bin/env bash
# Runs the command `verify` of the built program on real folders, and compares what it prints and its exit status with what is written here:
# each kind, names that don't stand, an index that is disabled, index rows that were damaged by hand, and one of 5,000 rows that was built
# while others moved a hundred of them.
# Exit status 0 where all is as it should be.
set -u
cd "$(dirname "$0")/.." || exit 1
work=$(mktemp -d -p /dev/shm 2>/dev/null || mktemp -d)
trap 'rm -rf "$work"' EXIT
program=${NIPUHAKO:-./nipuhako}
. tests/shared/folders.sh

# A folder with two orders and an index; its region is the fifth.
orders() {
    rm -rf "$work/folder"
    "$program" run "$work/folder" >/dev/null <<'SCRIPT'
CREATE TABLE ORDERS (ID BIGINT NOT NULL PRIMARY KEY, CUST VARCHAR, AMT INTEGER, NOTE VARCHAR);
CREATE INDEX BY_CUST ON ORDERS (CUST) INCLUDE (AMT);
UPSERT INTO ORDERS (ID, CUST, AMT) VALUES (1,'bo',5);
UPSERT INTO ORDERS (ID, CUST, AMT) VALUES (2,'al',7);
SCRIPT
}

# $1 is the status, the words after it those behind the folder; standard input is what is to be printed.
verifies() {
    local status=$1
    shift
    prints "$status" '' verify folder "$@"
}

of_orders() {
    local kind=$1
    verifies 0 --table ORDERS --index BY_CUST --kind "$kind"
}

# Writes these bytes in place of those, in hexadecimal, wherever they stand in the index's log.
damage() {
    python3 - "$work/folder/0000000500000000.px" "$1" "$2" <<'PYTHON'
import sys
path, old, new = sys.argv[1], bytes.fromhex(sys.argv[2]), bytes.fromhex(sys.argv[3])
with open(path, 'rb') as file:
    text = file.read()
assert old in text
with open(path, 'wb') as file:
    file.write(text.replace(old, new))
PYTHON
}

title='each kind'
orders
echo rebuilt | of_orders NONE
report 2 0 0 0 0 | of_orders ONLY
{ report 2 0 0 0 0; echo rebuilt; } | of_orders BEFORE
{ echo rebuilt; report 2 0 0 0 0; } | of_orders AFTER
{ report 2 0 0 0 0; echo rebuilt; report 2 0 0 0 0; } | of_orders BOTH

title='names that do not stand'
echo 'E09 no such index: NONE_SUCH' | verifies 1 --kind=ONLY --index NONE_SUCH --table ORDERS
echo 'E05 no such table: orders' | verifies 1 --kind NONE --index BY_CUST --table orders

title='words that are no command'
printf '' | verifies 2 --table ORDERS --index BY_CUST --kind SOME
printf '' | verifies 2 --table ORDERS --kind ONLY

title='an index that is disabled'
orders
echo "ALTER INDEX BY_CUST ON ORDERS DISABLE" | "$program" run "$work/folder" >/dev/null
report 0 0 2 0 0 | of_orders ONLY
{ report 0 0 2 0 0; echo rebuilt; report 2 0 0 0 0; } | of_orders BOTH

title='an index row with another value'
orders
damage 80000005 80000006
report 1 0 0 0 1 | of_orders ONLY
{ report 1 0 0 0 1; echo rebuilt; report 2 0 0 0 0; } | of_orders BOTH

title='an index row at another key'
orders
damage 626f00 627000
report 1 0 1 1 0 | of_orders ONLY
{ report 1 0 1 1 0; echo rebuilt; } | of_orders BEFORE
report 2 0 0 0 0 | of_orders ONLY

title='an index row that stands unverified'
orders
damage 040001010102 040001020102
report 1 1 0 0 0 | of_orders ONLY
{ echo rebuilt; report 2 0 0 0 0; } | of_orders AFTER

title='an index that is built while rows move'
rm -rf "$work/folder"
{
    echo 'CREATE TABLE ORDERS (ID BIGINT NOT NULL PRIMARY KEY, CUST VARCHAR, AMT INTEGER, NOTE VARCHAR);'
    echo '!autocommit off'
    for row in $(seq 5000); do
        echo "UPSERT INTO ORDERS (ID, CUST, AMT) VALUES ($row, 'c$((row % 100))', $row);"
        [ $((row % 1000)) = 0 ] && echo '!commit'
    done
    echo '---'
    echo 'CREATE INDEX BY_CUST ON ORDERS (CUST) INCLUDE (AMT);'
    for row in $(seq 100); do
        echo "@2 UPSERT INTO ORDERS (ID, CUST) VALUES ($row, 'x');"
    done
} | "$program" run "$work/folder" >/dev/null
report 5000 0 0 0 0 | of_orders ONLY

[ "$wrong" = 0 ] && echo "the command verify: all as it should be"
exit "$wrong"
