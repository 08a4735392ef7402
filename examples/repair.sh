#!/usr/bin/env bash
# What a stop in the middle of a change leaves, and how a query repairs it. A change to a table with an index has three phases: the new
# index rows are written as unverified and the old ones marked so, then the row is written, then the index rows are verified. Here the power
# fails behind the first phase: the script puts the bytes of the folder back to what was on the disk then.
# Usage: examples/repair.sh FOLDER, which isn't there yet.
set -eu
program=$(dirname "$0")/../nipuhako
folder=$1

# The logs of the table's rows and of the index.
rows=$folder/0000000300000000.px
index=$folder/0000000500000000.px

read_both() {
    "$program" run "$folder" <<'END'
SELECT ID, CUST, AMT FROM ORDERS WHERE CUST = 'bo';
SELECT ID, CUST, AMT FROM ORDERS WHERE CUST = 'zed';
END
}

"$program" run "$folder" <<'END'
CREATE TABLE ORDERS (ID BIGINT NOT NULL PRIMARY KEY, CUST VARCHAR, AMT INTEGER, NOTE VARCHAR);
CREATE INDEX BY_CUST ON ORDERS (CUST) INCLUDE (AMT);
UPSERT INTO ORDERS (ID, CUST, AMT) VALUES (1, 'bo', 5);
UPSERT INTO ORDERS (ID, CUST, AMT) VALUES (2, 'al', 7);
EXPLAIN SELECT ID, CUST, AMT FROM ORDERS WHERE CUST = 'bo';
END
before=$(mktemp)
trap 'rm -f "$before"' EXIT
cat "$rows" >"$before"
# A log ends with the closed gate of its next record: one byte.
gate=$(($(stat -c %s "$index") - 1))

echo "-- Order 1 moves from bo to zed."
echo "UPSERT INTO ORDERS (ID, CUST) VALUES (1, 'zed');" | "$program" run "$folder"

echo "-- The power fails behind the first phase of that: of the index's two records the first stays, and of the row's none."
cat "$before" >"$rows"
length=$(od -An -tu4 --endian=big -j $((gate + 2)) -N 4 "$index")
gate=$((gate + 6 + length))
printf '\0' | dd of="$index" bs=1 seek="$gate" conv=notrunc 2>/dev/null
truncate -s $((gate + 1)) "$index"

echo "-- The change isn't there, by neither key. The query asks the row, and mends what it found unverified in the index."
bytes=$(stat -c %s "$index")
read_both
[ "$(stat -c %s "$index")" -gt "$bytes" ] && echo "-- It wrote to the index's log."

echo "-- The next query finds all of it verified, and writes nothing."
bytes=$(stat -c %s "$index")
read_both
[ "$(stat -c %s "$index")" = "$bytes" ] && echo "-- It wrote nothing."
