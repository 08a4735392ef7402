#!/usr/bin/env bash
# A table and its index as they were at a time of day. Each change has a stamp, which is the time in milliseconds since 1970, or one more
# than the last stamp where that is later; `!scn N` reads what was there before stamp N.
# Usage: examples/history.sh FOLDER, which isn't there yet.
set -eu
program=$(dirname "$0")/../nipuhako
folder=$1

# The time, which is later than all changes before and earlier than all behind it.
now() {
    sleep 0.02
    date +%s%3N
    sleep 0.02
}

"$program" run "$folder" <<'END'
CREATE TABLE PRICES (SKU VARCHAR NOT NULL PRIMARY KEY, SHELF VARCHAR, PRICE INTEGER);
CREATE INDEX BY_SHELF ON PRICES (SHELF) INCLUDE (PRICE);
UPSERT INTO PRICES VALUES ('nut', 'a', 5);
UPSERT INTO PRICES VALUES ('bolt', 'b', 12);
END
monday=$(now)
"$program" run "$folder" <<'END'
UPSERT INTO PRICES (SKU, PRICE) VALUES ('nut', 6);
UPSERT INTO PRICES (SKU, SHELF) VALUES ('bolt', 'a');
UPSERT INTO PRICES VALUES ('washer', 'a', 3);
END
tuesday=$(now)
echo "DELETE FROM PRICES WHERE PRICE > 3;" | "$program" run "$folder"

for when in "$monday" "$tuesday" off; do
    echo "--"
    "$program" run "$folder" <<END | tail -n +2
!scn $when
SELECT * FROM PRICES;
SELECT SKU, PRICE FROM PRICES WHERE SHELF = 'a';
END
done
