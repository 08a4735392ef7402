#!/usr/bin/env bash
# Damages the flushed files of copies of a folder, so that each still opens soundly, and compares what the built program prints of it, and its exit
# status, with what is written here. An index row is left out, the status of one is turned to unverified, a covered value is another one, a row of the
# table is left out, and all of these at once: `verify` with ONLY counts what was done, AFTER repairs it, then ONLY finds nothing, and a query through
# the index gives the row again. A status is also repaired by the query that meets it.
# The files are read and written again as docs/use/FORMAT.md has them: blocks, their index, the footer, and what the manifest tells of a file.
# Exit status 0 where all is as it should be.
set -u
cd "$(dirname "$0")/.." || exit 1
work=$(mktemp -d -p /dev/shm 2>/dev/null || mktemp -d)
trap 'rm -rf "$work"' EXIT
program=${NIPUHAKO:-./nipuhako}
. tests/shared/folders.sh
rows=3000

# The region of the table's rows and that of the index, in a folder in which both are the first ones behind KV.
table=3
index=5

verifies() {
    prints 0 '' verify folder --table ORDERS --index BY_CUST --kind "$1"
}

# Asks for the row $1 through the index; the words after it are what is to be printed before the count.
row_is() {
    local query
    query="SELECT /*+ INDEX(ORDERS BY_CUST) */ ID, CUST, AMT FROM ORDERS WHERE CUST = 'c$(($1 % 100))' AND ID = $1;"
    shift
    if [ $# = 0 ]; then
        echo '0 rows selected' | prints 0 "$query" run folder
    else
        printf '%s\n1 row selected\n' "$1" | prints 0 "$query" run folder
    fi
}

# A fresh copy of the folder.
copied() {
    rm -rf "$work/folder"
    cp -r "$work/sound" "$work/folder"
}

# $1 is a region, $2 what is done to its flushed files, and the words after it the numbers of the rows that it is done to: `leave` leaves their cells
# out, and QUALIFIER:OLD:NEW changes the value of the one cell with this qualifier, from OLD to NEW in hexadecimal.
damage() {
    python3 - "$work/folder" "$index" "$@" <<'PYTHON' || { echo "WRONG: $title: the files can't be damaged"; wrong=1; }
import os, struct, sys

folder, index, region, deed = sys.argv[1], int(sys.argv[2]), int(sys.argv[3]), sys.argv[4]


def key(row):
    """The key of a row in the region: of the table it is the BIGINT, of the index it has the customer and the end of a text before that."""
    number = struct.pack(">Q", row + 2 ** 63)
    return b"c%d\0" % (row % 100) + number if region == index else number


def path(number):
    return f"{folder}/{(region << 32) + number:016x}.px"


def bytes_of(number):
    with open(path(number), "rb") as file:
        return file.read()


def cells_of(text):
    """The cells of a file of cells: the row key, the qualifier, the stamp, the kind and the value of each."""
    assert text[:8] == b"PHXFIL01" and text[-4:] == b"PXF1"
    at, blocks, count, _ = struct.unpack(">QIQQ", text[-32:-4])
    cells = []
    for _ in range(blocks):
        place, _, length = struct.unpack_from(">QIH", text, at)
        at += 14 + length
        many, = struct.unpack_from(">I", text, place)
        place += 4
        for _ in range(many):
            length, = struct.unpack_from(">H", text, place)
            name = text[place + 2:place + 2 + length]
            place += 2 + length
            qualifier, stamp, kind, length = struct.unpack_from(">BQBH", text, place)
            cells.append((name, qualifier, stamp, kind, text[place + 12:place + 12 + length]))
            place += 12 + length
    assert len(cells) == count
    return cells


def file_of(cells):
    """The bytes of the file that has these cells, of which there is one at least."""
    blocks = [[]]
    for cell in cells:
        if sum(map(len, blocks[-1])) >= 32768:
            blocks.append([])
        name, qualifier, stamp, kind, value = cell
        blocks[-1].append(struct.pack(">H", len(name)) + name + struct.pack(">BQBH", qualifier, stamp, kind, len(value)) + value)
    text, entries, first = b"PHXFIL01", b"", 0
    for block in blocks:
        body = struct.pack(">I", len(block)) + b"".join(block)
        name = cells[first][0]
        entries += struct.pack(">QIH", len(text), len(body), len(name)) + name
        text += body
        first += len(block)
    footer = struct.pack(">QIQQ", len(text), len(blocks), len(cells), max(cell[2] for cell in cells))
    return text + entries + footer + b"PXF1"


def newest_record():
    """Which file of the manifest counts, its bytes, and the place of the body of its last record."""
    texts = {number: bytes_of(number) for number in (2, 3) if os.path.exists(path(number))}
    texts = {number: text for number, text in texts.items() if len(text) >= 17 and text[0] == 1}
    number = max(texts, key=lambda number: texts[number][8:16])
    text = texts[number]
    body, at = None, 16
    while text[at] == 1:
        body = at + 6
        at = body + struct.unpack_from(">I", text, at + 2)[0]
    return number, bytearray(text), body


wanted = {key(int(row)): 0 for row in sys.argv[5:]}
manifest, record, body = newest_record()
stamps = []
for entry in range(body + 26, body + 26 + 20 * record[body + 25], 20):
    number, length, _ = struct.unpack_from(">IQQ", record, entry)
    text = bytes_of(number)[:length]
    cells = cells_of(text)
    assert file_of(cells) == text, "a file of cells isn't written as it was"
    left = []
    for cell in cells:
        name, qualifier, stamp, kind, value = cell
        if name in wanted and deed == "leave":
            wanted[name] = 1
            continue
        if name in wanted and str(qualifier) == deed.split(":")[0]:
            assert value.hex() == deed.split(":")[1]
            cell = (name, qualifier, stamp, kind, bytes.fromhex(deed.split(":")[2]))
            wanted[name] += 1
        left.append(cell)
    text = file_of(left)
    stamps.append(max(cell[2] for cell in left))
    with open(path(number), "wb") as file:
        file.write(text)
    struct.pack_into(">QQ", record, entry + 4, len(text), len(left))
assert set(wanted.values()) == {1}, "not each row was there once"
struct.pack_into(">Q", record, body + 16, max(stamps))
with open(path(manifest), "wb") as file:
    file.write(record)
PYTHON
}

# A folder whose table and index were flushed twice, so that each has two files of some blocks.
title='the folder'
{
    echo 'CREATE TABLE ORDERS (ID BIGINT NOT NULL PRIMARY KEY, CUST VARCHAR, AMT INTEGER, NOTE VARCHAR);'
    echo 'CREATE INDEX BY_CUST ON ORDERS (CUST) INCLUDE (AMT);'
    echo '!autocommit off'
    for row in $(seq "$rows"); do
        echo "UPSERT INTO ORDERS (ID, CUST, AMT) VALUES ($row, 'c$((row % 100))', $row);"
        [ $((row % 500)) = 0 ] && echo '!commit'
        [ $((row % 2000)) = 0 ] && echo '!flush'
    done
    echo '!flush'
} | "$program" run "$work/sound" >/dev/null
copied
report "$rows" 0 0 0 0 | verifies ONLY
row_is 1517 "1517, 'c17', 1517"
printf 'SCAN INDEX BY_CUST OF ORDERS\nKEY EQUAL 2 RANGE 0\n' |
    prints 0 "EXPLAIN SELECT /*+ INDEX(ORDERS BY_CUST) */ ID, CUST, AMT FROM ORDERS WHERE CUST = 'c17' AND ID = 1517;" run folder

title='files that are written again as they were'
damage "$index" 1:01:01 1517
diff -r "$work/sound" "$work/folder" || wrong=1

title='an index row that is left out'
copied
damage "$index" leave 1517
report 2999 0 1 0 0 | verifies ONLY
row_is 1517
report 2999 0 1 0 0 | verifies ONLY
{ echo rebuilt; report 3000 0 0 0 0; } | verifies AFTER
report 3000 0 0 0 0 | verifies ONLY
row_is 1517 "1517, 'c17', 1517"

title='the status of an index row'
copied
damage "$index" 1:01:02 2203
report 2999 1 0 0 0 | verifies ONLY
{ echo rebuilt; report 3000 0 0 0 0; } | verifies AFTER
report 3000 0 0 0 0 | verifies ONLY
row_is 2203 "2203, 'c3', 2203"

title='the status of an index row, and a query that meets it'
copied
damage "$index" 1:01:02 2203
row_is 2203 "2203, 'c3', 2203"
report 3000 0 0 0 0 | verifies ONLY

title='an index row with another value'
copied
damage "$index" 4:80000005:80000006 5
report 2999 0 0 0 1 | verifies ONLY
row_is 5 "5, 'c5', 6"
{ report 2999 0 0 0 1; echo rebuilt; report 3000 0 0 0 0; } | verifies BOTH
row_is 5 "5, 'c5', 5"

title='an index row of no row'
copied
damage "$table" leave 2999
report 2999 0 0 1 0 | verifies ONLY
{ echo rebuilt; report 2999 0 0 0 0; } | verifies AFTER
report 2999 0 0 0 0 | verifies ONLY
row_is 2999

title='all at once'
copied
damage "$index" leave 1 1000 2500
damage "$index" 1:01:02 700 2001
damage "$index" 4:80000005:80000006 5
damage "$table" leave 1999
report 2993 2 3 1 1 | verifies ONLY
{ echo rebuilt; report 2999 0 0 0 0; } | verifies AFTER
report 2999 0 0 0 0 | verifies ONLY
for row in 1 1000 2500 700 2001 5; do
    row_is "$row" "$row, 'c$((row % 100))', $row"
done
row_is 1999

[ "$wrong" = 0 ] && echo "damaged folders and the command verify: all as it should be"
exit "$wrong"
