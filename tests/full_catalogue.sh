#!/usr/bin/env bash
# A full catalogue is renewed. The built program makes and drops a wide table; the two records are written again behind them, with the next
# numbers, until the segment is nearly full or full. A script of definitions then goes on: each statement is answered, the newest segment is
# another one, and a further run finds what stands. Made by the program alone, so many definitions would take minutes on a disk that syncs.
# Usage: tests/full_catalogue.sh. Exit status 0 where all is as it should be.
set -eu
top=$(cd "$(dirname "$0")/.." && pwd)
# The folder stands in memory where that can be had: what a real disk does is tried by other tests.
work=$(mktemp -d -p /dev/shm 2>/dev/null || mktemp -d)
trap 'rm -rf "$work"' EXIT
python3 - "$top/nipuhako" "$work" <<'PY'
import os
import struct
import subprocess
import sys

program, work = sys.argv[1:3]
SEGMENT = 67_108_864
FULL_BELOW = 32_768
TABLE_IS, TABLE_GONE = 2, 4
COLUMNS = ", ".join(f"C{i:02}{'X' * 125} VARCHAR" for i in range(63))
WIDE = f"CREATE TABLE T (ID{'X' * 126} BIGINT PRIMARY KEY, {COLUMNS});\n"
wrong = 0


def expect(name, wanted, found):
    global wrong
    if wanted == found:
        print(f"ok: {name}")
    else:
        wrong = 1
        print(f"WRONG: {name}: {found!r}; wanted {wanted!r}")


def run(folder, script):
    """The lines that a run of the script prints, and its status."""
    done = subprocess.run([program, "run", f"{work}/{folder}"], input=script.encode(), stdout=subprocess.PIPE, timeout=120)
    return [*done.stdout.decode().splitlines(), done.returncode]


def newest(folder):
    """The path of the catalogue's newest segment, its generation, its records as pairs of kind and body, and where its last gate stands."""
    segments = []
    for number in range(2):
        path = f"{work}/{folder}/{number:016x}.px"
        data = open(path, "rb").read() if os.path.exists(path) else b""
        if len(data) > SEGMENT:
            sys.exit(f"WRONG: {path} has {len(data)} bytes")
        if len(data) >= 17 and data[0] == 1:
            segments.append((int.from_bytes(data[8:16], "big"), path, data))
    generation, path, data = max(segments)
    records, at = [], 16
    while data[at] == 1:
        kind, length = struct.unpack_from(">BI", data, at + 1)
        records.append((kind, data[at + 6:at + 6 + length]))
        at += 6 + length
    return path, generation, records, at


def fill(folder, left):
    """Adds definitions until the next one would leave fewer bytes; answers how many are left."""
    path, _, records, end = newest(folder)
    (table, made), (gone, _) = records[-2:]
    assert (table, gone) == (TABLE_IS, TABLE_GONE) and made[-2:] == b"\0\0"
    number = int.from_bytes(made[:4], "big")
    more = bytearray()
    while True:
        number += 2
        # The number of the table comes first; its region, with an empty least key, last.
        body = struct.pack(">I", number) + made[4:-6] + struct.pack(">IH", number - 1, 0)
        pair = struct.pack(">BBI", 1, TABLE_IS, len(body)) + body + struct.pack(">BBII", 1, TABLE_GONE, 4, number)
        if end + len(more) + len(pair) > SEGMENT - left:
            break
        more += pair
    with open(path, "r+b") as file:
        file.seek(end)
        file.write(more + b"\0")
    return SEGMENT - end - len(more)


def begin(folder, left):
    script = "CREATE TABLE S (ID BIGINT PRIMARY KEY, V VARCHAR);CREATE INDEX I ON S (V);UPSERT INTO S VALUES (7, 'a');" + WIDE + "DROP TABLE T"
    expect(f"{folder}: begun", ["table created", "index created", "1 row affected", "table created", "table dropped", 0], run(folder, script))
    return fill(folder, left)


FOUND = ["1 row affected", "7, 'a'", "8, 'b'", "2 rows selected", "1, 'c'", "1 row selected", 0]
FIND = "UPSERT INTO S VALUES (8, 'b');SELECT * FROM S;SELECT * FROM KEPT;"

# Nearly full: definitions fill it, and go on.
room = begin("nearly", 400_000)
expect("nearly: it isn't full yet", True, room >= 400_000)
pairs = room // len(WIDE) + 20
kept = "CREATE TABLE KEPT (A BIGINT PRIMARY KEY, B VARCHAR);UPSERT INTO KEPT VALUES (1, 'c')"
created = ["table created", "table dropped"] * pairs + ["table created", "1 row affected", 0]
expect("nearly: each statement is answered", created, run("nearly", (WIDE + "DROP TABLE T;\n") * pairs + kept))
_, generation, records, end = newest("nearly")
expect("nearly: it is renewed once", 2, generation)
expect("nearly: a snapshot and what came later", (1, True), (records[0][0], end < 400_000))
expect("nearly: a further run finds what stands", FOUND, run("nearly", FIND))

# Full when it is opened: by the first definition, of whatever kind, it is renewed; others wait for it in a round.
room = begin("full", 16_000)
expect("full: it is", True, room < FULL_BELOW)
expect("full: a refused definition is told", ["E03 name exists: S", 1], run("full", "CREATE TABLE S (A BIGINT PRIMARY KEY)"))
expect("full: nothing is renewed for it", 1, newest("full")[1])
round_of = "".join(f"@{i} CREATE TABLE R{i} (A BIGINT PRIMARY KEY);\n" for i in range(2, 9)) + "---\n"
answered = [line for i in range(2, 9) for line in (f"@{i}", "table created")]
expect("full: sessions of a round are answered", [*answered, "table created", "1 row affected", 0], run("full", round_of + kept))
expect("full: it is renewed once", 2, newest("full")[1])
expect("full: a further run finds what stands", FOUND, run("full", FIND))
more = "DROP INDEX I ON S;DROP TABLE R2;CREATE TABLE T (A BIGINT PRIMARY KEY)"
expect("full: definitions go on", ["index dropped", "table dropped", "table created", 0], run("full", more))
sys.exit(wrong)
PY
