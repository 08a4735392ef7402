#!/usr/bin/env bash
# How much memory a run takes: for each UPSERT of 35 bytes into a row of its own, for each piece that is no statement, for the rows of a
# SELECT beside its printed bytes, and for the rows of eight tables of a folder that is opened, beside the bytes of the same rows in flushed files. The
# greatest resident memory of each run is what the system counts.
# Usage: bench/memory.sh [UPSERTS [PIECES [ROWS]]] (8000, 1000000, 8000)
# A region holds 8,192 such rows until flushes come. It needs GNU time as /usr/bin/time.
set -eu
top=$(cd "$(dirname "$0")/.." && pwd)
program=${NIPUHAKO:-$top/crates/px_main/out/px_main}
# Proves and builds the program, where that wasn't done yet.
[ -n "${NIPUHAKO:-}" ] || "$top/nipuhako" run "$top/crates/px_main/out/none" </dev/null
exec python3 - "$program" "${1:-8000}" "${2:-1000000}" "${3:-8000}" <<'PY'
import os, subprocess, sys, tempfile

program, upserts, pieces, rows = sys.argv[1], *map(int, sys.argv[2:])
work = tempfile.mkdtemp(dir="/dev/shm" if os.path.isdir("/dev/shm") else None)


def run(folder, script):
    """The greatest resident memory of a run in bytes, and what it printed."""
    with open(work + "/script", "w") as file:
        file.write(script)
    # The system counts what a process had before it began the program, too. So the program is begun by time(1), which is small, and not by python.
    with open(work + "/script") as source, open(work + "/printed", "w") as sink:
        subprocess.call(["/usr/bin/time", "-f", "%M", "-o", work + "/most", program, "run", folder], stdin=source, stdout=sink)
    with open(work + "/most") as file:
        most = int(file.read().split()[-1]) * 1024
    return most, os.path.getsize(work + "/printed")


try:
    none, _ = run(work + "/none", "")
    script = "".join(f"UPSERT INTO KV VALUES('k{i:05}','v');" for i in range(upserts))
    most, printed = run(work + "/upserts", script)
    print(f"{upserts} UPSERTs of 35 bytes: {(most - none) / upserts:.0f} bytes each, of which {(len(script) + printed) / upserts:.0f} are its own and its reply's")
    script = "X;" * pieces
    most, printed = run(work + "/pieces", script)
    print(f"{pieces} pieces X; : {(most - none) / pieces:.0f} bytes each, of which {(len(script) + printed) / pieces:.0f} are its own and its reply's")
    folder = work + "/rows"
    run(folder, "".join(f"UPSERT INTO KV VALUES('k{i:05}','v');" for i in range(rows)))
    # What the opening took is free again, so some SELECTs are compared with more of them.
    some, printed = run(folder, "SELECT * FROM KV;" * 50)
    most, printed_by_most = run(folder, "SELECT * FROM KV;" * 150)
    printed = (printed_by_most - printed) // 100
    held = (most - some) // 100 - printed
    print(f"a SELECT of {rows} rows: {held} bytes for its rows, {held / printed:.2f} times the {printed} that it prints")
    folder, flushed = work + "/tables", work + "/flushed"
    tables = "".join(f"CREATE TABLE T{t} (K BIGINT NOT NULL PRIMARY KEY, V INTEGER);" for t in range(8))
    run(folder, tables + "".join(f"UPSERT INTO T{t} VALUES ({k}, {k % 1000});" for k in range(rows) for t in range(8)))
    run(flushed, tables + "".join(f"UPSERT INTO T{t} VALUES ({k}, {k % 1000});" for k in range(rows) for t in range(8)) + "\n!flush\n")
    most, _ = run(folder, "")
    # What the flush made are the files of rows.
    files = sum(os.path.getsize(f"{flushed}/{name}") for name in set(os.listdir(flushed)) - set(os.listdir(folder)))
    held = most - none
    print(f"eight tables of {rows} rows, opened: {held / (16 * rows):.0f} bytes a cell, {held / files:.2f} times the {files / (16 * rows):.1f} bytes of a cell in a flushed file")
finally:
    subprocess.call(["rm", "-rf", work])
PY
