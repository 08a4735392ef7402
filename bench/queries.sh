#!/usr/bin/env bash
# How long whole scripts take beside SQLite's command line, which does the same on the same file system (WAL, full syncs, one transaction a
# statement): rows of eight tables put in and read back, look-ups by key and through a covering index, ranges, scans, UPSERTs that keep an
# index, many changes of one row, and the opening of a long log. All are run in turn, in some rounds, and the best time of each is told;
# that of an empty script on the same folder is told beside. What both print is counted.
# Usage: bench/queries.sh [ROUNDS [FOLDER]]: rounds (3), and the folder on whose file system it is done (/dev/shm, where a sync costs nothing)
set -eu
top=$(cd "$(dirname "$0")/.." && pwd)
program=${NIPUHAKO:-$top/crates/px_main/out/px_main}
# Proves and builds the program, where that wasn't done yet.
[ -n "${NIPUHAKO:-}" ] || "$top/nipuhako" run "$top/crates/px_main/out/none" </dev/null
rm -rf "$top/crates/px_main/out/none"
exec python3 - "$program" "${1:-3}" "${2:-/dev/shm}" <<'PY'
import os, shutil, subprocess, sys, tempfile, time

program, rounds, place = sys.argv[1], int(sys.argv[2]), sys.argv[3]
work = tempfile.mkdtemp(dir=place)
rows, tables, indexed = 8192, 8, 4000
begin = "PRAGMA journal_mode=WAL; PRAGMA synchronous=FULL;\n"


def own(script, folder):
    with open(f"{work}/script", "w") as file:
        file.write(script)
    with open(f"{work}/script") as source, open(f"{work}/printed", "w") as sink:
        start = time.perf_counter()
        subprocess.run([program, "run", folder], stdin=source, stdout=sink, stderr=subprocess.DEVNULL)
        return time.perf_counter() - start


def lite(script, folder):
    with open(f"{work}/script", "w") as file:
        file.write(begin + script)
    with open(f"{work}/script") as source, open(f"{work}/printed", "w") as sink:
        start = time.perf_counter()
        subprocess.run(["sqlite3", "-batch", f"{folder}.db"], stdin=source, stdout=sink, check=True, env={"HOME": work})
        return time.perf_counter() - start


def lines():
    with open(f"{work}/printed") as file:
        return sum(1 for line in file if not line.startswith(("status", "wal")) and not line.rstrip().endswith(("selected", "affected", "created")))


def best(run, script, folder):
    return min(run(script, folder) for _ in range(rounds))


def row(what, ours, theirs, folder_of_ours):
    mine = best(own, ours, f"{work}/{folder_of_ours}")
    count = lines()
    other = best(lite, theirs, f"{work}/{folder_of_ours}")
    same = "" if lines() == count else f"   ({count} lines, and SQLite {lines()})"
    print(f"{what:58} {mine:8.3f} {other:8.3f} {mine / other:6.2f}{same}", flush=True)


def anew(what, ours, theirs):
    """Scripts that put rows in: each round in an empty folder, that of the last one is kept."""
    times = [[], []]
    for _ in range(rounds):
        for number, (run, script) in enumerate(((own, ours), (lite, theirs))):
            at = f"{work}/{what}"
            if run is own:
                shutil.rmtree(at, ignore_errors=True)
            else:
                for name in (f"{at}.db", f"{at}.db-wal", f"{at}.db-shm"):
                    os.path.exists(name) and os.remove(name)
            times[number].append(run(script, at))
    mine, other = map(min, times)
    print(f"{what:58} {mine:8.3f} {other:8.3f} {mine / other:6.2f}", flush=True)


try:
    print(f"{os.cpu_count()} processors, load {os.getloadavg()[0]:.1f}, best of {rounds} rounds, seconds, in {place}")
    print(f"{'':58} {'nipuhako':>8} {'SQLite':>8} {'ratio':>6}")
    # eight tables, as many rows as a region holds until flushes come
    ours = "".join(f"CREATE TABLE T{t} (K BIGINT NOT NULL PRIMARY KEY, V INTEGER);\n" for t in range(tables))
    theirs = "".join(f"CREATE TABLE T{t} (K BIGINT NOT NULL PRIMARY KEY, V INTEGER) WITHOUT ROWID;\n" for t in range(tables))
    ours += "".join(f"UPSERT INTO T{t} VALUES ({k}, {k % 1000});\n" for k in range(rows) for t in range(tables))
    theirs += "".join(f"INSERT INTO T{t} VALUES ({k}, {k % 1000});\n" for k in range(rows) for t in range(tables))
    anew(f"fill {tables} tables of {rows} rows", ours, theirs)
    folder = f"fill {tables} tables of {rows} rows"
    row("  an empty script", "", "", folder)
    read = lambda sql: "".join(sql.format(t=t) + ";\n" for t in range(tables))
    row("  each table, all rows", *[read("SELECT * FROM T{t}")] * 2, folder)
    row("  each table, a key range of 4,096 rows", *[read("SELECT * FROM T{t} WHERE K >= 2000 AND K < 6096")] * 2, folder)
    row("  each table, one row in a thousand by its value", *[read("SELECT * FROM T{t} WHERE V = 500")] * 2, folder)
    # one table with a covering index
    ours = "CREATE TABLE P (ID BIGINT NOT NULL PRIMARY KEY, CITY VARCHAR, AGE INTEGER);\nCREATE INDEX BY_CITY ON P (CITY) INCLUDE (AGE);\n"
    theirs = "CREATE TABLE P (ID BIGINT NOT NULL PRIMARY KEY, CITY VARCHAR, AGE INTEGER) WITHOUT ROWID;\nCREATE INDEX BY_CITY ON P (CITY, AGE);\n"
    put = lambda word, n: "".join(f"{word} INTO P VALUES ({k}, 'city{k % n:04}', {k % 90});\n" for k in range(indexed))
    anew(f"{indexed} UPSERTs into a table with a covering index", ours + put("UPSERT", indexed), theirs + put("INSERT OR REPLACE", indexed))
    folder = f"{indexed} UPSERTs into a table with a covering index"
    row("  an empty script", "", "", folder)
    some = lambda n: [k * 7919 % indexed for k in range(n)]
    row("  10,000 look-ups by the key", *["".join(f"SELECT AGE FROM P WHERE ID = {k};\n" for k in some(10000))] * 2, folder)
    row("  10,000 look-ups by the index", *["".join(f"SELECT AGE FROM P WHERE CITY = 'city{k:04}';\n" for k in some(10000))] * 2, folder)
    row("  1,000 ranges of 100 rows by the key", *["".join(f"SELECT ID, AGE FROM P WHERE ID >= {k} AND ID < {k + 100};\n" for k in (j * 3 % (indexed - 100) for j in range(1000)))] * 2, folder)
    row("  1,000 ranges of 100 rows by the index", *["".join(f"SELECT ID, AGE FROM P WHERE CITY >= 'city{k:04}' AND CITY < 'city{k + 100:04}';\n" for k in (j * 3 % (indexed - 100) for j in range(1000)))] * 2, folder)
    row("  100 scans of all rows for a value", *["".join(f"SELECT ID FROM P WHERE AGE = {k % 90};\n" for k in range(100))] * 2, folder)
    # one row, again and again
    kv, lite_kv = "CREATE TABLE R (K BIGINT NOT NULL PRIMARY KEY, V INTEGER);\n", "CREATE TABLE R (K BIGINT NOT NULL PRIMARY KEY, V INTEGER) WITHOUT ROWID;\n"
    again = lambda word: "".join(f"{word} INTO R VALUES (1, {k});\n" for k in range(8000))
    anew("8,000 UPSERTs of one row", kv + again("UPSERT"), lite_kv + again("INSERT OR REPLACE"))
    # a long log
    big = "x" * 9000
    ours = "CREATE TABLE B (K BIGINT NOT NULL PRIMARY KEY, V VARCHAR);\n" + "".join(f"UPSERT INTO B VALUES ({k}, '{big}');\n" for k in range(6000))
    own(ours, f"{work}/long")
    much = sum(os.path.getsize(f"{at}/{name}") for at, _, names in os.walk(f"{work}/long") for name in names)
    took = best(own, "", f"{work}/long")
    print(f"opening a folder of {much / 1e6:.0f} MB: {took:.3f} s, {much / 1e6 / took:.0f} MB a second")
finally:
    shutil.rmtree(work)
PY
