#!/usr/bin/env bash
# How long the command `load` takes beside SQLite, which does the same by calls of its library (Python's, WAL, full syncs): the same table with a covering
# index, the same rows in the same order, 100 a transaction, and then a query of all rows by the table and one by the index, whose rows are counted and
# whose amounts are summed up. Both are run in turn, each time in a new folder, and the best time of some rounds is told, with the ratio.
# Of the program the time is that of its whole process. Of SQLite it goes from the opening of the base to its closing: the rows are drawn before, and
# one statement is prepared for all of them. What both tell has to be the same.
# Usage: bench/load.sh [ROWS [ROUNDS [FOLDER]]]: rows (100,000, which are the most), rounds (5), and the folder on whose file system it is done (that of
# the program's build)
set -eu
top=$(cd "$(dirname "$0")/.." && pwd)
program=${NIPUHAKO:-$top/crates/px_main/out/px_main}
# Proves and builds the program, where that wasn't done yet.
[ -n "${NIPUHAKO:-}" ] || "$top/nipuhako" run "$top/crates/px_main/out/none" </dev/null
rm -rf "$top/crates/px_main/out/none"
exec python3 - "$program" "${1:-100000}" "${2:-5}" "${3:-$(dirname "$program")}" <<'PY'
import os, shutil, sqlite3, subprocess, sys, tempfile, time

program, rows, rounds, place = sys.argv[1], int(sys.argv[2]), int(sys.argv[3]), sys.argv[4]
if not 1 <= rows <= 100000 or rounds < 1:
    sys.exit("load.sh: 1 to 100000 rows, and at least one round")
work = tempfile.mkdtemp(prefix="load.", dir=place)


def drawn(number):
    """The rows that follow from a number (docs/use/LANGUAGE.md)."""
    state, numbers = number, []
    for _ in range(3 * rows):
        state = (state * 6364136223846793005 + 1442695040888963407) % 2 ** 64
        numbers.append(state >> 33)
    return [(a % rows, "G%d" % (b % 50), c % 1000) for a, b, c in zip(*[iter(numbers)] * 3)]


def load(number):
    """The seconds of a load by the program, and what it told."""
    shutil.rmtree(f"{work}/folder", ignore_errors=True)
    start = time.perf_counter()
    words = [program, "load", f"{work}/folder", "--number", str(number), "--rows", str(rows)]
    done = subprocess.run(words, stdin=subprocess.DEVNULL, capture_output=True, text=True)
    took = time.perf_counter() - start
    if done.returncode:
        sys.exit(f"load.sh: status {done.returncode}, {done.stdout}{done.stderr}")
    return took, done.stdout


def sqlite(number, them):
    """The seconds of SQLite for these rows, and the same lines."""
    for name in ("base.db", "base.db-wal", "base.db-shm"):
        if os.path.exists(f"{work}/{name}"):
            os.remove(f"{work}/{name}")
    batches = [them[first:first + 100] for first in range(0, rows, 100)]
    start = time.perf_counter()
    base = sqlite3.connect(f"{work}/base.db", isolation_level=None)
    base.execute("PRAGMA journal_mode = WAL")
    base.execute("PRAGMA synchronous = FULL")
    base.execute("CREATE TABLE LOAD (ID INTEGER PRIMARY KEY, GRP TEXT, AMT INTEGER)")
    base.execute("CREATE INDEX LOAD_GRP ON LOAD (GRP, AMT)")
    for batch in batches:
        base.execute("BEGIN")
        base.executemany("INSERT OR REPLACE INTO LOAD VALUES (?, ?, ?)", batch)
        base.execute("COMMIT")
    by_table = sum(1 for _ in base.execute("SELECT ID, GRP, AMT FROM LOAD NOT INDEXED"))
    amounts = [amount for _, _, amount in base.execute("SELECT ID, GRP, AMT FROM LOAD INDEXED BY LOAD_GRP")]
    told = f"load {number} rows {rows}\ntable rows {by_table}\nindex rows {len(amounts)}\namount {sum(amounts)}\n"
    base.close()
    return time.perf_counter() - start, told


try:
    print(f"{os.cpu_count()} processors, load {os.getloadavg()[0]:.1f}, {rows} rows, best of {rounds} rounds, in {place}", flush=True)
    times = [[], []]
    for number in range(rounds):
        them = drawn(number)
        mine, told = load(number)
        other, wanted = sqlite(number, them)
        if told != wanted:
            sys.exit(f"load.sh: it told\n{told}and SQLite\n{wanted}")
        times[0].append(mine)
        times[1].append(other)
    mine, other = map(min, times)
    print(f"nipuhako {mine:.3f} s, SQLite {sqlite3.sqlite_version} {other:.3f} s, ratio {mine / other:.2f}")
    print("all rounds: " + ", ".join(f"{mine:.3f} and {other:.3f}" for mine, other in zip(*times)))
finally:
    shutil.rmtree(work)
PY
