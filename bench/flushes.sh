#!/usr/bin/env bash
# A table with one covering index, filled in batches of 100 rows (`!autocommit off`, 100 UPSERTs, `!commit`) beyond what a log holds, so that its regions
# are flushed; then the folder is opened again for two look-ups, and for a scan. Python's SQLite does the same in one transaction a batch (WAL,
# full syncs). Usage: bench/flushes.sh [ROWS [FOLDER]]: rows (20,000), and the folder on whose file system it is done (that of the program's build)
set -eu
top=$(cd "$(dirname "$0")/.." && pwd)
program=${NIPUHAKO:-$top/crates/px_main/out/px_main}
# Proves and builds the program, where that wasn't done yet.
[ -n "${NIPUHAKO:-}" ] || "$top/nipuhako" run "$top/crates/px_main/out/none" </dev/null
rm -rf "$top/crates/px_main/out/none"
exec python3 - "$program" "${1:-20000}" "${2:-$top/crates/px_main/out}" <<'PY'
import os, resource, shutil, sqlite3, subprocess, sys, tempfile, time

program, rows, place = sys.argv[1], int(sys.argv[2]) // 100 * 100, sys.argv[3]
work = tempfile.mkdtemp(prefix="flushes.", dir=place)


def values(i):
    return f"({i * 7919 % rows}, 'city{i * 31 % rows:06}', {i % 90})"


def run(script):
    """The seconds of a run of the script on the folder, and what it printed last."""
    with open(f"{work}/script", "w") as file:
        file.write(script)
    with open(f"{work}/script") as source, open(f"{work}/printed", "w") as printed:
        start = time.perf_counter()
        status = subprocess.run([program, "run", f"{work}/folder"], stdin=source, stdout=printed).returncode
        seconds = time.perf_counter() - start
    if status:
        sys.exit(f"flushes.sh: status {status}")
    with open(f"{work}/printed") as printed:
        return seconds, printed.read().splitlines()[-1]


def sqlite():
    start = time.perf_counter()
    base = sqlite3.connect(f"{work}/base.db", isolation_level=None)
    for statement in ("PRAGMA journal_mode = WAL", "PRAGMA synchronous = FULL", "CREATE TABLE P (ID INTEGER PRIMARY KEY, CITY TEXT, AGE INTEGER)", "CREATE INDEX BY_CITY ON P (CITY, AGE)"):
        base.execute(statement)
    for batch in range(0, rows, 100):
        base.execute("BEGIN")
        for i in range(batch, batch + 100):
            base.execute(f"INSERT OR REPLACE INTO P VALUES {values(i)}")
        base.execute("COMMIT")
    base.close()
    return time.perf_counter() - start


try:
    script = "CREATE TABLE P (ID BIGINT NOT NULL PRIMARY KEY, CITY VARCHAR, AGE INTEGER);\nCREATE INDEX BY_CITY ON P (CITY) INCLUDE (AGE);\n!autocommit off\n"
    script += "".join(f"UPSERT INTO P VALUES {values(i)};\n" + "!commit\n" * (i % 100 == 99) for i in range(rows))
    print(f"load {os.getloadavg()[0]:.1f}, {rows} rows, in {place}")
    print(f"filled: {run(script)[0]:.2f} s, SQLite {sqlite():.2f} s")
    print(f"memory of the greatest run: {resource.getrusage(resource.RUSAGE_CHILDREN).ru_maxrss // 1024} MB")
    sizes = [os.path.getsize(f"{work}/folder/{name}") for name in os.listdir(f"{work}/folder")]
    print(f"the folder: {len(sizes)} files, {sum(sizes) / 1e6:.1f} MB")
    print(f"opened, and two look-ups: {run('SELECT AGE FROM P WHERE ID = 77; SELECT ID FROM P WHERE CITY = ' + repr(f'city{77:06}'))[0]:.3f} s")
    print("opened, and a scan: {:.3f} s, {}".format(*run("SELECT ID FROM P WHERE AGE = 91")))
finally:
    shutil.rmtree(work)
PY
