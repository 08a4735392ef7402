#!/usr/bin/env bash
# A table with one covering index, filled in batches of 100 rows, each of whose rows is then changed CHANGES times, the indexed column too; then a run that has
# `!compact` alone and looks back on nothing, and one that looks back on all, so that nothing is let go. SQLite gets the same rows and changes, and a VACUUM.
# Usage: bench/compactions.sh [ROWS [CHANGES [FOLDER]]]: rows (20,000), changes of each (3), and the folder on whose file system it is done (that of the build)
set -eu
top=$(cd "$(dirname "$0")/.." && pwd)
program=${NIPUHAKO:-$top/crates/px_main/out/px_main}
# Proves and builds the program, where that wasn't done yet.
[ -n "${NIPUHAKO:-}" ] || "$top/nipuhako" run "$top/crates/px_main/out/none" </dev/null
rm -rf "$top/crates/px_main/out/none"
exec python3 - "$program" "${1:-20000}" "${2:-3}" "${3:-$top/crates/px_main/out}" <<'PY'
import os, resource, shutil, sqlite3, subprocess, sys, tempfile, time

program, rows, changes, place = sys.argv[1], int(sys.argv[2]) // 100 * 100, int(sys.argv[3]), sys.argv[4]
work = tempfile.mkdtemp(prefix="compactions.", dir=place)
ALL = 9223372036854775807


def values(i, change):
    return f"({i * 7919 % rows}, 'city{(i * 31 + change * 17) % rows:06}', {change})"


def run(folder, lookback, script):
    """The seconds of a run of the script, and the lines that it printed."""
    start = time.perf_counter()
    done = subprocess.run([program, "run", folder, "--lookback", str(lookback)], input=script.encode(), stdout=subprocess.PIPE)
    seconds = time.perf_counter() - start
    if done.returncode:
        sys.exit(f"compactions.sh: status {done.returncode}")
    return seconds, done.stdout.decode().splitlines()


def size(folder):
    return sum(os.path.getsize(f"{folder}/{name}") for name in os.listdir(folder)) / 1e6


def compacted(lookback):
    """The seconds of a compaction of a copy of the folder, what its status tells behind it, and of a scan then."""
    copy = f"{work}/copy"
    shutil.copytree(f"{work}/folder", copy)
    seconds, printed = run(copy, lookback, "!compact\n!status P\n")
    scanned, told = run(copy, lookback, "SELECT ID FROM P WHERE AGE = 77;")
    bytes_then = size(copy)
    shutil.rmtree(copy)
    return seconds, printed[2], bytes_then, scanned, told[-1]


def sqlite():
    base = sqlite3.connect(f"{work}/base.db", isolation_level=None)
    for statement in ("PRAGMA journal_mode = WAL", "PRAGMA synchronous = FULL", "CREATE TABLE P (ID INTEGER PRIMARY KEY, CITY TEXT, AGE INTEGER)", "CREATE INDEX BY_CITY ON P (CITY, AGE)"):
        base.execute(statement)
    for change in range(changes + 1):
        base.execute("BEGIN")
        for i in range(rows):
            base.execute(f"INSERT OR REPLACE INTO P VALUES {values(i, change)}")
        base.execute("COMMIT")
    start = time.perf_counter()
    base.execute("VACUUM")
    seconds = time.perf_counter() - start
    base.close()
    return seconds


try:
    script = "CREATE TABLE P (ID BIGINT NOT NULL PRIMARY KEY, CITY VARCHAR, AGE INTEGER);\nCREATE INDEX BY_CITY ON P (CITY) INCLUDE (AGE);\n!autocommit off\n"
    script += "".join(f"UPSERT INTO P VALUES {values(i, change)};\n" + "!commit\n" * (i % 100 == 99) for change in range(changes + 1) for i in range(rows))
    print(f"load {os.getloadavg()[0]:.1f}, {rows} rows, each changed {changes} times, in {place}")
    print(f"filled and changed: {run(f'{work}/folder', ALL, script)[0]:.2f} s, {size(f'{work}/folder'):.1f} MB")
    print(f"opened alone: {run(f'{work}/folder', ALL, '')[0]:.3f} s")
    for lookback in (0, ALL):
        print("compacted, lookback {}: {:.3f} s with the opening, {}, {:.1f} MB with files that are named no more; a scan then {:.3f} s, {}".format(lookback, *compacted(lookback)))
    print(f"memory of the greatest run: {resource.getrusage(resource.RUSAGE_CHILDREN).ru_maxrss // 1024} MB")
    print(f"SQLite's VACUUM: {sqlite():.3f} s")
finally:
    shutil.rmtree(work)
PY
