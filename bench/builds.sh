#!/usr/bin/env bash
# A table is filled in batches of 100 rows, and then a covering index is made of it: in a run of its own, whose syncs are counted in a second run
# where strace is there, and once more on one processor, where taskset is. Then a look-up by the index, and how many rows it has. SQLite (Python's,
# WAL, full syncs) makes the same index.
# Usage: bench/builds.sh [ROWS [FOLDER]]: rows (20,000), and the folder on whose file system it is done (that of the program's build)
set -eu
top=$(cd "$(dirname "$0")/.." && pwd)
program=${NIPUHAKO:-$top/crates/px_main/out/px_main}
# Proves and builds the program, where that wasn't done yet.
[ -n "${NIPUHAKO:-}" ] || "$top/nipuhako" run "$top/crates/px_main/out/none" </dev/null
rm -rf "$top/crates/px_main/out/none"
exec python3 - "$program" "${1:-20000}" "${2:-$top/crates/px_main/out}" <<'PY'
import os, resource, shutil, sqlite3, subprocess, sys, tempfile, time

program, rows, place = sys.argv[1], int(sys.argv[2]) // 100 * 100, sys.argv[3]
work = tempfile.mkdtemp(prefix="builds.", dir=place)
INDEX = "CREATE INDEX BY_CITY ON P (CITY) INCLUDE (AGE);\n"


def values(i):
    return f"({i * 7919 % rows}, 'city{i * 31 % rows:06}', {i % 90})"


def run(script, folder="folder", before=()):
    """The seconds of a run of the script on the folder, and what it printed last."""
    with open(f"{work}/script", "w") as file:
        file.write(script)
    with open(f"{work}/script") as source, open(f"{work}/printed", "w") as printed:
        start = time.perf_counter()
        status = subprocess.run([*before, program, "run", f"{work}/{folder}"], stdin=source, stdout=printed).returncode
        seconds = time.perf_counter() - start
    with open(f"{work}/printed") as printed:
        last = printed.read().splitlines()[-1:]
    if status:
        sys.exit(f"builds.sh: status {status}, {last}")
    return seconds, "".join(last)


def sqlite():
    base = sqlite3.connect(f"{work}/base.db", isolation_level=None)
    for statement in ("PRAGMA journal_mode = WAL", "PRAGMA synchronous = FULL", "CREATE TABLE P (ID INTEGER PRIMARY KEY, CITY TEXT, AGE INTEGER)"):
        base.execute(statement)
    base.execute("BEGIN")
    for i in range(rows):
        base.execute(f"INSERT OR REPLACE INTO P VALUES {values(i)}")
    base.execute("COMMIT")
    start = time.perf_counter()
    base.execute("CREATE INDEX BY_CITY ON P (CITY, AGE)")
    took = time.perf_counter() - start
    base.close()
    return took


def syncs():
    """How many syncs the making of the index has, without those of the opening."""
    if not shutil.which("strace"):
        return None
    counts = []
    for script in ("", INDEX):
        shutil.rmtree(f"{work}/copy", ignore_errors=True)
        shutil.copytree(f"{work}/folder", f"{work}/copy")
        run(script + "SELECT ID FROM P WHERE ID = 1;\n", "copy", ("strace", "-f", "-c", "-e", "trace=fsync,fdatasync", "-o", f"{work}/calls"))
        with open(f"{work}/calls") as file:
            counts.append(sum(int(line.split()[3]) for line in file if line.rstrip().endswith(("fsync", "fdatasync"))))
    return counts[1] - counts[0]


def one_processor():
    """The seconds of the making on one processor, without those of the opening there."""
    if not shutil.which("taskset"):
        return "none"
    seconds = []
    for script in ("", INDEX):
        shutil.rmtree(f"{work}/copy", ignore_errors=True)
        shutil.copytree(f"{work}/folder", f"{work}/copy")
        seconds.append(run(script + "SELECT ID FROM P WHERE ID = 1;\n", "copy", ("taskset", "-c", "0"))[0])
    return f"{seconds[1] - seconds[0]:.2f} s"


try:
    print(f"load {os.getloadavg()[0]:.1f}, {rows} rows, in {place}")
    script = "CREATE TABLE P (ID BIGINT NOT NULL PRIMARY KEY, CITY VARCHAR, AGE INTEGER);\n!autocommit off\n"
    script += "".join(f"UPSERT INTO P VALUES {values(i)};\n" + "!commit\n" * (i % 100 == 99) for i in range(rows))
    print(f"filled without an index: {run(script)[0]:.2f} s")
    opening = run("SELECT ID FROM P WHERE ID = 1;\n")[0]
    made = syncs()
    alone = one_processor()
    took = run(INDEX)[0]
    print(f"the index made: {took - opening:.2f} s beside {opening:.2f} s of opening, SQLite {sqlite():.2f} s; on one processor {alone}")
    # A base record for each 64 rows has two syncs; each definition has two.
    print(f"syncs: {made}, {2 * -(-rows // 64) + 4} of records and definitions")
    print(f"memory of the greatest run: {resource.getrusage(resource.RUSAGE_CHILDREN).ru_maxrss // 1024} MB")
    print(f"a look-up by it: {run('SELECT AGE FROM P WHERE CITY = ' + repr(f'city{77:06}') + ';')[1]}")
    print(f"its rows: {run('SELECT /*+ INDEX(P BY_CITY) */ AGE FROM P;')[1]}")
finally:
    shutil.rmtree(work)
PY
