#!/usr/bin/env bash
# How long it takes to fill ten tables, each with one covering index, in batches of 100 rows that are held and committed (`!autocommit off`, `!commit`),
# beside SQLite's command line, which does the same on the same file system in one transaction a batch (WAL, full syncs). 1,000 rows are put into
# each table, then 2,000 and 3,000 in runs of their own on new folders, in some rounds in turn; the best time of each is told, with the greatest
# memory of a run and its syncs, which strace counts in one more run, beside those that the format asks for.
# Usage: bench/batches.sh [ROUNDS [FOLDER]]: rounds (3), and the folder on whose file system it is done (that of the program's build)
set -eu
top=$(cd "$(dirname "$0")/.." && pwd)
program=${NIPUHAKO:-$top/crates/px_main/out/px_main}
# Proves and builds the program, where that wasn't done yet.
if [ -z "${NIPUHAKO:-}" ]; then
    "$top/nipuhako" run "$top/crates/px_main/out/none" </dev/null
    rm -rf "$top/crates/px_main/out/none"
fi
exec python3 - "$program" "${1:-3}" "${2:-$(dirname "$program")}" <<'PY'
import os, shutil, subprocess, sys, tempfile, time

program, rounds, place = sys.argv[1], int(sys.argv[2]), sys.argv[3]
work = tempfile.mkdtemp(dir=place)
tables, batch = 10, 100
# What the format asks for: two syncs for each of the three records of a batch, which marks, writes and verifies; two for each of the three
# records of a table with its index, four for each new log, of KV too, and five for the new catalogue.
asked = lambda rows: tables * (rows // batch) * 6 + tables * 3 * 2 + (2 * tables + 1) * 4 + 5


def scripts(rows):
    """Ours, and SQLite's: batch by batch, of one table after the other."""
    ours = "".join(f"CREATE TABLE T{t} (ID BIGINT NOT NULL PRIMARY KEY, CITY VARCHAR, AGE INTEGER);\nCREATE INDEX BY_CITY{t} ON T{t} (CITY) INCLUDE (AGE);\n" for t in range(tables))
    theirs = "PRAGMA journal_mode=WAL; PRAGMA synchronous=FULL;\n"
    theirs += "".join(f"CREATE TABLE T{t} (ID BIGINT NOT NULL PRIMARY KEY, CITY TEXT, AGE INTEGER) WITHOUT ROWID;\nCREATE INDEX BY_CITY{t} ON T{t} (CITY, AGE);\n" for t in range(tables))
    ours += "!autocommit off\n"
    for first in range(0, rows, batch):
        for t in range(tables):
            values = [f"INTO T{t} VALUES ({k}, 'city{k * 7919 % rows:05}', {k % 90});\n" for k in range(first, first + batch)]
            ours += "".join(f"UPSERT {it}" for it in values) + "!commit\n"
            theirs += "BEGIN;\n" + "".join(f"INSERT OR REPLACE {it}" for it in values) + "COMMIT;\n"
    return ours, theirs


def begun(script):
    shutil.rmtree(f"{work}/run", ignore_errors=True)
    os.mkdir(f"{work}/run")
    with open(f"{work}/script", "w") as file:
        file.write(script)


def run(words, script):
    """The seconds that it took, and the greatest memory in kilobytes."""
    begun(script)
    with open(f"{work}/script") as source, open(f"{work}/printed", "w") as sink:
        start = time.perf_counter()
        child = subprocess.Popen(words, stdin=source, stdout=sink, cwd=f"{work}/run", env={"HOME": work, "PATH": os.environ["PATH"]})
        _, status, usage = os.wait4(child.pid, 0)
        took = time.perf_counter() - start
    child.returncode = os.waitstatus_to_exitcode(status)
    if child.returncode != 0:
        sys.exit(f"batches.sh: {words[0]} ended with {child.returncode}")
    return took, usage.ru_maxrss


def syncs(words, script):
    if not shutil.which("strace"):
        return None
    run(["strace", "-f", "-c", "-e", "trace=fsync,fdatasync", "-o", f"{work}/calls", *words], script)
    with open(f"{work}/calls") as file:
        return sum(int(line.split()[3]) for line in file if line.rstrip().endswith(("fsync", "fdatasync")))


def rows_left(rows):
    """Whether the program's last run left all rows, in each table and each index."""
    script = "".join(f"SELECT /*+ NO_INDEX */ ID FROM T{t};\nSELECT /*+ INDEX(T{t} BY_CITY{t}) */ AGE FROM T{t};\n" for t in range(tables))
    told = subprocess.run([program, "run", f"{work}/run/db"], input=script, capture_output=True, text=True).stdout
    return told.count(f"{rows} rows selected") == 2 * tables


try:
    ours, lite = [program, "run", "db"], ["sqlite3", "-batch", "kv.db"]
    print(f"{os.cpu_count()} processors, load {os.getloadavg()[0]:.1f}, best of {rounds} rounds, in {place}")
    print(f"{'rows a table':>12} {'nipuhako':>9} {'SQLite':>9} {'ratio':>6} {'syncs':>7} {'asked':>7} {'ratio':>6} {'SQLite':>7} {'MB':>7} {'SQLite':>7}")
    for rows in (1000, 2000, 3000):
        script = scripts(rows)
        times, most = [[], []], [0, 0]
        for _ in range(rounds):
            for number, words in ((1, lite), (0, ours)):
                took, memory = run(words, script[number])
                times[number].append(took)
                most[number] = max(most[number], memory)
            if not rows_left(rows):
                sys.exit("batches.sh: not all rows are there")
        made = [syncs(words, script[number]) for number, words in enumerate((ours, lite))]
        count = lambda n: "-" if n is None else str(n)
        ratio = "-" if made[0] is None else f"{made[0] / asked(rows):.2f}"
        mine, other = min(times[0]), min(times[1])
        print(f"{rows:12} {mine:9.3f} {other:9.3f} {mine / other:6.2f} {count(made[0]):>7} {asked(rows):7} {ratio:>6} {count(made[1]):>7} {most[0] / 1e3:7.1f} {most[1] / 1e3:7.1f}", flush=True)
finally:
    shutil.rmtree(work)
PY
