#!/usr/bin/env bash
# How many statements a second the sessions of a round are answered together: 1, 2, 4 and 8 of them, which look rows up by the key, look rows up
# through a covering index, read ranges through it, and put rows of their own into a table with that index. Each session does the same number of
# statements, but of UPSERTs 480 at most, so that no region is flushed. Each script is run in some rounds, and the best time is told, less
# that of an empty script on the same folder. 'to one' is the rate beside that of one session that is given the same statements alone (eight
# sessions fill a table eight times as large). 'turn' is the time of a statement where eight sessions are answered together: the turns at the
# server that a statement takes can't be longer than that.
# Usage: bench/threads.sh [STATEMENTS [ROUNDS [FOLDER]]]: statements a session (2,000), rounds (3), and the folder on whose file
# system it is done (/dev/shm, where a sync costs nothing)
set -eu
top=$(cd "$(dirname "$0")/.." && pwd)
program=${NIPUHAKO:-$top/crates/px_main/out/px_main}
# Proves and builds the program, where that wasn't done yet.
[ -n "${NIPUHAKO:-}" ] || "$top/nipuhako" run "$top/crates/px_main/out/none" </dev/null
rm -rf "$top/crates/px_main/out/none"
exec python3 - "$program" "${1:-2000}" "${2:-3}" "${3:-/dev/shm}" <<'PY'
import os, shutil, subprocess, sys, tempfile, time

program, statements, rounds, place = sys.argv[1], int(sys.argv[2]), int(sys.argv[3]), sys.argv[4]
if statements < 1:
    sys.exit("threads.sh: at least one statement")
work = tempfile.mkdtemp(prefix="threads.", dir=place)
counts = [1, 2, 4, 8]
rows = 2000
table = "CREATE TABLE P (ID BIGINT NOT NULL PRIMARY KEY, CITY VARCHAR, AGE INTEGER);\nCREATE INDEX BY_CITY ON P (CITY) INCLUDE (AGE);\n"
filled = table + "".join(f"UPSERT INTO P VALUES ({k}, 'city{k:04}', {k % 90});\n" for k in range(rows))


def run(script, folder):
    """The time of a run, and its lines that tell an answer."""
    with open(f"{work}/script", "w") as file:
        file.write(script)
    with open(f"{work}/script") as source, open(f"{work}/printed", "w") as sink:
        start = time.perf_counter()
        status = subprocess.run([program, "run", folder], stdin=source, stdout=sink, stderr=subprocess.DEVNULL).returncode
        took = time.perf_counter() - start
    if status != 0:
        sys.exit(f"threads.sh: status {status}")
    with open(f"{work}/printed") as file:
        return took, sum(1 for line in file if line.rstrip().endswith(("selected", "affected")))


def by_key(session, i):
    return f"SELECT AGE FROM P WHERE ID = {(session * 977 + i * 7919) % rows}"


def by_index(session, i):
    return f"SELECT AGE FROM P WHERE CITY = 'city{(session * 977 + i * 7919) % rows:04}'"


def ranges(session, i):
    first = (session * 977 + i * 7919) % (rows - 100)
    return f"SELECT ID, AGE FROM P WHERE CITY >= 'city{first:04}' AND CITY < 'city{first + 100:04}'"


def upserts(session, i):
    return f"UPSERT INTO P VALUES ({session * 10000 + i}, 'c{i % 50}', {i % 90})"


def each_of(kind):
    return min(statements, 480) if kind is upserts else statements


def script_of(kind, count, alone):
    """The statements of so many sessions, or the same, in the same order, as those of one session alone."""
    return "".join(f"@{1 if alone else session} {kind(session, i)};\n" for i in range(each_of(kind)) for session in range(1, count + 1))


def once(kind, count, alone=False):
    folder = f"{work}/read"
    if kind is upserts:
        folder = f"{work}/written"
        shutil.rmtree(folder, ignore_errors=True)
        run(table, folder)
    empty, _ = run("", folder)
    took, answered = run(script_of(kind, count, alone), folder)
    if answered != count * each_of(kind):
        sys.exit(f"threads.sh: {answered} answers of {count * each_of(kind)}")
    return took - empty


try:
    print(f"{os.cpu_count()} processors, load {os.getloadavg()[0]:.1f}, {statements} statements a session, best of {rounds} rounds, in {place}")
    run(filled, f"{work}/read")
    print(f"{'statements a second, by sessions':34}" + "".join(f"{n:>9} {'to one':>7}" for n in counts) + f" {'turn':>9}")
    for what, kind in (("look-ups by the key", by_key), ("look-ups by the index", by_index), ("ranges of 100 rows by the index", ranges), ("UPSERTs", upserts)):
        best = {n: min(once(kind, n) for _ in range(rounds)) for n in counts}
        alone = {n: min(once(kind, n, alone=True) for _ in range(rounds)) for n in counts}
        rate = {n: n * each_of(kind) / best[n] for n in counts}
        told = "".join(f"{rate[n]:9.0f} {alone[n] / best[n]:7.2f}" for n in counts)
        print(f"{what:34}{told} {1e6 / rate[8]:6.1f} us", flush=True)
finally:
    shutil.rmtree(work)
PY
