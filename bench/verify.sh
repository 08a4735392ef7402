#!/usr/bin/env bash
# How long the report of `verify` (ONLY) takes beside two scans: a SELECT of all rows by the table, and one by the covering index, each in a run of
# its own whose output goes to /dev/null. Each run opens the folder first; what that takes is told, and left out of the ratio. All are run in
# turn, on one processor and on all, and the best time of some rounds is told. The rows are put in before, in batches of 1,000, and flushed.
# Usage: bench/verify.sh [ROWS [ROUNDS [FOLDER]]]: rows (1,000,000), rounds (3), and the folder on whose file system it is done (that of the program's
# build). It needs taskset.
set -eu
top=$(cd "$(dirname "$0")/.." && pwd)
program=${NIPUHAKO:-$top/crates/px_main/out/px_main}
# Proves and builds the program, where that wasn't done yet.
[ -n "${NIPUHAKO:-}" ] || "$top/nipuhako" run "$top/crates/px_main/out/none" </dev/null
rm -rf "$top/crates/px_main/out/none"
exec python3 - "$program" "${1:-1000000}" "${2:-3}" "${3:-$(dirname "$program")}" <<'PY'
import math, os, resource, shutil, subprocess, sys, tempfile, time

program, rows, rounds, place = sys.argv[1], int(sys.argv[2]), int(sys.argv[3]), sys.argv[4]
if rows < 1 or rounds < 1:
    sys.exit("verify.sh: at least one row, and one round")
work = tempfile.mkdtemp(prefix="verify.", dir=place)
processors = sorted(os.sched_getaffinity(0))
# What the rows' keys go on by, so that they lie all over the table and each comes once.
step = next(it for it in range(7919, 2 * 7919 + rows) if math.gcd(it, rows) == 1)
batch, script_rows = 1000, 100000
COMMANDS = {
    "opening": ("", []),
    "a scan by the table": ("SELECT /*+ NO_INDEX */ ID, GRP, AMT FROM ORDERS;\n", []),
    "a scan by the index": ("SELECT /*+ INDEX(ORDERS BY_GRP) */ ID, GRP, AMT FROM ORDERS;\n", []),
    "verify": ("", ["--table", "ORDERS", "--index", "BY_GRP", "--kind", "ONLY"]),
}


def run(script, words=(), before=(), kept=False):
    """The seconds of a run on the folder, and what it printed where that is kept."""
    with open(f"{work}/script", "w") as file:
        file.write(script)
    with open(f"{work}/script") as source, open(f"{work}/printed" if kept else os.devnull, "w") as sink:
        start = time.perf_counter()
        status = subprocess.run([*before, program, "verify" if words else "run", f"{work}/folder", *words], stdin=source, stdout=sink).returncode
        took = time.perf_counter() - start
    if status:
        sys.exit(f"verify.sh: status {status}")
    if not kept:
        return took, []
    with open(f"{work}/printed") as printed:
        return took, printed.read().splitlines()


def fill():
    """Puts the rows in, some in a run, as a script has an end."""
    start = time.perf_counter()
    run("CREATE TABLE ORDERS (ID BIGINT NOT NULL PRIMARY KEY, GRP VARCHAR, AMT INTEGER);\nCREATE INDEX BY_GRP ON ORDERS (GRP) INCLUDE (AMT);\n")
    for first in range(0, rows, script_rows):
        script = ["!autocommit off\n"]
        for i in range(first, min(first + script_rows, rows)):
            script.append(f"UPSERT INTO ORDERS VALUES ({i * step % rows}, 'G{i * 31 % 5000:04}', {i % 1000});\n")
            if i % batch == batch - 1:
                script.append("!commit\n")
        run("".join(script) + "!commit\n!flush\n")
    return time.perf_counter() - start


def counted():
    """That each row is there, by both ways, and matches."""
    lines = [run(COMMANDS[it][0], kept=True)[1][-1] for it in ("a scan by the table", "a scan by the index")]
    report = run("", COMMANDS["verify"][1], kept=True)[1]
    if lines != [f"{rows} rows selected"] * 2 or report != [f"matching {rows}", "unverified 0", "missing 0", "extra 0", "wrong 0"]:
        sys.exit(f"verify.sh: {lines}, {report}")


try:
    print(f"load {os.getloadavg()[0]:.1f}, {rows} rows, best of {rounds} rounds, in {place}", flush=True)
    print(f"filled in {fill():.1f} s", flush=True)
    counted()
    sizes = [os.path.getsize(f"{work}/folder/{name}") for name in os.listdir(f"{work}/folder")]
    print(f"the folder: {len(sizes)} files, {sum(sizes) / 1e6:.1f} MB")
    choices = [processors[:1]] + [processors] * (len(processors) > 1)
    best = {(name, len(some)): math.inf for some in choices for name in COMMANDS}
    for _ in range(rounds):
        for some in choices:
            for name, (script, words) in COMMANDS.items():
                took, _ = run(script, words, ("taskset", "-c", ",".join(map(str, some))))
                best[name, len(some)] = min(best[name, len(some)], took)
    print(f"{'seconds, by processors':34}" + "".join(f"{len(some):>9}" for some in choices))
    for name in COMMANDS:
        print(f"{name:34}" + "".join(f"{best[name, len(some)]:9.3f}" for some in choices))
    alone = lambda name, count: best[name, count] - best["opening", count]
    scans = {len(some): alone("a scan by the table", len(some)) + alone("a scan by the index", len(some)) for some in choices}
    print(f"{'both scans without opening':34}" + "".join(f"{scans[len(some)]:9.3f}" for some in choices))
    print(f"{'verify without opening':34}" + "".join(f"{alone('verify', len(some)):9.3f}" for some in choices))
    print(f"{'ratio':34}" + "".join(f"{alone('verify', len(some)) / scans[len(some)]:9.2f}" for some in choices))
    print(f"memory of the greatest run: {resource.getrusage(resource.RUSAGE_CHILDREN).ru_maxrss // 1024} MB")
finally:
    shutil.rmtree(work)
PY
