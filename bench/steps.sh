#!/usr/bin/env bash
# How long the steps of a statement have the server, by the kind of step: two sessions of a round put rows, look rows up by the key, and look rows
# up through a covering index. valgrind counts the calls of each step and the instructions in them. Microseconds are these instructions at the
# rate of one session that is run without it, calls of the system left out. A step that the compiler put into its caller isn't listed.
# Usage: bench/steps.sh [STATEMENTS [FOLDER]]: statements a session (480, and no more), and the folder on whose file system it is done
# (/dev/shm). It needs valgrind.
set -eu
top=$(cd "$(dirname "$0")/.." && pwd)
program=${NIPUHAKO:-$top/crates/px_main/out/px_main}
# Proves and builds the program, where that wasn't done yet.
[ -n "${NIPUHAKO:-}" ] || "$top/nipuhako" run "$top/crates/px_main/out/none" </dev/null
rm -rf "$top/crates/px_main/out/none"
exec python3 - "$program" "${1:-480}" "${2:-/dev/shm}" <<'PY'
import collections, os, re, shutil, subprocess, sys, tempfile, time

program, statements, place = sys.argv[1], int(sys.argv[2]), sys.argv[3]
work = tempfile.mkdtemp(prefix="steps.", dir=place)
rows = 2000
table = "CREATE TABLE P (ID BIGINT NOT NULL PRIMARY KEY, CITY VARCHAR, AGE INTEGER);\nCREATE INDEX BY_CITY ON P (CITY) INCLUDE (AGE);\n"
filled = table + "".join(f"UPSERT INTO P VALUES ({k}, 'city{k:04}', {k % 90});\n" for k in range(rows))
kinds = (
    ("UPSERT", lambda s, i: f"UPSERT INTO P VALUES ({s * 10000 + i}, 'c{i % 50}', {i % 90})"),
    ("look-up by the key", lambda s, i: f"SELECT AGE FROM P WHERE ID = {(s * 977 + i * 7919) % rows}"),
    ("look-up by the index", lambda s, i: f"SELECT AGE FROM P WHERE CITY = 'city{(s * 977 + i * 7919) % rows:04}'"),
)


def run(script, *before):
    with open(f"{work}/script", "w") as file:
        file.write(script)
    with open(f"{work}/script") as source:
        start = time.perf_counter()
        status = subprocess.run([*before, program, "run", f"{work}/run"], stdin=source, stdout=subprocess.DEVNULL, stderr=subprocess.DEVNULL).returncode
        if status:
            sys.exit(f"steps.sh: status {status}")
        return time.perf_counter() - start


def counted(script):
    """All instructions of a run, and of each function its calls and the instructions in them."""
    run(script, "valgrind", "--tool=callgrind", f"--callgrind-out-file={work}/counted")
    names, calls, within, total, callee, count = {}, collections.Counter(), collections.Counter(), 0, None, 0
    with open(f"{work}/counted") as file:
        for line in file:
            if found := re.match(r"(c?fn)=\((\d+)\)(?: (.*))?", line):
                name = names.setdefault(found[2], found[3])
                callee = name if found[1] == "cfn" else None
            elif line.startswith("calls="):
                count = int(line[6:].split()[0])
            elif line[:1] in "+-*0123456789" and callee and count:
                calls[callee] += count
                within[callee] += int(line.split()[1])
                count = 0
            elif line.startswith("totals:") or line.startswith("summary:"):
                total = int(line.split()[1])
    return total, calls, within


def folder(kind):
    shutil.rmtree(f"{work}/run", ignore_errors=True)
    run(table if kind == "UPSERT" else filled)


def timed(kind, script):
    """The least time of five runs, each on a new folder, less that of an empty script."""
    best = []
    for text in (script, ""):
        times = []
        for _ in range(5):
            folder(kind)
            times.append(run(text))
        best.append(min(times))
    return best[0] - best[1]


try:
    print(f"{os.cpu_count()} processors, load {os.getloadavg()[0]:.1f}, {statements} statements a session, two sessions, in {place}")
    print(f"{'':42}{'calls':>8}{'instructions':>14}{'microseconds':>14}")
    for kind, one in kinds:
        each = min(statements, 480)
        lines = {s: [f"@{s} {one(s, i)};\n" for i in range(each)] for s in (1, 2)}
        folder(kind)
        bare, _, _ = counted("")
        total, calls, within = counted("".join(a + b for a, b in zip(lines[1], lines[2])))
        took = timed(kind, "".join(lines[1]))
        rate = (total - bare) / 2 / (took * 1e6)
        print(f"{kind}: {(total - bare) / each / 2:.0f} instructions, {took / each * 1e6:.1f} microseconds by one session alone")
        for name in sorted(calls):
            step = re.search(r"ServerSteps::\w+|SeatAtSteps::\w+|TurnLock::enter", name)
            if step and calls[name] >= each:
                print(f"  {step[0]:40}{calls[name] / each / 2:8.2f}{within[name] / calls[name]:14.0f}{within[name] / calls[name] / rate:14.2f}", flush=True)
finally:
    shutil.rmtree(work)
PY
