#!/usr/bin/env python3
"""A stress test of sessions at once, beside the gate.

Each run begins in an empty folder: three tables with two indexes each are made, and then eight sessions upsert, delete and read at random, round
after round. In half of the runs the process is killed at a random moment. Afterwards the folder is opened again, and in each table every row is
read through each index: these must be the rows of the table. The rows that a session was told are kept must be there, with the values that it gave
last; what it gave in the round that was cut off may be there or not.

Usage: bench/sessions.py [--runs N] [--seed N] [--program PATH] [--folder DIR]: 1,000 runs, seed 1, the program as the repository builds it, and
the folder in which each run makes its own (one in memory, where the system has it). It prints its counts, and ends with status 1 where a run is wrong.
"""
import argparse
import os
import random
import shutil
import subprocess
import sys
import tempfile
import time

TOP = os.path.dirname(os.path.dirname(os.path.abspath(__file__)))
TABLES = ["T1", "T2", "T3"]
SESSIONS = 8
ROUNDS = 4
STATEMENTS = 6
SHARED_KEYS = 40
OWN_FROM = 1000

MAKE = "".join(
    f"CREATE TABLE {t} (ID BIGINT NOT NULL PRIMARY KEY, A INTEGER, B VARCHAR, C INTEGER);\n"
    f"CREATE INDEX {t}_A ON {t} (A) INCLUDE (B, C);\n"
    f"CREATE INDEX {t}_B ON {t} (B DESC, A) INCLUDE (C);\n"
    for t in TABLES
)
CHECK = "".join(
    f"SELECT ID, A, B, C FROM {t};\n"
    f"SELECT ID, A, B, C FROM {t} ORDER BY A;\n"
    f"SELECT ID, A, B, C FROM {t} ORDER BY B DESC, A;\n"
    for t in TABLES
)
PATHS = "".join(
    f"EXPLAIN SELECT ID, A, B, C FROM {t} ORDER BY A;\nEXPLAIN SELECT ID, A, B, C FROM {t} ORDER BY B DESC, A;\n"
    for t in TABLES
)


class Wrong(Exception):
    """What a run did that it must not do."""


def value(draw):
    a = "NULL" if draw.random() < 0.1 else str(draw.randrange(12))
    b = "NULL" if draw.random() < 0.1 else f"'b{draw.randrange(9)}'"
    return a, b


def statement(draw, session, counts):
    """A statement, its kind, and of an own row its table, key and number."""
    table = draw.choice(TABLES)
    kind = draw.random()
    if kind < 0.3:
        # A row of the session alone. Nobody deletes it, and its A tells how often it was given.
        key = OWN_FROM * session + draw.randrange(5)
        number = counts["own"] = counts["own"] + 1
        text = f"UPSERT INTO {table} VALUES ({key},{100 + number},'s{session}',{number})"
        return text, "own", (table, key, number)
    if kind < 0.65:
        a, b = value(draw)
        return f"UPSERT INTO {table} VALUES ({draw.randrange(SHARED_KEYS)},{a},{b},{draw.randrange(99)})", "upsert", None
    if kind < 0.75:
        return f"DELETE FROM {table} WHERE A = {draw.randrange(12)}", "delete", None
    column = draw.choice(["A = 3", "B = 'b2'", "ID < 9", "A > 7"])
    return f"SELECT ID, A, B, C FROM {table} WHERE {column}", "select", None


def script_of(draw):
    """The script, and for each round and session what it asks."""
    counts = {"own": 0}
    text, asked = [MAKE], []
    for _ in range(ROUNDS):
        text.append("---\n")
        each = {}
        for session in range(1, SESSIONS + 1):
            each[session] = []
            for _ in range(STATEMENTS):
                words, kind, row = statement(draw, session, counts)
                each[session].append((kind, row))
                text.append(f"@{session} {words};\n")
        asked.append(each)
    return "".join(text), asked


def told(lines, asked):
    """How many rounds were answered whole, by what was printed. Refusals are counted; there should be none."""
    at, whole = 9, 0
    if lines[:9] != ["table created", "index created", "index created"] * 3:
        return 0 if len(lines) < 9 else bad(f"the tables: {lines[:9]}")
    for each in asked:
        if at >= len(lines):
            break
        for session in range(1, SESSIONS + 1):
            if session > 1:
                if at >= len(lines) or lines[at] != f"@{session}":
                    return whole
                at += 1
            for kind, _ in each[session]:
                if kind == "select":
                    while at < len(lines) and not lines[at].endswith("selected"):
                        at += 1
                if at >= len(lines):
                    return whole
                right = {"own": "1 row affected", "upsert": "1 row affected"}.get(kind)
                if right and lines[at] != right:
                    bad(f"{kind} of session {session}: {lines[at]}")
                if kind == "delete" and not lines[at].endswith("affected"):
                    bad(f"delete of session {session}: {lines[at]}")
                at += 1
        whole += 1
    return whole


def bad(text):
    raise Wrong(text)


def read_rows(lines):
    """The rows of each query."""
    answers, rows = [], []
    for line in lines:
        if line.endswith(" selected"):
            count = int(line.split()[0])
            if count != len(rows):
                bad(f"{line} after {len(rows)} rows")
            answers.append(rows)
            rows = []
        else:
            rows.append(line)
    return answers


def run(program, folder, script, kill_after):
    """What was printed, and whether the process was killed before its end."""
    process = subprocess.Popen([program, "run", folder], stdin=subprocess.PIPE, stdout=subprocess.PIPE, stderr=subprocess.PIPE)
    if kill_after is None:
        out, err = process.communicate(script.encode())
        return out.decode().splitlines(), process.returncode, err.decode()
    process.stdin.write(script.encode())
    process.stdin.close()
    process.stdin = None
    time.sleep(kill_after)
    process.kill()
    out, err = process.communicate()
    return out.decode().splitlines(), process.returncode, err.decode()


def compare(lines, asked, whole):
    answers = read_rows(lines)
    if len(answers) != 9:
        bad(f"{len(answers)} answers: {lines[-3:]}")
    kept = {}
    for place, table in enumerate(TABLES):
        rows, by_a, by_b = answers[3 * place:3 * place + 3]
        for name, other in (("A", by_a), ("B", by_b)):
            if sorted(rows) != sorted(other):
                bad(f"{table}_{name}: {set(rows) ^ set(other)}")
        for row in rows:
            words = row.split(", ")
            if int(words[0]) >= OWN_FROM:
                kept[table, int(words[0])] = int(words[3])
    acknowledged, later = {}, {}
    for number, each in enumerate(asked):
        for session in each:
            for kind, row in each[session]:
                if kind == "own":
                    if number < whole:
                        acknowledged[row[:2]] = row[2]
                    else:
                        later.setdefault(row[:2], set()).add(row[2])
    for place, number in acknowledged.items():
        if kept.get(place) != number and kept.get(place) not in later.get(place, set()):
            bad(f"row {place}: {kept.get(place)} for {number}")
    for place, number in kept.items():
        if acknowledged.get(place) != number and number not in later.get(place, set()):
            bad(f"row {place}: {number} wasn't given last")
    return len(acknowledged), sum(len(rows) for rows in answers[::3])


def main():
    words = argparse.ArgumentParser(description=__doc__.splitlines()[0])
    words.add_argument("--runs", type=int, default=1000)
    words.add_argument("--seed", type=int, default=1)
    words.add_argument("--program", default=os.path.join(TOP, "crates/px_main/out/px_main"))
    words.add_argument("--folder", default="/dev/shm" if os.path.isdir("/dev/shm") else None)
    given = words.parse_args()
    draw = random.Random(given.seed)
    work = tempfile.mkdtemp(prefix="sessions.", dir=given.folder)
    wrong = killed = rounds = acknowledged = rows = 0
    longest = 0.05
    try:
        for number in range(given.runs):
            folder = os.path.join(work, "run")
            script, asked = script_of(draw)
            kills = number >= 3 and draw.random() < 0.5
            begun = time.monotonic()
            try:
                lines, status, err = run(given.program, folder, script, draw.random() * longest if kills else None)
                if not kills:
                    longest = max(longest, time.monotonic() - begun) if number < 3 else longest
                    if status != 0:
                        bad(f"status {status}: {err} {lines[-2:]}")
                cut = status != 0
                whole = told(lines, asked)
                if not cut and whole != ROUNDS:
                    bad(f"{whole} rounds answered")
                killed += cut
                rounds += whole
                made = len(lines) >= 9
                if cut and not made:
                    # The first round wasn't told: which tables stand isn't known, but the folder opens.
                    lines, status, err = run(given.program, folder, "SELECT * FROM KV;\n", None)
                    if lines != ["0 rows selected"]:
                        bad(f"after a kill at first: {status} {err} {lines}")
                else:
                    lines, status, err = run(given.program, folder, CHECK, None)
                    if status != 0:
                        bad(f"the check: status {status}: {err}")
                    one, two = compare(lines, asked, whole)
                    acknowledged += one
                    rows += two
                    paths, _, _ = run(given.program, folder, PATHS, None) if number == 0 else ([], 0, "")
                    scans = [line for line in paths if line.startswith("SCAN ")]
                    if number == 0 and scans != [f"SCAN INDEX {t}_{c} OF {t}" for t in TABLES for c in "AB"]:
                        bad(f"paths: {scans}")
            except Wrong as what:
                wrong += 1
                print(f"WRONG: run {number}: {what}")
            shutil.rmtree(folder, ignore_errors=True)
    finally:
        shutil.rmtree(work, ignore_errors=True)
    print(f"runs {given.runs} killed {killed} rounds told {rounds} acknowledged rows {acknowledged} rows read by each index {rows} wrong {wrong}")
    sys.exit(1 if wrong else 0)


main()
