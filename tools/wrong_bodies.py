#!/usr/bin/env python3
"""Looks whether each wrong body fits the source that it changes: tools/wrong-bodies.sh --check."""
import pathlib
import sys


def faults(edit, crate):
    """Returns what is wrong with an edit of this crate's folder, as texts."""
    source, pairs, news, found = None, [], 0, []
    for line in edit.read_text(encoding="utf-8").splitlines():
        if line.startswith("file: "):
            source = crate / line.removeprefix("file: ").strip()
        elif line.startswith("old: "):
            pairs.append((source, line.removeprefix("old: ")))
        elif line.startswith("new:"):
            news += 1
        elif line.strip():
            found.append(f"a line that nothing reads: {line.strip()[:60]}")
    if not pairs or len(pairs) != news:
        found.append("an 'old:' and a 'new:' for each change")
    for source, old in pairs:
        if source is None or not source.is_file():
            found.append(f"no file {source}")
        elif (times := source.read_text(encoding="utf-8").count(old)) != 1:
            found.append(f"stands {times} times in {source}: {old.strip()[:60]}")
    return found


def main():
    lost, number = [], 0
    for edit in sorted([*pathlib.Path("crates").glob("*/must-fail/*.edit"), *pathlib.Path("wrong-bodies").glob("*/*.edit")]):
        is_of_gate = edit.parts[0] == "crates"
        crate = pathlib.Path("crates") / edit.parts[1]
        number += 1
        lost += [f"{edit}: {it}" for it in faults(edit, crate)]
        if not is_of_gate and (crate / "must-fail" / edit.name).exists():
            lost.append(f"{edit}: the gate has one of this name")
    for it in lost:
        print(it)
    print(f"{number} wrong bodies, {len(lost)} faults")
    return 1 if lost else 0


sys.exit(main())
