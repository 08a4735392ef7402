#!/usr/bin/env python3
"""The examples in documents against the built program.

usage: tools/examples.py [--write] FILE ..     (at the top of the repository)

In a document, a block that begins with ```sql is a script, which `./nipuhako run FOLDER` is given; the block ```text behind it is what
it prints. In a block that begins with ```console the lines that begin with '$ ' are commands of the shell (and those with '> ' go on with
one), and the others are what they print. A line `<!-- folder NAME -->` names the folder of the scripts that follow. All commands of a
document run one after the other in one shell. Numbers of 13 digits are times, and any two of them count as the same.
With --write what is printed is written into the document. Exit status 0 where all is as it should be.
"""
import os
import re
import subprocess
import sys
import tempfile

TIME = re.compile(r"\b\d{13}\b")


def read(lines):
    """The pieces of a document: ('is', lines) stands as it is; ('run', command) and ('out', lines) follow one another."""
    pieces, kind, folder, script = [("is", [])], None, "examples", []

    def add(what, line):
        if pieces[-1][0] != what:
            pieces.append((what, []))
        pieces[-1][1].append(line)

    for line in lines:
        named = re.match(r"<!-- folder (\S+) -->$", line)
        if kind is None and named:
            folder = named.group(1)
        if kind is None and line.startswith("```"):
            kind = line[3:]
            script = []
            add("is", line)
            if kind == "text" and is_asked(pieces):
                pieces.append(("out", []))
        elif kind is not None and line == "```":
            if kind == "sql":
                pieces.append(("run", [f"./nipuhako run {folder} <<'END OF SCRIPT'\n" + "\n".join(script) + "\nEND OF SCRIPT"]))
            kind = None
            add("is", line)
        elif kind == "sql":
            script.append(line)
            add("is", line)
        elif kind == "console" and line.startswith("$ "):
            add("is", line)
            pieces.append(("run", [line[2:]]))
            pieces.append(("out", []))
        elif kind == "console" and line.startswith("> ") and len(pieces) > 1 and pieces[-2][0] == "run" and not pieces[-1][1]:
            pieces[-2][1][0] += "\n" + line[2:]
            pieces[-2:-2] = [("is", [line])]
        elif (kind == "console" or kind == "text") and pieces[-1][0] == "out":
            pieces[-1][1].append(line)
        else:
            add("is", line)
    return pieces


def is_asked(pieces):
    """Whether a script stands before, of which nothing was printed yet."""
    for what, _ in reversed(pieces):
        if what in ("run", "out"):
            return what == "run"
    return False


def run(commands, top):
    """What each command prints."""
    mark = "=== the next command ==="
    shell = "".join(f"{command}\necho '{mark}'\n" for command in commands)
    with tempfile.TemporaryDirectory() as work:
        os.symlink(os.path.join(top, "nipuhako"), os.path.join(work, "nipuhako"))
        done = subprocess.run(["bash"], cwd=work, input=shell.encode(), stdout=subprocess.PIPE, stderr=subprocess.DEVNULL)
    return [one.split("\n")[:-1] for one in done.stdout.decode().split(mark + "\n")[:-1]]


def check(name, write, top):
    lines = open(name, encoding="utf-8").read().split("\n")
    pieces = read(lines)
    printed = run([text[0] for what, text in pieces if what == "run"], top)
    wrong, place, out, at, is_told = 0, -1, [], 1, True
    for what, text in pieces:
        if what == "run":
            place, is_told = place + 1, False
        elif what == "out":
            is_told = True
            got = printed[place] if place < len(printed) else ["(nothing: the shell ended)"]
            if not write and TIME.sub("TIME", "\n".join(got)) != TIME.sub("TIME", "\n".join(text)):
                wrong += 1
                print(f"WRONG: {name}:{at}: it prints")
                print("\n".join(got))
            text = got if write else text
            out += text
            at += len(text)
        else:
            out += text
            at += len(text)
    if not is_told or place + 1 != len(printed):
        wrong += 1
        print(f"WRONG: {name}: a script without what it prints, or a shell that ended early")
    if write:
        open(name, "w", encoding="utf-8").write("\n".join(out))
    print(f"{name}: {place + 1} examples, {wrong} wrong")
    return wrong


def main():
    words = sys.argv[1:]
    write = words[:1] == ["--write"]
    top = os.getcwd()
    sys.exit(1 if sum(check(name, write, top) for name in words[write:]) else 0)


main()
