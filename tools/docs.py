#!/usr/bin/env python3
"""Tests the crates' README.md against their sources, and makes docs/index/ and the reading list of docs/HEADLINE.md. It also tests
that a definition of specs/ which another crate cites has a name of its own, and docs/ARCHITECTURE.md against crates.txt.

usage: tools/docs.py [--check]    (tools/docs.sh calls it at the top of the repository)

With --check nothing is written, and what stands in docs/ has to be what would be. A fault is a line on standard output, and
the exit status is then 1.
"""
import os
import re
import subprocess
import sys

HEADINGS = ["Promises", "Words", "Only tested and open", "Why so", "Where to add things"]
MADE = "<!-- Made by tools/docs.sh from the README.md of each crate. Edit those, and run it again. -->\n"
HEADLINE = "docs/HEADLINE.md"
ARCHITECTURE = "docs/ARCHITECTURE.md"
# How many lines a page has at most.
LONGEST = {"README.md": 90, ARCHITECTURE: 150}
LIST_BEGINS = "<!-- reading list: made by tools/docs.sh -->"
LIST_ENDS = "<!-- end of the reading list -->"
# A crate of tests or of a benchmark promises nothing, and its head comment tells what it is.
WITHOUT_README = ("px_tests_", "px_bench_")
NAME = r"[A-Za-z_][\w'-]*"
DEFINES = re.compile(
    r"\s*(?:(?:abbrev|unfoldable)\s+)*(?:pub\s+)?(?:(record|data)\s+)?(" + NAME + r")(?:\s+\{[^}]*\})?(\s+:\s|\s+:$|\s+\(|\s+\{[^}=]*:|$)"
)
CITES = re.compile(r"^\s*(?:pub )?(?:ghost )?use Rattle\.(px_\w+)\.specs\.([\w.]+?)(?:\.\{([^}]*)\})?(?: as (\w+))?;?$", re.M)
# Each of these says the same in all of its crates, and isn't yet one definition.
ALIKE = {
    "begins_row": ["px_region", "px_sources"],
    "end_of": ["px_commands", "px_parse"],
    "greatest_stamp": ["px_schema", "px_trail", "px_turns"],
    "half_word_bytes": ["px_file", "px_wal"],
    "indexes_of": ["px_recovery", "px_schema"],
    "is_active": ["px_plan", "px_recovery"],
    "key_at": ["px_region", "px_sources"],
    "most_rows": ["px_group", "px_held"],
    "no_data": ["px_recovery", "px_region"],
    "no_form": ["px_phases", "px_recovery"],
    "number_of_index": ["px_recovery", "px_schema"],
    "number_of_table": ["px_schema", "px_standing"],
    "or_else": ["px_cells", "px_world"],
    "rows_before": ["px_region", "px_sources"],
    "word_bytes": ["px_file", "px_wal"],
}

faults = []


def fault(text):
    faults.append(text)
    print(f"docs: {text}")


def crates():
    """The crates by crates.txt, in its order, each with the crates of this repository that it stands on."""
    stands_on = {}
    for line in open("crates.txt", encoding="utf-8"):
        found = re.match(r"([a-z0-9_]+)[^:#]*:([^#]*)", line)
        if found:
            stands_on[found.group(1)] = [name for name in found.group(2).split() if name.startswith("px_")]
    return stands_on


def read_readme(crate):
    """The title's text and the parts by heading; None where there is no README."""
    path = f"crates/{crate}/README.md"
    if not os.path.exists(path):
        if not crate.startswith(WITHOUT_README):
            fault(f"{path} is missing")
        return None
    lines = open(path, encoding="utf-8").read().split("\n")
    if len(lines) > 81:
        fault(f"{path} has more than 80 lines")
    if lines[0] != f"# {crate}":
        fault(f"{path} doesn't begin with '# {crate}'")
    parts, current = {"": []}, ""
    for line in lines[1:]:
        if line.startswith("## "):
            current = line[3:].strip()
            parts[current] = []
        else:
            parts[current].append(line)
    found = [name for name in parts if name]
    if found != HEADINGS:
        fault(f"{path} has the headings {found}, and not {HEADINGS}")
        for name in HEADINGS:
            parts.setdefault(name, [])
    return parts


def rows(lines, cells, path):
    """The rows of the first table among these lines, but for its head."""
    start = next((i for i, line in enumerate(lines) if line.startswith("|")), len(lines))
    end = next((i for i in range(start, len(lines)) if not lines[i].startswith("|")), len(lines))
    out = []
    for line in lines[start + 2 : end]:
        row = [cell.strip() for cell in re.split(r"(?<!\\)\|", line.strip().strip("|"))]
        if len(row) != cells:
            fault(f"{path}: a row has {len(row)} cells, and not {cells}: {line}")
        else:
            out.append(row)
    return out


def quoted(text):
    return re.findall(r"`([^`]+)`", text)


def function_texts(text, name):
    """From each `fn NAME` to the next function."""
    out = []
    for found in re.finditer(r"\bfn " + re.escape(name) + r"\b", text):
        after = re.search(r"\n\s*(?:pub(?:\(crate\))? )?(?:unsafe )?fn \w", text[found.end():])
        end = found.end() + after.start() if after else len(text)
        out.append(text[found.start():end])
    return out


def test_promise(crate, row):
    path = f"crates/{crate}/README.md"
    call, clause, state, _ = row
    names, where = quoted(call), re.search(r"\(([^()\s]+\.rt)\)", call)
    if not names or not where:
        return fault(f"{path}: no call and file in '{call}'")
    file = f"crates/{crate}/{where.group(1)}"
    if not os.path.exists(file):
        return fault(f"{path}: {where.group(1)} isn't there")
    if state not in ("proved", "tested", "a contract"):
        fault(f"{path}: the state of {names[0]} is '{state}', and neither proved, tested nor a contract")
    text = open(file, encoding="utf-8").read()
    for name in names:
        last = re.split(r"::|\.", re.split(r"[(<]", name)[0])[-1]
        # A trait's contract is asked of whoever implements it: its clauses are those of all its calls.
        parts = [text] if re.search(rf"\btrait {last}\b", text) else function_texts(text, last)
        if not parts:
            fault(f"{path}: {where.group(1)} has no function {last}")
            continue
        for word in quoted(clause):
            # `-` stands for a clause without a name.
            if word == "-":
                continue
            if not any(re.search(r"\b(?:ensures|requires)\*? " + re.escape(word) + r"\b", part) for part in parts):
                fault(f"{path}: {last} has no clause {word} in {where.group(1)}")


def defines(file, word):
    text = open(file, encoding="utf-8").read()
    name = re.escape(word)
    if file.endswith(".rt"):
        return re.search(r"\b(?:struct|enum|trait|fn|const|type|ghost) " + name + r"(?![\w-])", text) or re.search(
            r"^\s*(?:pub )?" + name + r"\b\s*[:(,{]", text, re.M
        )
    before = r"^\s*(?:(?:abbrev|unfoldable|opaque|mutual|pub|record|data)\s+)*"
    return re.search(before + name + r"(?![\w'-])\s*(?::|\{|\()", text, re.M) or re.search(
        before + r"(?:record|data)\s+" + name + r"(?![\w'-])", text, re.M
    )


def test_word(crate, row):
    path = f"crates/{crate}/README.md"
    words, where, _ = row
    files = re.findall(r"[\w/.+-]+\.(?:antt|rt)", where)
    if not files:
        return fault(f"{path}: no file for {words}")
    for one in files:
        if not os.path.exists(f"crates/{crate}/{one}"):
            return fault(f"{path}: {one} isn't there")
    for word in quoted(words):
        if not any(defines(f"crates/{crate}/{one}", word) for one in files):
            fault(f"{path}: {word} isn't defined in {where}")


def table(head, found):
    lines = ["| " + " | ".join(head) + " |", "|" + "---|" * len(head)]
    return "\n".join(lines + ["| " + " | ".join(row) + " |" for row in found]) + "\n"


def index(readmes):
    """The files of docs/index/ by name."""
    promises, words, tested, reasons, places = [], [], [], [], []
    for crate, parts in readmes:
        path = f"crates/{crate}/README.md"
        found = rows(parts["Promises"], 4, path)
        for row in found:
            test_promise(crate, row)
        if found:
            promises.append(f"## {crate}\n\n" + table(["Call", "Clause", "State", "What it says"], found))
        for row in rows(parts["Words"], 3, path):
            test_word(crate, row)
            words.append([row[0], f"{crate}, {row[1]}", row[2]])
        for name, into in (("Only tested and open", tested), ("Why so", reasons), ("Where to add things", places)):
            text = "\n".join(parts[name]).strip()
            if text:
                into.append(f"## {crate}\n\n{text}\n")
    words.sort(key=lambda row: row[0].strip("`").lower())
    return {
        "PROMISES.md": "# What is promised, crate by crate\n\n" + MADE + "\n" + "\n".join(promises),
        "WORDS.md": "# Definitions by name\n\n" + MADE + "\n" + table(["Word", "Where", "What it means"], words),
        "OPEN.md": "# What is only tested, and what is open\n\n" + MADE + "\n" + "\n".join(tested),
        "REASONS.md": "# Decisions within a crate\n\n" + MADE + "\n" + "\n".join(reasons),
        "PLACES.md": "# Where to add things\n\n" + MADE + "\n" + "\n".join(places),
    }


def with_reading_list(text):
    """docs/HEADLINE.md with the definitions that the contract of `phoenix` rests on."""
    where = re.search(r"<!-- claim: (\S+) (\S+) -->", text)
    if not where or LIST_BEGINS not in text or LIST_ENDS not in text:
        fault(f"{HEADLINE} doesn't say where the claim stands, or where its reading list")
        return text
    made = subprocess.run(
        [sys.executable, "tools/cone.py", where.group(1), where.group(2)], capture_output=True, text=True, check=False
    )
    if made.returncode != 0:
        fault(f"tools/cone.py: {made.stderr.strip()}")
        return text
    front, rest = text.split(LIST_BEGINS, 1)
    return front + LIST_BEGINS + "\n\n" + made.stdout + "\n" + LIST_ENDS + rest.split(LIST_ENDS, 1)[1]


def definitions(path):
    """The names that a file of specs/ defines, but for fields of records, constructors of data, and what a `where` helps with."""
    found, inside = set(), None
    for line in open(path, encoding="utf-8"):
        text = line.strip()
        indent = len(line) - len(line.lstrip())
        if not text or text.startswith("--") or (inside is not None and indent > inside):
            continue
        inside = indent if text == "where" else None
        if text.startswith(("use ", "pub use ", "mod ", "pub mod ", "module ", "unfolding ", "infix")):
            continue
        begins = DEFINES.match(line.rstrip("\n"))
        if begins and (begins.group(1) or begins.group(3).strip() == ":"):
            found.add(begins.group(2))
            if begins.group(1):
                inside = indent
    return found


def sources(crate, endings):
    for base, folders, files in os.walk(f"crates/{crate}"):
        folders[:] = [name for name in folders if name != "out"]
        for name in files:
            if name.endswith(endings):
                yield os.path.join(base, name)


def cited(names):
    """The definitions (crate, module, name) that another crate cites."""
    found = set()
    for crate in names:
        for path in sources(crate, (".antt", ".rt")):
            text = open(path, encoding="utf-8").read()
            for of, module, items, alias in CITES.findall(text):
                if of == crate:
                    continue
                if items:
                    found |= {(of, module, item.strip().split(" as ")[0]) for item in items.split(",")}
                elif alias:
                    found |= {(of, module, name) for name in re.findall(r"(?<![\w.'-])" + alias + r"\.(" + NAME + ")", text)}
    return found


def own_names(names):
    """A definition of specs/ that another crate cites has a name of its own."""
    bearers = {}
    for crate in names:
        for path in sources(crate, (".antt",)):
            inside = path.split(os.sep)[2:]
            if inside[0] == "specs" and inside[-1] != "Lib.antt":
                module = ".".join(inside[1:])[: -len(".antt")]
                for name in definitions(path):
                    bearers.setdefault(name, []).append((crate, module, name))
    outer = cited(names)
    twice = {name: found for name, found in bearers.items() if len(found) > 1 and any(one in outer for one in found)}
    for name, found in sorted(twice.items()):
        if sorted(crate for crate, _, _ in found) != ALIKE.get(name):
            where = ", ".join(f"{crate} specs/{module.replace('.', '/')}.antt" for crate, module, _ in sorted(found))
            fault(f"{name} is defined more than once, and another crate cites it: {where}")
    for name in sorted(ALIKE):
        if name not in twice:
            fault(f"tools/docs.py excuses {name}, which has a name of its own")


def architecture():
    """Each library stands in the picture and in the table, and in the picture on no line above one that stands on it."""
    stands_on = {name: below for name, below in crates().items() if not name.startswith(WITHOUT_README)}
    text = open(ARCHITECTURE, encoding="utf-8").read()
    line_of = {}
    for number, line in enumerate(text.split("```")[1].split("\n")):
        for name in re.findall(r"\bpx_\w+", line):
            line_of.setdefault(name, number)
    table = {name for line in text.split("\n") if line.startswith("| px_") for name in re.findall(r"\bpx_\w+", line.split("|")[1])}
    for name, below in stands_on.items():
        if name not in line_of:
            fault(f"{ARCHITECTURE}: the picture lacks {name}")
        if name not in table:
            fault(f"{ARCHITECTURE}: the table lacks {name}")
        for one in below:
            if line_of.get(one, len(text)) < line_of.get(name, 0):
                fault(f"{ARCHITECTURE}: {one} stands above {name} in the picture, which stands on it")


def lengths():
    """No page is longer than it may be."""
    for path, most in LONGEST.items():
        lines = open(path, encoding="utf-8").read().count("\n")
        if lines > most:
            fault(f"{path} has {lines} lines, and may have {most}")


def links():
    """Each link of a document, and each path that it names from the top of the repository, leads somewhere."""
    listed = subprocess.run(["git", "ls-files", "*.md"], capture_output=True, text=True, check=True).stdout.split()
    for path in listed:
        if not os.path.exists(path):
            continue
        text = open(path, encoding="utf-8").read()
        for target in re.findall(r"\]\(([^)#]+)[^)]*\)", text):
            if "://" not in target and not os.path.exists(os.path.join(os.path.dirname(path), target)):
                fault(f"{path}: {target} isn't there")
        for named in re.findall(r"(?<![\w/])(?:crates|docs|tests|tools|bench|examples)/[\w./+-]*\w", text):
            if "NAME" not in named and "/out" not in named and not os.path.exists(named):
                fault(f"{path}: {named} isn't there")


def main():
    check = "--check" in sys.argv[1:]
    readmes = [(crate, parts) for crate in crates() if (parts := read_readme(crate)) is not None]
    made = {f"docs/index/{name}": text for name, text in index(readmes).items()}
    if os.path.exists(HEADLINE):
        made[HEADLINE] = with_reading_list(open(HEADLINE, encoding="utf-8").read())
    for path, text in made.items():
        old = open(path, encoding="utf-8").read() if os.path.exists(path) else None
        if old == text:
            continue
        if check:
            fault(f"{path} isn't what tools/docs.sh makes: run it and commit what it wrote")
        else:
            os.makedirs(os.path.dirname(path), exist_ok=True)
            with open(path, "w", encoding="utf-8") as out:
                out.write(text)
    links()
    own_names(crates())
    architecture()
    lengths()
    sys.exit(1 if faults else 0)


main()
