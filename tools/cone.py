#!/usr/bin/env python3
"""The reading cone of a call: all definitions of the project that its contract rests on, in an order in which they can
be read, each after those that it names. It ends with an error where one that is named isn't found.

usage: tools/cone.py FILE FUNCTION     (at the top of the repository)

Prints a Markdown table, one row a module, lowest first: its file and its definitions, as they stand in it.
"""
import collections
import os
import re
import sys

NAME = r"[A-Za-z_][\w'\-≤≡]*"
USE = re.compile(r"^\s*(?:ghost |pub )?use Rattle\.(px_\w+\.specs\.[\w.]+?)(?:\.\{(.*)\})?(?: as (\w+))?;?$")
# A definition begins at the margin, or within a module with arguments or a `mutual` two blanks behind that.
BEGINS = re.compile(
    r"^ *(?:(?:abbrev|unfoldable|opaque|irreducible|mutual)\s+)*(?:pub\s+)?(?:(record|data)\s+)?(" + NAME + r")(.*)$"
)
WITHIN = re.compile(r"^ *(?:module\b.*\bwhere|(?:(?:abbrev|unfoldable|opaque|irreducible) )*mutual)$")
CONSTRUCTOR = re.compile(r"^ *(" + NAME + r") :(?: |$)")


class Module:
    def __init__(self, name):
        self.name = name
        self.file = os.path.join("crates", *name.split(".")) + ".antt"
        self.texts = collections.OrderedDict()
        self.constructors = {}
        self.imports = {}
        self.aliases = {}
        self.exists = os.path.exists(self.file)
        if self.exists:
            self.read()

    def read(self):
        current, is_data = None, False
        margins = [0]
        for line in open(self.file, encoding="utf-8"):
            line = line.rstrip("\n")
            use = USE.match(line)
            if use:
                take_imports(use, self.imports, self.aliases)
                continue
            text = line.strip()
            if not text or text.startswith("--"):
                continue
            indent = len(line) - len(line.lstrip())
            while indent < margins[-1]:
                margins.pop()
            if WITHIN.match(line):
                margins.append(indent + 2)
                continue
            if re.match(r"(use|module|unfolding|pub use|pub mod|mod)\b", text):
                continue
            begins = BEGINS.match(line)
            if begins and indent == margins[-1]:
                word, name, rest = begins.groups()
                if word or re.match(r"\s*:\s", rest) or re.match(r"\s*:$", rest) or "pub" in line.split(name)[0].split():
                    if name not in self.texts:
                        self.texts[name] = ""
                    current, is_data = name, word == "data"
            elif is_data and indent == margins[-1] + 2 and CONSTRUCTOR.match(line):
                self.constructors[CONSTRUCTOR.match(line).group(1)] = current
            if current:
                self.texts[current] += line + "\n"


def take_imports(use, imports, aliases):
    module, names, alias = use.groups()
    if names:
        for one in names.split(","):
            renamed = re.match(r"\s*(\S+) as (\S+)\s*$", one)
            if renamed:
                imports[renamed.group(2)] = (module, renamed.group(1))
            else:
                imports[one.strip()] = (module, one.strip())
    elif alias:
        aliases[alias] = module
    else:
        last = module.rsplit(".", 1)
        imports[last[1]] = (last[0], last[1])


class Cone:
    def __init__(self):
        self.modules = {}
        self.found = collections.defaultdict(set)
        self.types = set()
        self.edges = collections.defaultdict(set)

    def module(self, name):
        if name not in self.modules:
            self.modules[name] = Module(name)
        return self.modules[name]

    def visit(self, wanted, name, frm=None):
        module = self.module(wanted)
        if not module.exists:
            if ".declared." in wanted:
                self.types.add(type_of(wanted))
            return
        name = module.constructors.get(name, name)
        if name not in module.texts and name in module.imports:
            # It is passed on by a `pub use`.
            return self.visit(*module.imports[name], frm)
        if name not in module.texts:
            sys.exit(f"cone.py: {module.file} has no definition {name}")
        if frm and frm != wanted:
            self.edges[frm].add(wanted)
        if name in self.found[wanted]:
            return
        self.found[wanted].add(name)
        text = module.texts[name]
        for word in set(re.findall(NAME, text)):
            if word == name:
                continue
            if word in module.texts or word in module.constructors:
                self.visit(wanted, word, wanted)
            elif word in module.imports:
                self.visit(*module.imports[word], wanted)
        for alias, word in re.findall(r"\b(\w+)\.(" + NAME + ")", text):
            if alias in module.aliases:
                self.visit(module.aliases[alias], word, wanted)

    def order(self):
        """The modules, each behind those that it names; of several the first by name."""
        done, out = set(), []

        def put(name):
            if name in done:
                return
            done.add(name)
            for below in sorted(self.edges[name]):
                put(below)
            out.append(name)

        for name in sorted(self.found):
            put(name)
        return [name for name in out if self.found[name]]


def type_of(module):
    """`px_ast.specs.declared.statement.Select` is the type Select of crates/px_ast/src/statement.rt."""
    parts = module.split(".")
    below = parts[3:]
    if below and below[-1] == "TheVariants":
        below = below[:-1]
    if below and below[-1] == "Ghosts":
        below = below[:-1]
    if not below:
        return (parts[0], "", "")
    name = below[-1]
    path = below[:-1]
    base = os.path.join("crates", parts[0], "src")
    file = os.path.join(base, *path) + ".rt" if path else os.path.join(base, "lib.rt")
    if not os.path.exists(file) and path:
        file = os.path.join(base, *path, "mod.rt")
    return (parts[0], file, name)


def contract_of(file, function):
    """The text between `fn FUNCTION` and its body, and the ghost imports of the file."""
    lines = open(file, encoding="utf-8").read().split("\n")
    imports, aliases = {}, {}
    for line in lines:
        use = USE.match(line)
        if use:
            take_imports(use, imports, aliases)
    start = next((i for i, line in enumerate(lines) if re.search(r"\bfn " + function + r"\b", line)), None)
    if start is None:
        sys.exit(f"cone.py: no function {function} in {file}")
    end = next(i for i in range(start, len(lines)) if lines[i] in ("{", "    {"))
    return "\n".join(lines[start:end]), imports, aliases


def main():
    file, function = sys.argv[1], sys.argv[2]
    text, imports, aliases = contract_of(file, function)
    cone = Cone()
    for word in sorted(set(re.findall(NAME, text))):
        if word in imports:
            cone.visit(*imports[word])
    for alias, word in sorted(set(re.findall(r"\b(\w+)\.(" + NAME + ")", text))):
        if alias in aliases:
            cone.visit(aliases[alias], word)
    count = sum(len(names) for names in cone.found.values())
    lines = 0
    print("| # | File | Definitions, in the order of the file |")
    print("|---|---|---|")
    for number, name in enumerate(cone.order(), 1):
        module = cone.modules[name]
        names = [n for n in module.texts if n in cone.found[name]]
        lines += sum(module.texts[n].count("\n") for n in names)
        print(f"| {number} | {module.file} | " + ", ".join(f"`{n}`" for n in names) + " |")
    types = sorted((f, n) for _, f, n in cone.types if f and os.path.exists(f))
    by_file = collections.OrderedDict()
    for path, name in types:
        by_file.setdefault(path, []).append(name)
    print()
    print("| Types of the code in them | Where |")
    print("|---|---|")
    for path, names in by_file.items():
        print("| " + ", ".join(f"`{n}`" for n in sorted(set(names))) + f" | {path} |")
    print()
    print(f"{count} definitions of {lines} lines, in {len(cone.order())} files.")


main()
