#!/usr/bin/env python3
"""Lists the definitions that a statement reaches, in an order in which they can be read.

usage: theorem.py [--from CRATE/FILE NAME]     prints the list; without --from, of the contract of the top call `om`
       theorem.py --write | --check            writes the list into docs/THEOREM.md, or says whether it stands there as it is

A definition comes after the one that first speaks of it, and those of one file stand together, at the place of the first.
Of std's words (lists, numbers, sums) nothing is listed; types of the code are listed by name. Lines are those of the
definitions with their comments.
"""
import os
import re
import sys

TOP = os.path.dirname(os.path.dirname(os.path.abspath(__file__)))
HEAD = re.compile(r"^(?: {2}){0,2}(?:(?:abbrev|unfoldable|pub) )*(?:(record|data) )?([A-Za-z_][\w'-]*)(?= |$)")
NAME = re.compile(r"[A-Za-z_][\w'-]*(?:\.[A-Za-z_][\w'-]*)*")
USE = re.compile(r"^(?:ghost )?use Rattle\.([\w.]+?)\.(?:\{([^}]*)\}|([A-Za-z_]\w*))( as (\w+))?;?$")
BEGIN, END = "<!-- list: tools/theorem.py --write -->", "<!-- end of the list -->"


class File:
    """A file of definitions: what it imports, and its definitions with their lines."""

    def __init__(self, crate, module, text):
        self.path = f"crates/{crate}/specs/{module.replace('.', '/')}.antt"
        self.module = f"{crate}.specs.{module}"
        self.imports, self.aliases = imports_of(text)
        self.order, self.lines = [], {}
        self.divide(text.split("\n"))

    def divide(self, lines):
        waiting, name, depth = [], None, None
        for line in lines:
            inside = depth is not None and (line.startswith(" " * (depth + 2)) or not line.strip())
            if inside:
                self.lines[name] += [it for it in (line,) if it.strip()]
            elif line.startswith(("use ", "pub mod ", "mod ", "module ")):
                waiting, name, depth = [], None, None
            elif re.match(r"^(?: {2}){0,2}--", line):
                waiting.append(line)
            elif line.strip():
                head, depth = HEAD.match(line), None
                if head and self.begins(line, head[2]):
                    name = head[2]
                    self.order.append(name)
                    self.lines[name] = []
                    depth = len(line) - len(line.lstrip()) if head[1] else None
                if name:
                    self.lines[name] += [*waiting, line]
                waiting = []
            else:
                waiting = []

    def begins(self, line, name):
        """A definition begins where its type is said, or a record or data; equations go on with it."""
        return name not in (*self.lines, "record", "data") and bool(re.match(r"^(?: {2}){0,2}(?:(?:abbrev|unfoldable|pub|record|data) )+|^(?: {2}){0,2}[\w'-]+ :", line))

    def constructors(self, name):
        """The constructors of a data definition."""
        if not any(re.match(r"^(?: {2}){0,2}(?:pub )?data ", it) for it in self.lines[name]):
            return []
        return [it[1] for it in (re.match(r"^ {2,4}([A-Za-z_]\w*) :", line) for line in self.lines[name]) if it]


def imports_of(text):
    found, aliases = {}, {}
    joined = re.sub(r"\{([^}]*)\}", lambda it: "{" + it[1].replace("\n", " ") + "}", text)
    for line in joined.split("\n"):
        use = USE.match(line.strip())
        if not use:
            continue
        if use[2] is None:
            if use[5]:
                aliases[use[5]] = f"{use[1]}.{use[3]}"
            continue
        for item in use[2].split(","):
            said = item.split(" as ")
            if re.fullmatch(r"\s*[A-Za-z_][\w'-]*\s*", said[0]):
                found[said[-1].strip()] = (use[1], said[0].strip())
    return found, aliases


class House:
    """All definitions of the crates."""

    def __init__(self):
        self.files = {}
        for crate in sorted(os.listdir(f"{TOP}/crates")):
            for at, _, names in sorted(os.walk(f"{TOP}/crates/{crate}/specs")):
                for it in sorted(names):
                    if it.endswith(".antt") and it != "Lib.antt":
                        path = os.path.relpath(f"{at}/{it}", f"{TOP}/crates/{crate}/specs")
                        with open(f"{at}/{it}", encoding="utf-8") as text:
                            file = File(crate, path[: -len(".antt")].replace("/", "."), text.read())
                        self.files[file.module] = file
        self.homes = {(module, made): name for module, file in self.files.items() for name in file.order for made in file.constructors(name)}

    def mentioned(self, file, name):
        """What a definition speaks of, in order: (module, name) pairs of definitions, and types of the code."""
        for line in file.lines[name]:
            said = line.split("--")[0]
            for token in NAME.findall(said):
                yield from self.meant(file, token)

    def meant(self, file, token):
        first, _, rest = token.partition(".")
        if token in file.lines or first in file.lines:
            yield (file.module, token if token in file.lines else first)
        elif first in file.aliases and rest:
            yield (file.aliases[first], rest.split(".")[0])
        elif first in file.imports:
            yield file.imports[first]
        elif (file.module, first) in self.homes:
            yield (file.module, self.homes[file.module, first])

    def home(self, module, name):
        if module in self.files:
            file = self.files[module]
            if name in file.lines:
                return file, name
            if (module, name) in self.homes:
                return file, self.homes[module, name]
        return None, None

    def reached(self, starts):
        """The files in order of first mention, each with the definitions reached; and the types of the code."""
        files, types, seen, waiting = {}, {}, set(), list(starts)
        while waiting:
            module, name = waiting.pop(0)
            file, found = self.home(module, name)
            if file is None:
                if ".declared." in f"{module}." and "std." not in module[:4]:
                    crate, _, path = module.partition(".specs.declared.")
                    kind = [it for it in path.split(".") if it[:1].isupper() and it != "TheVariants"]
                    types.setdefault(crate, {})[kind[-1] if kind else name] = True
                continue
            if (file.module, found) in seen:
                continue
            seen.add((file.module, found))
            files.setdefault(file.module, set()).add(found)
            waiting = [*self.mentioned(file, found), *waiting]
        return files, types


def top_call():
    """What the contract of the top call cites."""
    with open(f"{TOP}/crates/om_command/src/top.rt", encoding="utf-8") as it:
        text = it.read()
    return [pair for pair in imports_of(text)[0].values() if ".specs" in f".{pair[0]}" and not pair[0].startswith("std.")]


def listing(house, starts):
    files, types = house.reached(starts)
    rows, lines, count = [], 0, 0
    for module, names in files.items():
        file = house.files[module]
        here = sum(len(file.lines[it]) for it in names)
        lines, count = lines + here, count + len(names)
        said = ", ".join(f"`{it}`" for it in file.order if it in names)
        rows.append(f"| `{file.path}` | {said} | {here} |")
    head = [f"{count} definitions in {len(files)} files, {lines} lines.", "", "| File | Definitions, in its order | Lines |", "|---|---|---|"]
    tail = ["", "They speak of these types of the code: " + "; ".join(f"{', '.join(f'`{it}`' for it in sorted(named))} of {crate}" for crate, named in sorted(types.items())) + "."]
    return "\n".join([*head, *rows, *tail])


def main():
    words = sys.argv[1:]
    house = House()
    if len(words) == 3 and words[0] == "--from":
        crate, _, file = words[1].partition("/")
        print(listing(house, [(f"{crate}.specs.{file}", words[2])]))
        return 0
    text = listing(house, top_call())
    if not words:
        print(text)
        return 0
    page = f"{TOP}/docs/THEOREM.md"
    with open(page, encoding="utf-8") as it:
        stands = it.read()
    before, rest = stands.split(BEGIN)
    after = rest.split(END)[1]
    wanted = f"{before}{BEGIN}\n{text}\n{END}{after}"
    if words == ["--write"]:
        with open(page, "w", encoding="utf-8") as it:
            it.write(wanted)
        return 0
    if words == ["--check"]:
        if stands != wanted:
            print("docs/THEOREM.md's list is not what the contract of om reaches: run tools/theorem.py --write")
        return int(stands != wanted)
    print(__doc__, file=sys.stderr)
    return 2


if __name__ == "__main__":
    sys.exit(main())
