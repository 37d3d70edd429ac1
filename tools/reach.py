#!/usr/bin/env python3
"""Prints what the contract of `serve` reaches: how many definitions of specs/, their lines and files, and the lines of the types.

    tools/reach.py            prints the totals, and those of each crate
    tools/reach.py --files    prints besides what is reached in each file
    tools/reach.py --why NAME tells, for each definition or type of that name, what it is reached through
    tools/reach.py --check    the status is 1 where docs/DEFINITIONS.md tells other totals, leaves a file out, or has one before another
                              that it uses

It begins with the clauses of `serve` in ebr_server/src/command.rt and the traits of the outside, on which they are said, and follows
each name in a clause or a definition through the `use` lines of its file. Of a definition lines count that are no comment, of a type
in code those of its declaration and of its model. A name counts as a use of what was imported under it, so a field of the same name
does too: what is printed is an upper bound.
"""
import collections
import glob
import os
import re
import sys

TOP = os.path.dirname(os.path.dirname(os.path.realpath(__file__)))
PAGE = f"{TOP}/docs/DEFINITIONS.md"
NAME = re.compile(r"(?<![.\w'◌])[A-Za-z_◌][\w◌'≡≤<+-]*(?:\.[A-Za-z_][\w']*)*")
HEAD = re.compile(r"(?:  )?(?:abbrev|unfoldable|pub record|record|pub data|data) +(?:pub )?(\S+)")
LISTED = re.compile(r"^ *(?:ghost )?use Rattle\.(\w+)\.((?:specs|proofs)[^\s{};]*?)\.?\{([^}]*)\};?$", re.M)
WHOLE = re.compile(r"^ *(?:ghost )?use Rattle\.(\w+)\.((?:specs|proofs)[^\s{};]*?)(?: as (\w+))?;?$", re.M)
ROOTS = [(f"ebr_outside/src/{it.lower()}.rt", it) for it in ("Host", "Source", "Sink", "Disk")]


def sources():
    """Returns the text of each file of code, definitions and proofs."""
    texts = {}
    for part in ("src/**/*.rt", "specs/**/*.antt", "proofs/**/*.antt"):
        for path in glob.glob(f"{TOP}/crates/*/{part}", recursive=True):
            with open(path, encoding="utf-8") as file:
                texts[os.path.relpath(path, f"{TOP}/crates")] = file.read()
    return texts


class Reach:
    def __init__(self):
        self.texts = sources()
        self.parsed = {}
        self.through = {}  # what is reached, a file and a name, with what it is reached through
        self.uses = set()  # pairs of files, of which the first names something of the second
        self.ahead = collections.deque()
        self.lines = collections.Counter()  # how many lines of each definition or type

    def imports(self, file):
        """Returns what a file imports: by the word that stands for it, a crate, a path, and a name or none."""
        found = {}
        for crate, path, names in LISTED.findall(self.texts[file]):
            for it in names.split(","):
                name, _, word = it.strip().partition(" as ")
                found[word or name] = (crate, path, name)
        for crate, path, word in WHOLE.findall(self.texts[file]):
            found[word or path.split(".")[-1]] = (crate, path, None)
        return found

    def definitions(self, file):
        """Returns the definitions of a file of specs, each with its lines."""
        found, name = {}, None
        for line in self.texts[file].splitlines():
            if line.startswith(("use ", "--")) or not line.strip():
                continue
            head = HEAD.match(line)
            name = head[1] if head else name
            if name:
                found.setdefault(name, []).append(line)
        return found

    def parse(self, file):
        if file not in self.parsed:
            self.parsed[file] = (self.definitions(file) if file.endswith(".antt") else {}, self.imports(file))
        return self.parsed[file]

    def file_of_code(self, crate, parts):
        files = (f"{crate}/src/{'/'.join(parts[:n])}.rt" for n in range(len(parts), 0, -1))
        return next((it for it in files if it in self.texts), None)

    def reach(self, crate, path, name, by):
        """Notes what a path of an import, or a name in it, stands for."""
        parts = [*path.split("."), *([name] if name else [])]
        if parts[:2] == ["specs", "declared"]:  # a type that code declares, or a variant of one
            file = self.file_of_code(crate, parts[2:])
            if file:
                behind = parts[2 + len(file.split("/")) - 2 :]
                self.note(file, behind[0] if behind else parts[-1], by)
            return
        for n in range(len(parts), 1, -1):
            file = f"{crate}/{'/'.join(parts[:n])}.antt"
            if file in self.texts:
                if len(parts) > n:
                    self.note(file, self.defining(file, parts[n]), by)
                return

    def defining(self, file, name):
        """Returns the definition of a name: itself, or the record or data that has it as a field or a constructor."""
        found = self.parse(file)[0]
        if name in found:
            return name
        same = (it for it in found if it.strip("◌") == name.strip("◌"))
        having = (it for it in found if any(re.match(rf"\s+(?:pub )?{re.escape(name)}\b", line) for line in found[it]))
        return next(same, None) or next(having, None)

    def note(self, file, name, by):
        if name:
            self.uses.add((by.split()[0], file))
        if name and (file, name) not in self.through:
            self.through[file, name] = by
            self.ahead.append((file, name))

    def follow(self, text, file, by):
        """Notes what the names of a text stand for in its file."""
        own, imported = self.parse(file)
        for whole in NAME.findall(text):
            head, _, rest = whole.partition(".")
            for word in dict.fromkeys((whole, head)):
                if word in imported:
                    crate, path, name = imported[word]
                    self.reach(crate, path, name or rest.split(".")[0], by)
                elif word in own:
                    self.note(file, word, by)

    def declaration(self, file, name):
        """Returns the lines that declare a type in code, and those of its model."""
        text = self.texts[file]
        heads = (rf"^ *pub(?:\(crate\))? (?:struct|enum|trait) {name}\b", rf"^impl(?:<[^>]*>)? Model for {name}\b")
        blocks = [re.search(rf"{head}(?:[^\n{{]*;$|.*?^}})", text, re.M | re.S) for head in heads]
        return [line for block in blocks if block for line in block[0].splitlines()]

    def fields(self, block, file, by):
        """Notes the types that a declaration names."""
        uses = re.findall(r"(?<!ghost )\buse (ebr_\w+|crate)::([^;]+);", self.texts[file])
        imported = {word: crate for crate, names in uses for word in re.findall(r"\w+", names)}
        for name in sorted({*re.findall(r"\b[A-Z]\w+", block)}):
            crate = imported.get(name, "crate").replace("crate", file.split("/")[0])
            declares = re.compile(rf"^ *pub(?:\(crate\))? (?:struct|enum|trait) {name}\b", re.M)
            files = [file, *(it for it in self.texts if name in imported and it.startswith(f"{crate}/src/"))]
            found = next((it for it in files if declares.search(self.texts[it])), None)
            if found:
                self.note(found, name, by)

    def run(self, file, function):
        clauses = re.search(rf"pub fn {function}<.*?\n\{{\n", self.texts[file], re.S)[0]
        self.follow(re.sub(r"//.*", "", clauses), file, function)
        for it in ROOTS:
            self.note(*it, function)
        while self.ahead:
            file, name = self.ahead.popleft()
            by = f"{file} {name}"
            if file.endswith(".antt"):
                block = self.parse(file)[0][name]
                self.lines[file, name] = sum(not it.startswith("--") for it in block)
                self.follow(re.sub(r"--.*", "", "\n".join(block)), file, by)
            else:
                block = self.declaration(file, name)
                self.lines[file, name] = len(block)
                text = re.sub(r"//.*", "", "\n".join(block))
                self.follow(text, file, by)
                self.fields(text, file, by)


def totals(lines):
    """Returns how many definitions these are, their lines, the lines of types, and the files of definitions."""
    defined = {it: n for it, n in lines.items() if it[0].endswith(".antt")}
    of_types = sum(lines.values()) - sum(defined.values())
    return len(defined), sum(defined.values()), of_types, len({file for file, _ in defined})


def places(page):
    """Returns the files that the page lists, each with its place in the order."""
    found, crates = {}, []
    for line in page.partition("\n## Behind other promises")[0].splitlines():
        if line.startswith("#"):
            crates = re.findall(r"`(ebr_\w+)`", line)
        for name in re.findall(r"`([^`]+)`", line.partition(": ")[0]) if line.startswith("- ") else ():
            for file in (f"{crate}/specs/{name}.antt" for crate in crates):
                if os.path.exists(f"{TOP}/crates/{file}"):
                    found.setdefault(file, len(found))
    return found


def check(reach):
    """Compares the page with what is reached, and prints what differs."""
    with open(PAGE, encoding="utf-8") as file:
        page = file.read()
    told = "{:,} definitions in {:,} lines of {} files, and {:,} lines of types".format(*(totals(reach.lines)[it] for it in (0, 1, 3, 2)))
    place = places(page)
    files = {file for file, _ in reach.lines if file.endswith(".antt")}
    wrong = [] if told in page else [f"doesn't tell the totals: {told}"]
    wrong += [f"leaves out {it}" for it in sorted(files - {*place})]
    turned = (it for it in sorted(reach.uses) if place.get(it[0], len(place)) < place.get(it[1], 0))
    wrong += [f"has {first} before {second}, which it uses" for first, second in turned]
    for it in wrong:
        print(f"docs/DEFINITIONS.md {it}")
    print(told)
    return 1 if wrong else 0


def main():
    reach = Reach()
    reach.run("ebr_server/src/command.rt", "serve")
    if "--check" in sys.argv:
        return check(reach)
    if "--why" in sys.argv:
        for (file, name), by in sorted(reach.through.items()):
            if name == sys.argv[-1]:
                print(f"{file} {name}: through {by}")
        return 0
    print("{} definitions, {} lines, {} lines of types, {} files".format(*totals(reach.lines)))
    for crate in sorted({file.split("/")[0] for file, _ in reach.lines}):
        its = {it: n for it, n in reach.lines.items() if it[0].startswith(f"{crate}/")}
        print("{:16} {:4} definitions {:5} lines {:4} of types {:3} files".format(crate, *totals(its)))
    for file in sorted({it[0] for it in reach.lines}) if "--files" in sys.argv else ():
        names = [it[1] for it in reach.lines if it[0] == file]
        print(f"{file} {sum(reach.lines[file, it] for it in names)}: {' '.join(names)}")
    return 0


if __name__ == "__main__":
    sys.exit(main())
