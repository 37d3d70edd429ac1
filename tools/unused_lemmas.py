#!/usr/bin/env python3
"""Prints the lemmas that nothing names: FILE:LINE NAME, a line for each, and how many there are of how many.

    tools/unused_lemmas.py [CRATE ..]   of all crates, or of these

A lemma is a definition in a crate's proofs/, but for the answers and invariants that the checker looks up by their places, and the
examples, which are computed for their own sake. It is named where its name stands in its file outside its own lines, in code that
gives its path, or in another file that imports it and has its name or that of its file with it. So a local name that is the same
hides a lemma from this list. What a proof's `search` finds by itself isn't seen: take a lemma out, and check its crate.
"""
import glob
import os
import re
import sys

TOP = os.path.dirname(os.path.dirname(os.path.realpath(__file__)))
PART = r"[\w◌'≡≤<+-]"
HEAD = re.compile(rf"^( *)(?:(?:pub|abbrev|unfoldable) )*({PART}+) : ")
IMPORT = re.compile(r"^(?:ghost )?use Rattle\.(\w+)\.(proofs\.\S+?)(?:\.?\{([^}]*)\}| as (\S+?))?;?$", re.M)
IN_CODE = re.compile(r"\b(crate|ebr_\w+)::(proofs::[\w:]+)::([\w-]+)")
BY_PLACE = re.compile(r"(Answers|Invariants|Examples|Lib)\.antt$")


def without_comments(text):
    return re.sub(r"(?:--|//).*", "", text)


def lemmas(text):
    """Returns each definition of a file: its name, the numbers of its lines from the first to behind the last."""
    lines = text.splitlines()
    heads = [(at, found[1], found[2]) for at, line in enumerate(lines) if (found := HEAD.match(line))]
    found = []
    for at, indent, name in heads:
        # A field or a local name has no equation on a line of its own.
        if not re.search(rf"^{indent}{re.escape(name)}(?= |$)(?! :)", "\n".join(lines[at + 1 :]), re.M):
            continue
        own = re.compile(rf"{indent}(?: |{re.escape(name)}(?!{PART}))|\s*$")
        end = next((it for it in range(at + 1, len(lines)) if not own.match(lines[it])), len(lines))
        found.append((name, at, end))
    return found


def names(name, text):
    return re.search(rf"(?<!{PART})(?<!{PART}\.){re.escape(name)}(?!{PART})", text)


def imported(text):
    """Returns what a file imports of proofs: pairs of a file and a name, and of a file and the word that stands for it."""
    single, whole = set(), {}
    for crate, path, listed, alias in IMPORT.findall(text):
        file = f"{crate}/{path.replace('.', '/')}.antt"
        for it in listed.split(","):
            first, _, second = it.strip().partition(" as ")
            single.add((file, first, second or first))
        if not listed:
            whole[file] = alias or path.split(".")[-1]
    return single, whole


def main():
    texts = {}
    for part in ("src/**/*.rt", "specs/**/*.antt", "proofs/**/*.antt"):
        for path in glob.glob(f"{TOP}/crates/*/{part}", recursive=True):
            with open(path, encoding="utf-8") as file:
                texts[os.path.relpath(path, f"{TOP}/crates")] = file.read()
    users = {}
    for file, text in texts.items():
        single, whole = imported(text)
        used = re.sub(r"^(?:ghost )?use .*", "", without_comments(text), flags=re.M)
        for crate, path, name in IN_CODE.findall(used) if file.endswith(".rt") else ():
            crate = file.split("/")[0] if crate == "crate" else crate
            users.setdefault((f"{crate}/{path.replace('::', '/')}.antt", name), []).append((name, name))
        for of, name, word in single:
            users.setdefault((of, name), []).append((used, word))
        for of, word in whole.items():
            users.setdefault((of, None), []).append((used, word))
    count = unused = 0
    for file, text in sorted(texts.items()):
        if "/proofs/" not in file or BY_PLACE.search(file) or sys.argv[1:] and file.split("/")[0] not in sys.argv[1:]:
            continue
        lines = without_comments(text).splitlines()
        for name, at, end in lemmas(without_comments(text)):
            count += 1
            in_others = any(names(word, used) for used, word in users.get((file, name), []))
            through_file = any(f"{word}.{name}" in used for used, word in users.get((file, None), []))
            if names(name, "\n".join(lines[:at] + lines[end:])) or in_others or through_file:
                continue
            unused += 1
            print(f"crates/{file}:{at + 1} {name}")
    print(f"{unused} of {count} lemmas are named nowhere")


if __name__ == "__main__":
    main()
