#!/usr/bin/env python3
"""Makes the table of crates in docs/DESIGN.md, and prints the longest chain of crates that stand on each other.

    tools/crates.py           writes the table between its two marker comments
    tools/crates.py --check   writes nothing; the status is 1 where the table isn't that of the sources

A row has the crate, the first sentence of the first comment of its src/lib.rt or src/main.rt, its depth, which is 1 where it stands
on no other crate and else one more than the greatest depth beneath it, and the crates directly beneath it: those of its line in
crates.txt on which none of the others there stands. Crates that hold tests come last, and count in no chain. What is printed are the
chain, its length, and each crate that the page's list of families leaves out, or names though there is none.
"""
import os
import re
import sys

TOP = os.path.dirname(os.path.dirname(os.path.realpath(__file__)))
PAGE = f"{TOP}/docs/DESIGN.md"
BEGIN, END = "<!-- crates: written by tools/crates.py -->", "<!-- end of the crates -->"
TESTS = re.compile(r"ebr_(\w+tests|cases|trial)")


def read(path):
    with open(path, encoding="utf-8") as file:
        return file.read()


def crates():
    """Returns each crate with those of its line in crates.txt, without the kit's."""
    lines = [it.partition(":") for it in read(f"{TOP}/crates.txt").splitlines() if it.strip()]
    named = {head.split()[0]: rest.split() for head, _, rest in lines}
    return {crate: [it for it in beneath if it in named] for crate, beneath in named.items()}


def all_beneath(crate, of):
    """Returns all crates that a crate stands on."""
    return {deep for it in of[crate] for deep in all_beneath(it, of) | {it}}


def chains(of):
    """Returns for each crate a longest chain of crates that ends with it."""
    found = {}

    def ending_with(crate):
        if crate not in found:
            found[crate] = max((ending_with(it) for it in of[crate]), key=len, default=[]) + [crate]
        return found[crate]

    return {crate: ending_with(crate) for crate in of}


def purpose(crate):
    """Returns the first sentence of a crate's first comment."""
    folder = f"{TOP}/crates/{crate}/src"
    path = next(it for it in (f"{folder}/lib.rt", f"{folder}/main.rt") if os.path.exists(it))
    comment = re.match(r"(?://!.*\n)*", read(path))[0]
    paragraph = comment.replace("//!", "").partition("\n\n")[0].split("\n \n")[0]
    return re.match(r".*?\.(?=\s|$)", " ".join(paragraph.split()))[0]


def short(names):
    return " ".join(it.removeprefix("ebr_") for it in names)


def table(of):
    product = {crate: beneath for crate, beneath in of.items() if not TESTS.fullmatch(crate)}
    depth = {crate: len(chain) for crate, chain in chains(of).items()}
    rows = ["| | Crate | What it is for | Directly beneath |", "|---|---|---|---|"]
    for crate in [*sorted(product, key=depth.get), *(it for it in of if it not in product)]:
        deeper = {deep for it in of[crate] for deep in all_beneath(it, of)}
        beneath = short(it for it in of[crate] if it not in deeper)
        rows.append(f"| {depth[crate] if crate in product else ''} | {short([crate])} | {purpose(crate)} | {beneath} |".replace("  ", " "))
    return "\n".join(rows), max(chains(product).values(), key=len)


def tell_families(page, of):
    """Prints what the list of families lacks, and what it has too much. Crates of tests have none."""
    named = re.findall(r"`(\w+)`", "".join(re.findall(r"^\| [A-Z].*?\|(.*)\|$", page.partition(BEGIN)[0], re.M)))
    full = {it if it in of else f"ebr_{it}" for it in named}
    product = {it for it in of if not TESTS.fullmatch(it)}
    for crate in sorted(full ^ product):
        print(f"the families of docs/DESIGN.md: {crate} is {'left out' if crate in product else 'no crate of the product'}")
    return full == product


def main():
    of = crates()
    rows, chain = table(of)
    page = read(PAGE)
    before, _, rest = page.partition(BEGIN)
    _, end, behind = rest.partition(END)
    if not end:
        sys.exit(f"{PAGE} has no place for the table: {BEGIN} and {END}")
    made = f"{before}{BEGIN}\n\n{rows}\n\n{END}{behind}"
    print(f"the longest chain has {len(chain)} crates: {short(chain)}")
    families = tell_families(page, of)
    if "--check" in sys.argv[1:]:
        if made != page:
            print("the table of crates in docs/DESIGN.md isn't that of the sources: run tools/crates.py")
        return 0 if made == page and families else 1
    with open(PAGE, "w", encoding="utf-8") as file:
        file.write(made)
    return 0


if __name__ == "__main__":
    sys.exit(main())
