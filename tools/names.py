#!/usr/bin/env python3
"""names.py PAGE..: finds what pages name and nothing has.

Of each page it takes the texts between backticks: a path has to be there, from the top of the repository, below crates/ or beside
the page, and each word of the others has to stand in a file of crates/, bench/, examples/, tools/ or of the kit's guides and
libraries. It prints what isn't found, and the status is 1 then. Words of shell commands, words of one letter, names that the checker makes of
such a one (out-X) or of a pattern (in-Some), and those that stand for others (PLAIN below) aren't looked for.
"""
import os
import re
import shutil
import sys

TOP = os.path.dirname(os.path.dirname(os.path.realpath(__file__)))
KIT = os.path.dirname(os.path.dirname(os.path.realpath(shutil.which("rt") or "")))
PLAIN = {"PRODUCTION", "TRAIT", "RT_JOBS", "FOLDER", "lay2"}
WORD = r"[^\W\d][\w']*(?:-[\w']+)*"


def words_of(*folders):
    found = set()
    for folder in folders:
        for at, inner, names in os.walk(folder):
            inner[:] = [it for it in inner if it not in ("out", ".git", "logic_built", "rlibs", "toolchain")]
            found |= {os.path.splitext(it)[0] for it in names} | set(inner)
            for it in names:
                if it.endswith((".rt", ".antt", ".edit", ".md", ".txt", ".sql", ".py", ".sh")):
                    with open(f"{at}/{it}", encoding="utf-8", errors="replace") as file:
                        text = file.read()
                    found |= set(re.findall(WORD, text)) | set(re.findall(r"\w+", text))
    return found


def is_there(path, page):
    places = [TOP, f"{TOP}/crates", os.path.dirname(os.path.realpath(page)), f"{KIT}/rattle", KIT]
    places += [f"{TOP}/crates/{it}" for it in os.listdir(f"{TOP}/crates")]
    return path.startswith("out/") or any(os.path.exists(f"{at}/{path}") for at in places)


def is_made(word):
    """Whether it is a placeholder, or a name that the checker makes of one or of a pattern."""
    parts = word.split("-")
    return word in PLAIN or word.endswith("_") or parts[0] == "in" and len(parts) > 1 or len(parts) > 1 and any(len(it) == 1 for it in parts)


def main():
    if len(sys.argv) < 2:
        sys.exit(__doc__)
    known = words_of(*(f"{TOP}/{it}" for it in ("crates", "bench", "examples", "tools")), f"{KIT}/rattle", f"{KIT}/bin")
    known |= {word for it in ("ebrd", ".ci/run", "README.md") for word in re.findall(WORD, open(f"{TOP}/{it}", encoding="utf-8").read())}
    lost = 0
    for page in sys.argv[1:]:
        with open(page, encoding="utf-8") as file:
            text = re.sub(r"^```.*?^```$", "", file.read(), flags=re.M | re.S)
        for it in dict.fromkeys(re.findall(r"`([^`\n]+)`", text)):
            if re.fullmatch(r"[\w.+-]+(/[\w.+*-]+)*/|[\w.+-]+(/[\w.+*-]+)+", it) and not it.startswith("/"):
                missing = [] if is_there(it, page) else [it]
            elif re.match(r"(rt|git|setsid|rm|cp|[\w/.]+\.py) ", it):
                missing = []
            else:
                missing = [word for word in re.findall(WORD, it) if len(word) > 1 and word not in known and not is_made(word)]
            for word in missing:
                print(f"{page}: {word}" + (f"   in `{it}`" if word != it else ""))
                lost += 1
    return 1 if lost else 0


if __name__ == "__main__":
    sys.exit(main())
