#!/usr/bin/env python3
"""Runs the cases of `cases/` over the program that `rt ci` built, and tells which came to something else than what stands there.

A file is UTF-8 text, cut by the lines that begin with `=== ` or with `--- `:

    What the file shows, in lines that nothing reads.
    --- script
    CREATE TABLE t (a NUMBER);
    --- replies
    OK
    === what this case shows
    --- script
    INSERT INTO t VALUES (1);
    --- replies
    1 rows

What stands in front of the first case is set up for each of them: its texts stand in front of the case's texts of the same heading. A
file may set up nothing. A text is the lines between two headings as they stand, each with its newline; that of the last one is left out
where the heading ends with `, no newline at its end`. A script runs by `try`.

A rehearsal has more texts: `--- order`, `--- session 1`, `--- replies 1`, `--- session 2` and so on, and `--- summary`. It runs by
`rehearse`, over a new journal.

What came is shown beside what is written where they differ. The status is 1 where a case came to something else, or a file has none.
The files that begin with `wrong` are wrong on purpose: what is told of them stands in `cases/wrong.out`, so that this is tested too.

Words name files of `cases/`; without any all of them run.
"""
import os
import subprocess
import sys
import tempfile

TOP = os.path.dirname(os.path.dirname(os.path.realpath(__file__)))
CASES = f"{TOP}/cases"
PROGRAM = f"{TOP}/crates/ebrd/out/ebrd"
OPEN = ", no newline at its end"
# How long a case may take, in seconds.
LIMIT = 60


def texts_of(part):
    """Returns the texts of a part of a file, each with its heading, in order."""
    found = []
    for text in part.split("\n--- ")[1:]:
        heading, newline, lines = text.partition("\n")
        is_open = heading.endswith(OPEN)
        found.append((heading.removesuffix(OPEN), lines + "\n" * (bool(newline) and not is_open)))
    return found


def read_cases(path):
    """Returns the texts of what a file sets up, and its cases: the title of each, and its texts."""
    with open(path, encoding="utf-8") as file:
        setup, *cases = ("\n" + file.read().removesuffix("\n")).split("\n=== ")
    return texts_of(setup), [(case.split("\n--- ")[0], texts_of(case)) for case in cases]


def joined(setup, case):
    """Returns the texts of a case by their headings, each behind what is set up."""
    whole = {}
    for heading, text in [*setup, *case]:
        whole[heading] = whole.get(heading, "") + text
    return whole


def cases_of(name):
    """Returns the cases of a file by their titles, each with what is set up for it."""
    setup, cases = read_cases(f"{CASES}/{name}")
    return {title: joined(setup, texts) for title, texts in cases}


def form_of(parts):
    """Returns which headings the replies of a case stand under, or None where its parts are no script with its replies and no rehearsal."""
    headings = [[heading for heading, _ in it] for it in parts]
    if all(it == ["script", "replies"] for it in headings):
        return ["replies"]
    last = 0
    for it in headings:
        first, last = last + 1, last + len(it) // 2 - 1
        if it != ["order", *(word for at in range(first, last + 1) for word in (f"session {at}", f"replies {at}")), "summary"]:
            return None
    return [*(f"replies {at}" for at in range(1, last + 1)), "summary"]


def ran(folder, words):
    """Returns what the program printed, and a line that tells its status where that isn't 0, or that it took too long."""
    pipes = {"stdin": subprocess.DEVNULL, "stdout": subprocess.PIPE, "stderr": subprocess.STDOUT}
    try:
        came = subprocess.run([PROGRAM, *words], cwd=folder, timeout=LIMIT, **pipes)
    except subprocess.TimeoutExpired as it:
        return it.stdout or b"", f"was stopped after {LIMIT} seconds\n"
    return came.stdout, f"ended with status {came.returncode}\n" * (came.returncode != 0)


def run_script(folder, texts):
    """Returns what a script came to, by the headings of what is written, and how it ended."""
    with open(f"{folder}/script", "wb") as file:
        file.write(texts["script"].encode())
    replies, end = ran(folder, ["try", "script"])
    return {"replies": replies}, end


def run_rehearsal(folder, texts):
    """Returns what a rehearsal came to, by the headings of what is written, and how it ended."""
    scripts = [it.removeprefix("session ") for it in texts if it.startswith("session ")]
    for name in ["order", *(f"session {it}" for it in scripts)]:
        with open(f"{folder}/{name.removeprefix('session ')}", "wb") as file:
            file.write(texts[name].encode())
    summary, end = ran(folder, ["rehearse", "journal", "order", *scripts])
    came = {"summary": summary}
    for it in scripts:
        if os.path.exists(f"{folder}/{it}.out"):
            with open(f"{folder}/{it}.out", "rb") as file:
                came[f"replies {it}"] = file.read()
    return came, end


def told(title, setup, case):
    """Returns what a case came to where that isn't as written, and nothing else."""
    if "\n" in title:
        return "more than a line in front of the first heading\n"
    headings = form_of([it for it in (setup, case) if it])
    if not headings:
        return "neither a script with its replies nor a rehearsal\n"
    texts = joined(setup, case)
    with tempfile.TemporaryDirectory() as folder:
        came, end = (run_script if "script" in texts else run_rehearsal)(folder, texts)
    report = ""
    for heading in headings:
        it = came.get(heading, b"")
        if it != texts[heading].encode():
            report += f"{heading} as written:\n{texts[heading]}{heading} that came:\n{it.decode(errors='replace')}"
    return report + end


def check_file(path):
    """Returns what the cases of a file came to, and how many came to something else, or None where it has none."""
    setup, cases = read_cases(path)
    report, wrong = "", 0
    for title, texts in cases:
        what = told(title, setup, texts)
        wrong += what != ""
        report += f"=== {title}\n{what}" if what else ""
    name, count = os.path.basename(path), len(cases)
    line = f"{wrong} of {count} came to something else" if wrong else f"{count} as written" if count else "no case"
    return f"{report}{name}: {line}\n", wrong if count else None


def main(names):
    if not os.access(PROGRAM, os.X_OK):
        sys.exit("the program isn't built: run rt ci first")
    files = names or sorted(it for it in os.listdir(CASES) if it.endswith(".txt"))
    right, on_purpose = True, ""
    for name in files:
        report, wrong = check_file(f"{CASES}/{name}")
        if name.startswith("wrong"):
            on_purpose += report
            continue
        print(report, end="")
        right = right and wrong == 0
    if not names:
        with open(f"{CASES}/wrong.out", encoding="utf-8") as file:
            if file.read() != on_purpose:
                print(f"what is told of the files that are wrong on purpose isn't cases/wrong.out:\n{on_purpose}", end="")
                right = False
    return 0 if right else 1


if __name__ == "__main__":
    sys.exit(main(sys.argv[1:]))
