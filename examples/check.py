#!/usr/bin/env python3
"""Checks what the manual shows, where `rt ci` has passed: the program is built. That the cases come out as written is for tools/cases.py to tell.

The commands of README.md, docs/TOUR.md, docs/OPERATING.md and examples/README.md print what stands behind them. Each script
that these and docs/PROFILE.md show stands in an example or in a case, in PROFILE with the replies beneath it. PROFILE's examples of functions are
those of the cases, its tables of limits and codes have each code that the sources name, and each of these has a script in
examples/cures, or one that is made here: it holds the smallest script that the cases have for the code, then the cure, and what goes
with it, and its replies are those that stand in it. The cases that hold an example hold it word for word. What differs is told, and
the status is 1.
"""
import os
import re
import shutil
import subprocess
import sys
import tempfile

TOP = os.path.dirname(os.path.dirname(os.path.realpath(__file__)))
sys.path.insert(0, f"{TOP}/tools")
from cases import CASES, cases_of, joined, read_cases

CURES = f"{TOP}/examples/cures"
PROGRAM = f"{TOP}/ebrd"
MARK = "@@ the next command @@"
# Codes that no script is known to come to, and one that tests alone name.
UNKNOWN = {"EBR-0000", "EBR-0001", "EBR-0015"}
# A journal of 512 MiB is tried by hand.
UNTRIED = {"EBR-0042"}
wrong = []


def read(path):
    with open(path, encoding="utf-8") as file:
        return file.read()


def same(what, wanted, came):
    if wanted != came:
        wrong.append(f"{what}\n--- stands there:\n{wanted}\n--- should be:\n{came}")


def blocks(page):
    """Returns the blocks of a page, each with the word that it begins with."""
    parts = re.split(r"^```(\w*)\n(.*?)^```$", read(f"{TOP}/{page}"), flags=re.M | re.S)
    if any("```" in it for it in parts):
        wrong.append(f"{page}: a block doesn't begin and end on lines of its own")
    return list(zip(parts[1::3], parts[2::3]))


def run_commands(page, folder):
    """Runs the commands of a page in one shell, and compares what each prints."""
    parts = [it for word, text in blocks(page) if not word and text.startswith("$ ") for it in re.split(r"^\$ ", text, flags=re.M)[1:]]
    commands = [it.partition("\n") for it in parts]
    script = "".join(f"{command}\nprintf '{MARK}'\n" for command, _, _ in commands)
    ran = subprocess.run(["sh", "-c", script], cwd=folder, stdin=subprocess.DEVNULL, stdout=subprocess.PIPE, stderr=subprocess.STDOUT)
    came = ran.stdout.decode(errors="replace").split(MARK)
    for (command, _, wanted), printed in zip(commands, came):
        same(f"{page}: $ {command}", wanted, printed)
    return len(commands)


def check_scripts(page, scripts, cases):
    """Looks for each script of a page in the examples and the cases; behind one in PROFILE come its replies."""
    shown = blocks(page)
    for at, (word, script) in enumerate(shown):
        if word != "sql":
            continue
        replies = shown[at + 1][1] if page.endswith("PROFILE.md") else ""
        held = [it for it in cases if any(script in text for text in it.values()) and replies in it.get("replies", "")]
        if not held and (replies or not any(script in it for it in scripts)):
            wrong.append(f"{page}: no example and no case has this script with its replies:\n{script}")


def check_functions(page):
    """Compares each `EXPRESSION` gives `VALUE` with the query of the cases."""
    given = {}
    for case in cases_of("manual_functions.txt").values():
        queries = re.findall(r"^SELECT (.*) FROM dual;$", case["script"], re.M)
        replies = case["replies"].replace("\n1 rows\n", "\n").splitlines()
        if len(queries) == case["script"].count("\n"):
            given.update(zip(queries, replies))
    for row in read(f"{TOP}/{page}").replace("\\|", "|").splitlines():
        for expression, value in re.findall(r"`([^`]+)` gives (NULL|`[^`]+`)", row):
            came = given.get(expression, "nothing: no case has it")
            same(f"{page}: {expression}", value, f"`{came}`" if came else "NULL")


def written_cures():
    """Returns the scripts of examples/cures by their names, each with its replies, which stand there after `--> `."""
    texts_of = {it[: -len(".sql")]: read(f"{CURES}/{it}") for it in sorted(os.listdir(CURES))}
    return {name: (re.sub(r"^--> .*\n", "", text, flags=re.M), re.findall(r"^--> (.*)$", text, re.M)) for name, text in texts_of.items()}


def made_cures():
    """Returns scripts that are too long to be written down, by their codes, each with its last replies."""

    def nested(depth, inside):
        return "BEGIN " * depth + inside + " END;" * depth + "\n/\n"

    def table(name, count):
        columns = ", ".join(f"c{it} NUMBER" for it in range(count))
        return f"CREATE TABLE {name} ({columns});\n"

    long, word = "x" * 32768, "n" * 129
    printed = "BEGIN DBMS_OUTPUT.PUT_LINE(LENGTH('{}') + LENGTH('{}')); END;\n/\n"
    fill = "FOR i IN :NEW.c0 .. :NEW.c1 LOOP INSERT INTO v VALUES (i); END LOOP;"
    filled = f"CREATE TRIGGER r AFTER INSERT ON u FOR EACH ROW BEGIN {fill} END;\n/\n"
    parts = "INSERT INTO u VALUES (1, 100000);\nCOMMIT;\nINSERT INTO u VALUES (100001, 200000);\nCOMMIT;\n"
    units = [f"CREATE PROCEDURE p{it} IS BEGIN NULL; END;\n/\n" for it in range(4097)]
    editions = [f"CREATE EDITION e{it};\n" for it in range(256)]
    tables = [table(f"t{it}", 1) for it in range(1001)]
    return {
        "EBR-0023": (f"SELECT 1 AS {word} FROM dual;\nSELECT 1 AS {word[1:]} FROM dual;\n", ["EBR-0023", "1", "1 rows"]),
        "EBR-0024": (printed.format(long, "") + printed.format(long[1:], "x"), ["EBR-0024", "32768", "OK"]),
        "EBR-0025": (nested(65, "NULL;") + "CREATE PROCEDURE p IS " + nested(40, "NULL;") + nested(40, "p();"), ["EBR-0025", "OK", "OK"]),
        "EBR-0036": (table("u", 65) + table("u", 60) + table("v", 5), ["EBR-0036", "OK", "OK"]),
        "EBR-0040": (table("u", 2) + table("v", 1) + filled + "INSERT INTO u VALUES (1, 200000);\n" + parts, ["EBR-0040", *["1 rows", "OK"] * 2]),
        "EBR-0037": ("".join(tables) + "DROP TABLE t0;\n" + tables[-1], ["EBR-0037", "OK", "OK"]),
        "EBR-0035": ("".join(editions) + "DROP EDITION e254;\n" + editions[-1], ["EBR-0035", "OK", "OK"]),
        "EBR-0034": ("".join(units) + "DROP PROCEDURE p0;\n" + units[-1], ["EBR-0034", "OK", "OK"]),
    }


def dropped(script):
    """Returns a script that drops what another one makes."""
    made = re.findall(r"^CREATE (?:OR REPLACE )?(?:EDITIONING )?(EDITION|TABLE|VIEW|PROCEDURE|FUNCTION|PACKAGE|TRIGGER) (\w+)", script, re.M)
    drops = [f"DROP {kind} {name}" + " CASCADE" * (kind == "EDITION") for kind, name in reversed(made)]
    return ";\n".join(["ROLLBACK", "ALTER SESSION SET EDITION = ora$base", "ALTER DATABASE DEFAULT EDITION = ora$base", *drops, ""])


def run_program(folder, words):
    ran = subprocess.run([PROGRAM, *words], cwd=folder, stdin=subprocess.DEVNULL, stdout=subprocess.PIPE, stderr=subprocess.STDOUT)
    return ran.stdout.decode(errors="replace")


def run_cures(folder):
    """Runs the cures: those of one session in one script, which drops after each of them what it made; the others as sessions, one
    after the other, of each code first the one that is refused and then the one that goes on."""
    written, made = written_cures(), made_cures()
    sessions = sorted(it for it in written if it[:8] + "-2" in written)
    cures = {**{it: written[it] for it in written if it not in sessions}, **made}
    # (a string without an end takes what stands after it along, so nothing does)
    last = cures["EBR-0021"] = cures.pop("EBR-0021")
    mark = f"BEGIN DBMS_OUTPUT.PUT_LINE('{MARK}'); END;\n/\n"
    with open(f"{folder}/cures.sql", "w", encoding="utf-8") as file:
        file.write("".join(it[0] + mark + dropped(it[0]) + mark for it in cures.values() if it is not last) + last[0])
    came = run_program(folder, ["try", "cures.sql"]).split(f"{MARK}\nOK\n")[::2]
    for name in sessions:
        with open(f"{folder}/{name}.sql", "w", encoding="utf-8") as file:
            file.write(written[name][0])
    run_program(folder, ["rehearse", "cures", "/dev/null", *(f"{it}.sql" for it in sessions)])
    came += [read(f"{folder}/{it}.sql.out") for it in sessions]
    names = [*cures, *sessions]
    same("the number of cures that ran", len(names), len(came))
    for name, replies in zip(names, came):
        wanted = (cures.get(name) or written[name])[1]
        told = len(wanted) if name in made or name in sessions else 0
        same(f"examples/cures: {name}", wanted, replies.splitlines()[-told:])


def check_codes(page):
    """Compares the tables of limits and codes with the cases, the cures and the sources."""
    rows = re.findall(r"^\| `((?:ORA|EBR)-[^`]*)` \|(.*)\|$", read(f"{TOP}/{page}").replace("\\|", ""), re.M)
    table = {code for code, cells in rows if cells.count("|") == 1}
    scripts = {name[:9]: script for name, (script, _) in {**written_cures(), **made_cures()}.items() if not name.endswith("-2")}
    cases = cases_of("manual_codes.txt")
    setup = joined(read_cases(f"{CASES}/manual_codes.txt")[0], [])["script"]
    for code, case in cases.items():
        if code not in table or " to " not in code and case["replies"].split()[-1] != code:
            wrong.append(f"manual_codes.txt: {code} isn't in the tables, or isn't the last reply of its case")
        if case["script"][len(setup) :] not in scripts.get(code[:9], ""):
            wrong.append(f"examples/cures: {code} hasn't the script of its case")
    for code in sorted({it[:9] for it in table} - UNTRIED ^ {*scripts}):
        wrong.append(f"{page}, examples/cures: {code} is in one of the two alone")
    named = set()
    for at, _, files in os.walk(f"{TOP}/crates"):
        if "/src" in at and not re.search("tests|ebr_trial", at):
            for kind, number in re.findall(r"\b(Ora|Ebr)\((\d[\d_]*)\)", "".join(read(f"{at}/{it}") for it in files)):
                named.add(f"ORA-{int(number):05}" if kind == "Ora" else f"EBR-{int(number):04}")
    for code in sorted(named - table - UNKNOWN):
        wrong.append(f"{page}: the tables have no {code}, which the sources name")


def check_examples():
    """Compares the examples with the cases that hold them, and the program's stored run with the first one."""
    first = read(f"{TOP}/examples/upgrade.sql")
    same("crates/ebrd/data/upgrade.sql begins otherwise than examples/upgrade.sql", read(f"{TOP}/crates/ebrd/data/upgrade.sql")[: len(first)], first)
    upgrade = list(cases_of("upgrade_example.txt").values())[0]
    same("upgrade_example.txt", upgrade["script"], read(f"{TOP}/examples/crossedition.sql"))
    for order, case in zip(("order", "early"), cases_of("rehearsal_example.txt").values()):
        same(f"rehearsal_example.txt: {order}", case["order"], read(f"{TOP}/examples/rehearsal/{order}"))
        for at, name in enumerate(("setup", "sales", "office", "upgrade"), 1):
            same(f"rehearsal_example.txt: {name}", case[f"session {at}"], read(f"{TOP}/examples/rehearsal/{name}.sql"))


def main():
    if not os.access(f"{TOP}/crates/ebrd/out/ebrd", os.X_OK):
        sys.exit("the program isn't built: run rt ci first")
    examples = [f"{at}/{it}" for at, _, files in os.walk(f"{TOP}/examples") for it in files if it.endswith(".sql")]
    scripts = [read(it) for it in examples]
    cases = [case for name in sorted(os.listdir(CASES)) if not name.startswith("wrong") for case in cases_of(name).values()]
    count = 0
    with tempfile.TemporaryDirectory() as folder:
        os.symlink(f"{TOP}/ebrd", f"{folder}/ebrd")
        shutil.copytree(f"{TOP}/examples", f"{folder}/examples")
        for page in ("README.md", "docs/TOUR.md", "docs/OPERATING.md", "examples/README.md"):
            count += run_commands(page, folder)
            check_scripts(page, scripts, cases)
        run_cures(folder)
    check_scripts("docs/PROFILE.md", scripts, cases)
    check_functions("docs/PROFILE.md")
    check_codes("docs/PROFILE.md")
    check_examples()
    for it in wrong:
        print(it)
    print(f"the manual: {count} commands ran, {len(wrong)} differences")
    return 1 if wrong else 0


if __name__ == "__main__":
    sys.exit(main())
