#!/usr/bin/env python3
"""Runs two rehearsals once for each growth of memory that they make, and has that one refused.

    bench/refused.py

Each run must end with Done or for want of memory, each session's replies must be a beginning of one of the texts below, and `dump`
must print the records of before and at most those of the whole run behind them. It wants cc, and a program that is linked to the C
library when it starts. Run it by hand, where `rt ci` has built the program. The status is 1 where something is wrong.
"""
import os
import shutil
import subprocess
import sys
import tempfile

HERE = os.path.dirname(os.path.realpath(__file__))
PROGRAM = os.path.join(HERE, "..", "crates", "ebrd", "out", "ebrd")

TABLE = """CREATE TABLE t (id NUMBER(9) PRIMARY KEY, v VARCHAR2(10) NOT NULL, n NUMBER(9));
INSERT INTO t VALUES (1, 'a', 10);
INSERT INTO t VALUES (2, 'b', 20);
INSERT INTO t VALUES (3, 'c', 30);
COMMIT;
"""
LOG = """CREATE TABLE log_t (msg VARCHAR2(40));
CREATE PROCEDURE log_it(m VARCHAR2) IS PRAGMA AUTONOMOUS_TRANSACTION; BEGIN INSERT INTO log_t VALUES (m); COMMIT; END;
/
"""
# the journal, the order, each session's script, and its replies where no growth is refused, or where one is that another session wants
ROWS = [
    (
        "two sessions change one row",
        TABLE,
        "1 2 2 1 1 1\n",
        [
            (
                "SELECT n FROM t WHERE id = 1;\nUPDATE t SET n = 11 WHERE id = 1;\nROLLBACK;\nUPDATE t SET n = 11 WHERE id = 1;\n",
                ["10\n1 rows\nORA-08177\nOK\n1 rows\n", "10\n1 rows\n1 rows\nOK\n1 rows\n"],
            ),
            ("UPDATE t SET n = 15 WHERE id = 1;\nCOMMIT;\n", ["1 rows\nOK\n"]),
        ],
        ["commit 1"],
    ),
    (
        "an autonomous transaction commits in a block that rolls back",
        TABLE + LOG,
        "",
        [
            (
                "BEGIN UPDATE t SET n = 99 WHERE id = 1; log_it('tried'); ROLLBACK; END;\n/\nSELECT msg FROM log_t;\nSELECT n FROM t WHERE id = 1;\n",
                ["OK\ntried\n1 rows\n10\n1 rows\n"],
            ),
        ],
        ["commit 1"],
    ),
]


def write(path, text):
    with open(path, "w", encoding="utf-8") as file:
        file.write(text)


def ended(folder, words, refused=0):
    """Returns the status, the output and whether a growth was refused."""
    env = dict(os.environ, LD_PRELOAD=f"{folder}/refused.so", REFUSED=str(refused)) if refused else None
    done = subprocess.run([PROGRAM, *words], cwd=folder, env=env, capture_output=True, text=True)
    return done.returncode, done.stdout, "refused" in done.stderr


def fault_at(folder, number, scripts, before, more):
    """Returns what is wrong where the growth of a number is refused, or None; and whether one was."""
    shutil.copyfile(f"{folder}/made", f"{folder}/journal")
    names = [f"{at}.sql" for at in range(1, len(scripts) + 1)]
    for name in names:
        write(f"{folder}/{name}.out", "")
    status, report, was = ended(folder, ["rehearse", "journal", "order", *names], number)
    if status not in ([0, 8] if was else [0]):
        return f"status {status}: {report}", was
    for name, (_, texts) in zip(names, scripts):
        with open(f"{folder}/{name}.out", encoding="utf-8") as file:
            told = file.read()
        if not any(it.startswith(told) for it in texts) or not was and told != texts[0]:
            return f"{name}.out: {told!r}", was
    code, text, _ = ended(folder, ["dump", "journal"])
    lines = text.splitlines()
    behind = lines[len(before):]
    if code or lines[:len(before)] != before or behind != more[:len(behind)] or not was and behind != more:
        return f"dump: {code} {lines}", was
    return None, was


def main():
    counts = []
    with tempfile.TemporaryDirectory() as folder:
        subprocess.run(["cc", "-O2", "-shared", "-fPIC", "-o", f"{folder}/refused.so", f"{HERE}/refused.c"], check=True)
        for title, setup, order, scripts, more in ROWS:
            for at, (script, _) in enumerate(scripts, 1):
                write(f"{folder}/{at}.sql", script)
            write(f"{folder}/order", order)
            write(f"{folder}/setup.sql", setup)
            if os.path.exists(f"{folder}/made"):
                os.remove(f"{folder}/made")
            if ended(folder, ["rehearse", "made", "/dev/null", "setup.sql"])[0]:
                sys.exit(f"{title}: its journal wasn't made")
            before = ended(folder, ["dump", "made"])[1].splitlines()
            number, was = 0, True
            while was:
                number += 1
                wrong, was = fault_at(folder, number, scripts, before, more)
                if wrong:
                    sys.exit(f"{title}, growth {number}: {wrong}")
            counts.append(f"{title}: {number - 1}")
    print("growths that were refused, each in a run of its own: " + "; ".join(counts))


main()
