#!/usr/bin/env python3
"""Tries the program, where `rt ci` has built it, over journals that are files: what stops it, and what is there when it was killed.

Words: how often it is killed in the middle of a run, a hundred times where nothing is said. What differs is told, and the status is 1.
"""
import fcntl
import os
import random
import resource
import signal
import subprocess
import sys
import tempfile
import time

TOP = os.path.dirname(os.path.dirname(os.path.realpath(__file__)))
PROGRAM = f"{TOP}/crates/ebrd/out/ebrd"
TABLE = "CREATE TABLE t (a NUMBER(9) PRIMARY KEY);\n"
wrong = []


def write(path, text):
    with open(path, "w", encoding="utf-8") as file:
        file.write(text)


def run(*words, **how):
    """Returns the status and what was printed."""
    ran = subprocess.run([PROGRAM, *words], stdin=subprocess.DEVNULL, stdout=subprocess.PIPE, stderr=subprocess.STDOUT, **how)
    return ran.returncode, ran.stdout.decode()


def wants(what, came, *wanted):
    if came not in wanted:
        wrong.append(f"{what}: came {came}, wanted {' or '.join(map(str, wanted))}")


def rehearse(journal, script, **how):
    write("s.sql", script)
    return run("rehearse", journal, "/dev/null", "s.sql", **how)


def lines_of(journal):
    status, lines = run("dump", journal)
    wants(f"dump {journal}", status, 0)
    return lines.splitlines()


def check_other_files():
    """What is no file that the program can have."""
    os.mkdir("folder")
    wants("a folder", rehearse("folder", TABLE), (3, "host fault: folder\n"))
    wants("a folder, dump", run("dump", "folder"), (3, "host fault: folder\n"))
    wants("no folder", rehearse("none/j", TABLE), (3, "host fault: none/j\n"))
    rehearse("locked", TABLE)
    with open("locked", "rb") as held:
        fcntl.flock(held, fcntl.LOCK_EX)
        wants("locked", rehearse("locked", TABLE), (3, "host fault: locked\n"))
        wants("locked, dump", run("dump", "locked"), (3, "host fault: locked\n"))
    wants("locked before", lines_of("locked"), ["table T"])
    wants("the script", rehearse("s.sql.out", TABLE)[0], 2)
    os.link("s.sql", "link")
    wants("the script by another name", rehearse("link", TABLE), (3, "host fault: link\n"))
    wants("a device", rehearse("/dev/full", TABLE), (3, "host fault: /dev/full\n"))
    if os.getuid() == 0:
        os.chmod(".", 0o777)
        os.chmod("locked", 0o444)
        wants("not to be written", run("dump", "locked", user=65534), (0, "table T\n"))


def limited():
    signal.signal(signal.SIGXFSZ, signal.SIG_IGN)
    resource.setrlimit(resource.RLIMIT_FSIZE, (400, 400))


def check_full():
    """A file that can't grow: what was acknowledged is there."""
    inserts = "".join(f"INSERT INTO t VALUES ({n});\nCOMMIT;\n" for n in range(20))
    status, report = rehearse("full", TABLE + inserts, preexec_fn=limited)
    wants("full", status, 4)
    wants("full: the last line", report.splitlines()[-1], "disk fault")
    with open("s.sql.out", encoding="utf-8") as file:
        acknowledged = file.read().count("OK\n")
    lines = lines_of("full")
    if not 1 < acknowledged <= len(lines) <= acknowledged + 1:
        wrong.append(f"full: {acknowledged} acknowledged, {len(lines)} records")
    wants("full, gone on with", rehearse("full", "INSERT INTO t VALUES (99);\nCOMMIT;\n")[0], 0)
    wants("full, gone on with: records", lines_of("full"), [*lines, "commit 1"])


def check_lengths():
    """Each file that is shorter than a journal is damaged, or has its first records; a longer one has all."""
    rehearse("whole", TABLE + "INSERT INTO t VALUES (1);\nCOMMIT;\nCREATE EDITION v2;\n")
    lines = lines_of("whole")
    wants("whole", lines, ["table T", "commit 1", "edition V2"])
    with open("whole", "rb") as file:
        whole = file.read()
    for length in range(len(whole)):
        with open("cut", "wb") as file:
            file.write(whole[:length])
        status, printed = run("dump", "cut")
        if status == 6:
            wants(f"cut to {length}", printed.startswith("damaged at "), True)
        else:
            wants(f"cut to {length}", (status, printed), (0, ""))
        with open("cut", "rb") as file:
            wants(f"cut to {length}: left", file.read(), whole[:length])
    with open("longer", "wb") as file:
        file.write(whole + b"\1\2\3")
    wants("longer", lines_of("longer"), lines)


def check_kills(times):
    """After each kill all commits that were acknowledged are there, and the next run goes on."""
    rehearse("killed", TABLE)
    count = 1
    for _ in range(times):
        write("s.sql", "".join(f"INSERT INTO t VALUES ({count * 1000 + n});\nCOMMIT;\n" for n in range(500)))
        write("s.sql.out", "")
        program = subprocess.Popen([PROGRAM, "rehearse", "killed", "/dev/null", "s.sql"], stdout=subprocess.DEVNULL)
        time.sleep(random.uniform(0, 0.2))
        program.kill()
        program.wait()
        with open("s.sql.out", encoding="utf-8") as file:
            acknowledged = file.read().count("OK\n")
        lines = lines_of("killed")
        wants("killed", lines[0], "table T")
        wants("killed", {*lines[1:]} <= {"commit 1"}, True)
        # (the reply to one commit more may not have been written yet)
        if not count + acknowledged <= len(lines) <= count + acknowledged + 1:
            wrong.append(f"killed: {count} records before, {acknowledged} acknowledged, {len(lines)} then")
        count = len(lines)


def main():
    if not os.access(PROGRAM, os.X_OK):
        sys.exit("the program isn't built: run rt ci first")
    times = int(sys.argv[1]) if len(sys.argv) > 1 else 100
    with tempfile.TemporaryDirectory() as folder:
        os.chdir(folder)
        check_other_files()
        check_full()
        check_lengths()
        check_kills(times)
        os.chdir(TOP)
    for it in wrong:
        print(it)
    print(f"journals: {len(wrong)} differences")
    return 1 if wrong else 0


if __name__ == "__main__":
    sys.exit(main())
