#!/usr/bin/env python3
"""Tries `run` of the program, where `rt ci` has built it, over journals that are files, and measures it.

Words: what is to be done, each with how often behind it, where that is said: `usage`, `sinks`, `rows`, `fights` (200 times), `kills` (50
times), `measure` (the least of 3 runs), `held` (once; it wants perf, and the right to set probes); where there are none, all of it but the
last two. It works in a folder of TMPDIR. What differs is told, and the status is 1.
"""
import os
import random
import re
import shutil
import subprocess
import sys
import tempfile
import time

TOP = os.path.dirname(os.path.dirname(os.path.realpath(__file__)))
PROGRAM = f"{TOP}/crates/ebrd/out/ebrd"
wrong = []


def write(path, text):
    with open(path, "w", encoding="utf-8") as file:
        file.write(text)


def read(path):
    with open(path, encoding="utf-8") as file:
        return file.read()


def wants(what, came, wanted):
    if came != wanted:
        wrong.append(f"{what}: came {came}, wanted {wanted}")


def ebrd(*words):
    """Returns the status and what was printed."""
    ran = subprocess.run([PROGRAM, *words], stdin=subprocess.DEVNULL, stdout=subprocess.PIPE, stderr=subprocess.STDOUT)
    return ran.returncode, ran.stdout.decode()


def write_scripts(scripts):
    """Writes scripts as 1.sql, 2.sql and so on, and returns these words."""
    words = [f"{at}.sql" for at in range(1, len(scripts) + 1)]
    for word, script in zip(words, scripts):
        write(word, script)
    return words


def run(journal, *scripts):
    """Runs scripts as sessions in threads: the status, the summary, and what each of them printed to a file."""
    words = write_scripts(scripts)
    status, summary = ebrd("run", journal, *words)
    return status, summary, [read(f"{word}.out") if os.path.isfile(f"{word}.out") else "" for word in words]


def printed(journal, script):
    """Returns what a session prints that runs alone to its end."""
    status, summary, replies = run(journal, script)
    wants("a session alone", (status, summary.endswith("0 refused, ended\n")), (0, True))
    return replies[0]


def lines_of(journal):
    status, lines = ebrd("dump", journal)
    wants(f"dump {journal}", status, 0)
    return lines.splitlines()


def check_usage(_times):
    """Words that name no run open nothing."""
    many = [f"{at}.sql" for at in range(33)]
    for words in ([], ["j"], ["j", *many], ["j", "s", "s"], ["s", "s"], ["s.out", "s"]):
        wants(f"run {words[:4]}", ebrd("run", *words), (2, "usage\n"))
    wants("files behind usage", os.listdir(), [])


def check_sinks(_times):
    """A session whose file can't be written leaves, and the others go on."""
    os.symlink("/dev/full", "2.sql.out")
    status, summary, replies = run("j", *["SELECT 1 FROM dual;\nSELECT 2 FROM dual;\n"] * 3)
    lines = [f"session {at}: {end}" for at, end in ((1, "3 asks, 0 refused, ended"), (2, "2 asks, 0 refused, sink fault"), (3, "3 asks, 0 refused, ended"))]
    wants("a full device", (status, summary.splitlines()), (5, [*lines, "sink fault"]))
    wants("a full device: the others", replies, ["1\n1 rows\n2\n1 rows\n", "", "1\n1 rows\n2\n1 rows\n"])


def check_rows(_times):
    """32 sessions insert a thousand rows each, and a second run finds all of them."""
    printed("j", "CREATE TABLE t (id NUMBER(9) PRIMARY KEY);\n")
    scripts = []
    for session in range(32):
        rows = [f"INSERT INTO t VALUES ({session * 1000 + n});\n" for n in range(1000)]
        scripts.append("".join(row + "COMMIT;\n" * (n % 100 == 99) for n, row in enumerate(rows)))
    status, summary, replies = run("j", *scripts)
    wants("rows", (status, summary), (0, "".join(f"session {at}: 1011 asks, 0 refused, ended\n" for at in range(1, 33))))
    wants("rows: replies", {it for it in replies}, {("1 rows\n" * 100 + "OK\n") * 10})
    told = printed("j", "SELECT id FROM t ORDER BY id;\n")
    wants("rows: all", told == "".join(f"{n}\n" for n in range(32000)) + "32000 rows\n", True)


# Adds one to the row as often as this, each time in a transaction of its own. A row that is held, or late, is tried again.
FIGHT = """\
BEGIN
  FOR i IN 1 .. {times} LOOP
    LOOP
      BEGIN
        UPDATE t SET n = n + 1 WHERE id = 1;
        COMMIT;
        EXIT;
      EXCEPTION
        WHEN OTHERS THEN
          IF SQLCODE NOT IN (-54, -8177) THEN RAISE; END IF;
          ROLLBACK;
      END;
    END LOOP;
  END LOOP;
END;
/
"""


def check_fights(times):
    """Eight sessions add to one row, and no addition is lost."""
    printed("made", "CREATE TABLE t (id NUMBER(9) PRIMARY KEY, n NUMBER(9));\nINSERT INTO t VALUES (1, 0);\nCOMMIT;\n")
    refused = 0
    for _ in range(times or 200):
        shutil.copy("made", "j")
        status, summary, replies = run("j", *[FIGHT.format(times=10)] * 8)
        wants("a fight", (status, replies), (0, ["OK\n"] * 8))
        wants("the sum", printed("j", "SELECT n FROM t;\n"), "80\n1 rows\n")
        refused += sum(map(int, re.findall(r"(\d+) refused, ended", summary)))
    print(f"fights: {refused} requests were refused, and made again")
    if not refused:
        wrong.append("fights: no request was refused")


def insertions(session, first):
    return "".join(f"INSERT INTO t VALUES ({first + n}, {session});\nCOMMIT;\n" for n in range(500))


def check_kills(times):
    """After each kill all commits that were acknowledged are there, at most one more of each session, and the next run goes on."""
    printed("j", "CREATE TABLE t (id NUMBER(9) PRIMARY KEY, session NUMBER(9));\n")
    records, acknowledged, unfinished = 1, 0, 0
    for kill in range(times or 50):
        firsts = [(kill * 8 + session) * 1000 for session in range(8)]
        words = write_scripts([insertions(session, first) for session, first in enumerate(firsts)])
        for word in words:
            write(f"{word}.out", "")
        program = subprocess.Popen([PROGRAM, "run", "j", *words], stdout=subprocess.DEVNULL)
        while program.poll() is None and not any(os.path.getsize(f"{word}.out") for word in words):
            time.sleep(0.001)
        time.sleep(random.uniform(0, 0.3))
        program.kill()
        unfinished += program.wait() != 0
        told = [read(f"{word}.out").count("OK\n") for word in words]
        lines = lines_of("j")
        wants("the first records", lines[0], "table T")
        wants("the records behind", {*lines[1:]} <= {"commit 1"}, True)
        rows = [*map(int, printed("j", f"SELECT id FROM t WHERE id >= {firsts[0]};\n").splitlines()[:-1])] if firsts else []
        wants("rows and records", len(rows), len(lines) - records)
        for first, commits in zip(firsts, told):
            own = sorted(it for it in rows if first <= it < first + 1000)
            # (the reply to one commit more may not have been written yet)
            if not commits <= len(own) <= commits + 1 or own != [*range(first, first + len(own))]:
                wrong.append(f"killed: {commits} acknowledged, rows {own[:1]} to {own[-1:]}, {len(own)} of them")
        records = len(lines)
        acknowledged += sum(told)
    print(f"kills: {unfinished} runs were cut off, {acknowledged} commits were acknowledged, {records - 1} are there")
    if not unfinished or not acknowledged:
        wrong.append("kills: none came in time")


SESSIONS = (1, 2, 4, 8, 32)


def parts(count, sessions):
    return [range(at * count // sessions, (at + 1) * count // sessions) for at in range(sessions)]


def commits(count, sessions):
    """Rows of their own, each by a statement and a commit."""
    return ["".join(f"INSERT INTO t VALUES ({n + 1}, {n});\nCOMMIT;\n" for n in part) for part in parts(count, sessions)]


def reads(count, sessions):
    """A row by its key, each by a statement, which prints it."""
    return ["SELECT n FROM t WHERE id = 0;\n" * len(part) for part in parts(count, sessions)]


def reads_in_blocks(count, sessions):
    """The same in a block, which prints nothing."""
    block = "DECLARE x NUMBER; BEGIN FOR i IN 1 .. {} LOOP SELECT n INTO x FROM t WHERE id = 0; END LOOP; END;\n/\n"
    return [block.format(len(part)) for part in parts(count, sessions)]


def counts_in_blocks(count, sessions):
    """A count of a hundred rows, in a block."""
    block = "DECLARE x NUMBER; BEGIN FOR i IN 1 .. {} LOOP SELECT COUNT(*) INTO x FROM hundred; END LOOP; END;\n/\n"
    return [block.format(len(part)) for part in parts(count, sessions)]


def spent(before, *words):
    """Time by the clock and of a processor of a run that is done, in seconds."""
    began = time.perf_counter()
    program = subprocess.Popen([*before, PROGRAM, *words], stdout=subprocess.DEVNULL)
    _, status, usage = os.wait4(program.pid, 0)
    program.returncode = status
    wants(f"{words[:2]}", status, 0)
    return time.perf_counter() - began, usage.ru_utime + usage.ru_stime


def least(times, command, before, words):
    """The least time by the clock of some runs over a table with one row, with the processor time of that run."""
    found = []
    for _ in range(times):
        shutil.copy("made", "j")
        order = ["/dev/null"] if command == "rehearse" else []
        found.append(spent(before, command, "j", *order, *words))
    return min(found)


def make_tables():
    """A table with one row, and one with a hundred."""
    tables = "CREATE TABLE t (id NUMBER(9) PRIMARY KEY, n NUMBER(9));\nCREATE TABLE hundred (n NUMBER(9));\n"
    fill = "BEGIN FOR i IN 1 .. 100 LOOP INSERT INTO hundred VALUES (i); END LOOP; COMMIT; END;\n/\n"
    printed("made", f"{tables}INSERT INTO t VALUES (0, 7);\n{fill}")


KINDS = (("commits", commits, 800), ("reads", reads, 32000), ("reads in blocks", reads_in_blocks, 32000), ("counts in blocks", counts_in_blocks, 32000))


def measure(times):
    """Requests a second, and the processor time of each, with more and more sessions, and beside that a rehearsal of the same scripts."""
    make_tables()
    for name, make, count in KINDS:
        if make is commits and least(1, "run", [], write_scripts(make(count, 1)))[0] < 0.2:
            count *= 20  # the folder is in memory
        print(f"\n{count} {name}\n\n| Sessions | a second | processor time | on two processors | processor time | `rehearse` | processor time |\n|---|---|---|---|---|---|---|")
        for sessions in SESSIONS:
            words = write_scripts(make(count, sessions))
            cells = []
            for command, before in (("run", []), ("run", ["taskset", "-c", "0,1"]), ("rehearse", [])):
                clock, processor = least(times or 3, command, before, words)
                cells += [f"{count / clock:,.0f}", f"{processor * 1e6 / count:.1f} us"]
            print(f"| {sessions} | " + " | ".join(cells) + " |", flush=True)


# The function that has the engine answer, which a thread is inside of just while it holds the turn.
ANSWER = "ebr_worker::engine::answer::"
PROBES = "/sys/kernel/tracing/uprobe_events"


def told(*words):
    return subprocess.run(words, stdout=subprocess.PIPE, stderr=subprocess.DEVNULL, check=True).stdout.decode()


def place_in_file(name):
    """Where a function begins in the program's file."""
    (address,) = [int(line.split()[0], 16) for line in told("nm", PROGRAM).splitlines() if name in line]
    for line in told("readelf", "-lW", PROGRAM).splitlines():
        if line.split()[:1] == ["LOAD"]:
            offset, start, _, size = (int(it, 16) for it in line.split()[1:5])
            if start <= address < start + size:
                return address - start + offset
    sys.exit(f"{name} is in no part of the program that is loaded")


def share_of_answers(words):
    """The share of the time in which a thread was inside the engine's answer, by the moments at which each one enters and leaves it."""
    subprocess.run(["perf", "record", "-q", "-m", "4096", "-e", "ebrd:asked", "-e", "ebrd:answered", "-o", "moments", PROGRAM, *words], stdout=subprocess.DEVNULL, check=True)
    entered, moments, inside = {}, [], 0
    for line in told("perf", "script", "-i", "moments", "-F", "tid,time,event").splitlines():
        thread, moment, event = (it.rstrip(":") for it in line.split()[:3])
        moments.append(float(moment))
        if event == "ebrd:asked":
            entered[thread] = float(moment)
        elif thread in entered:
            inside += float(moment) - entered.pop(thread)
    return inside / (moments[-1] - moments[0])


def held(_times):
    """The share of the time in which the turn is held. Each answer costs two probes more, some microseconds."""
    if subprocess.run(["mountpoint", "-q", os.path.dirname(PROBES)]).returncode:
        subprocess.run(["mount", "-t", "tracefs", "none", os.path.dirname(PROBES)], check=True)
    at = f"{PROGRAM}:{place_in_file(ANSWER):#x}"
    write(PROBES, f"p:ebrd/asked {at}\nr:ebrd/answered {at}\n")
    make_tables()
    print("\n| Sessions | " + " | ".join(name for name, _, _ in KINDS) + " |\n|---" + "|---" * len(KINDS) + "|")
    for sessions in SESSIONS:
        cells = []
        for _, make, count in KINDS:
            words = write_scripts(make(max(count, 4000), sessions))
            shutil.copy("made", "j")
            cells.append(f"{share_of_answers(['run', 'j', *words]):.0%}")
        print(f"| {sessions} | " + " | ".join(cells) + " |", flush=True)
    write(PROBES, "")


CHECKS = {"usage": check_usage, "sinks": check_sinks, "rows": check_rows, "fights": check_fights, "kills": check_kills, "measure": measure, "held": held}


def main():
    if not os.access(PROGRAM, os.X_OK):
        sys.exit("the program isn't built: run rt ci first")
    words = sys.argv[1:] or [it for it in CHECKS if it not in ("measure", "held")]
    for at, word in enumerate(words):
        if word.isdigit():
            continue
        with tempfile.TemporaryDirectory() as folder:
            os.chdir(folder)
            CHECKS[word](int(words[at + 1]) if words[at + 1 : at + 2] and words[at + 1].isdigit() else 0)
            os.chdir(TOP)
    for it in wrong:
        print(it)
    print(f"threads: {len(wrong)} differences")
    return 1 if wrong else 0


if __name__ == "__main__":
    sys.exit(main())
