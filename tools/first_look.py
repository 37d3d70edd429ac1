#!/usr/bin/env python3
"""Runs ebrd unproved, with the words as given, in the current folder.

`rt try` compiles the sources without a proof, with checks at run time, and keeps no file. Here the program that it makes is given a
pipe as its script, and is copied while it waits for that. The copy stands in crates/ebrd/first-look, named by a sum of all that it was
made of, so that a program of other sources is never run; each later call runs it at once. Standard error tells what is done. Where it
can't be done, the reasons go there too, and the status is 1, which is no code of ebrd.
"""
import contextlib
import ctypes
import fcntl
import hashlib
import os
import shutil
import signal
import subprocess
import sys
import tempfile
import time

TOP = os.path.dirname(os.path.dirname(os.path.realpath(__file__)))
CRATE = f"{TOP}/crates/ebrd"
KEPT = f"{CRATE}/first-look"
# Seconds between two lines that tell how far it is.
PAUSE = 30
# Of prctl, which Linux has, and `rt try` runs on no other system.
PR_SET_PDEATHSIG = 1
LIBC = ctypes.CDLL(None)


def end_with_parent():
    """Has a signal sent to this process when the one that started it ends, in whatever way."""
    LIBC.prctl(PR_SET_PDEATHSIG, signal.SIGTERM)


def tell(text):
    # (without a standard error there is nobody to tell)
    with contextlib.suppress(OSError, AttributeError):
        print(f"ebrd: {text}", file=sys.stderr, flush=True)


def fail(text):
    tell(text)
    sys.exit(1)


def sum_of_sources():
    """Returns a sum of all that the program is made of: the kit, the list of crates, and the files of theirs that the kit reads."""
    total = hashlib.sha256(subprocess.run(["rt", "version"], stdout=subprocess.PIPE, check=True).stdout)
    files = [f"{TOP}/crates.txt"]
    for at, folders, names in os.walk(f"{TOP}/crates"):
        folders[:] = [it for it in folders if it not in ("out", "first-look")]
        files += [f"{at}/{it}" for it in names if it.endswith((".rt", ".antt"))]
    for path in sorted(files):
        with open(path, "rb") as file:
            text = file.read()
        total.update(os.fsencode(f"{os.path.relpath(path, TOP)}\n{len(text)}\n"))
        total.update(text)
    return total.hexdigest()


def find_program(words):
    """Returns the file of the program that runs with these words, or None. Its name is `rt try`'s choice."""
    for process in filter(str.isdigit, os.listdir("/proc")):
        # (one that has ended meanwhile, or is another user's)
        with contextlib.suppress(OSError):
            with open(f"/proc/{process}/cmdline", "rb") as file:
                line = os.fsdecode(file.read()).split("\0")[:-1]
            if line[-2:] == words and os.path.basename(line[-3]) == "program":
                return line[-3]
    return None


def wait_for_program(rt, words):
    """Waits until the program runs with these words, and tells meanwhile how long that takes. Returns None where `rt` ends before."""
    began = told = time.monotonic()
    while rt.poll() is None:
        program = find_program(words)
        if program is not None:
            return program
        if time.monotonic() >= told + PAUSE:
            told += PAUSE
            tell(f"compiling for {int(told - began)} seconds; it takes 180 to 420 where little else is at work")
        time.sleep(0.5)
    return None


def compile_to(place):
    """Has `rt try` compile the program, and copies it to this place."""
    script, end = os.pipe()
    words = ["try", f"/proc/{os.getpid()}/fd/{script}"]
    with tempfile.TemporaryFile("w+", errors="replace") as log:
        # (the interpreter, which comes first, would read the script too: it is given one step)
        how = {"cwd": CRATE, "stdin": subprocess.DEVNULL, "stdout": log, "stderr": log, "start_new_session": True}
        rt = subprocess.Popen(["rt", "try", "--steps", "1", "--", *words], preexec_fn=end_with_parent, **how)
        try:
            program = wait_for_program(rt, words)
            if program is None:
                log.seek(0)
                fail(f"the first look can't be compiled\n{log.read()}")
            with open(program, "rb") as whole, open(place, "wb") as copy:
                shutil.copyfileobj(whole, copy)
                os.fchmod(copy.fileno(), 0o755)
                copy.flush()
                os.fsync(copy.fileno())
        finally:
            # (rt ends what it has started, and removes its folder)
            rt.terminate()
            rt.wait()
            os.close(end)


def make(program, sources):
    """Makes the program, unless another call does so meanwhile. Under its name there is a whole one or none, whatever stops this."""
    os.makedirs(KEPT, exist_ok=True)
    with open(f"{KEPT}/lock", "w") as lock:
        try:
            fcntl.flock(lock, fcntl.LOCK_EX | fcntl.LOCK_NB)
        except BlockingIOError:
            tell("another call compiles the first look; this one waits for that")
            fcntl.flock(lock, fcntl.LOCK_EX)
        if os.path.exists(program):
            return
        tell("a first look: everything is compiled once, unproved, in 3 to 7 minutes and 6.5 GB of memory")
        compile_to(f"{KEPT}/new")
        if sum_of_sources() != sources:
            os.remove(f"{KEPT}/new")
            fail("the sources were changed while they were compiled: call it again")
        os.rename(f"{KEPT}/new", program)
        for name in os.listdir(KEPT):
            if name not in ("lock", os.path.basename(program)):
                os.remove(f"{KEPT}/{name}")


def main():
    caught = [it for it in (signal.SIGHUP, signal.SIGINT, signal.SIGTERM) if signal.getsignal(it) != signal.SIG_IGN]
    for it in caught:
        signal.signal(it, lambda number, _: sys.exit(128 + number))
    try:
        sources = sum_of_sources()
        program = f"{KEPT}/{sources}"
        if not os.path.exists(program):
            make(program, sources)
        tell("a first look: unproved, checked as it runs, some hundreds of times slower; `rt ci` proves everything and builds the program")
        # (Python ignores these; the program need not)
        for it in (signal.SIGPIPE, signal.SIGXFSZ):
            signal.signal(it, signal.SIG_DFL)
        os.execv(program, [program, *sys.argv[1:]])
    except FileNotFoundError as error:
        fail("rt, the command of the Rattle kit, is not on the path" if error.filename == "rt" else f"no first look: {error}")
    except (OSError, subprocess.SubprocessError) as error:
        fail(f"no first look: {error}")


if __name__ == "__main__":
    main()
