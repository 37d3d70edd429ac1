#!/bin/sh
# Measures a journal on a file: how long a start over it takes, and the memory; and single commits, beside the syncs that they want.
# Run it by hand, as `bench/journal.sh` at the top of the repository, where `rt ci` has built the program; it wants GNU time and
# python3. It works in a folder of TMPDIR, which should lie on a disk. Nothing here is a test.
set -eu
top=$(dirname -- "$(readlink -f -- "$0")")/..
program=$(readlink -f -- "$top/crates/ebrd/out/ebrd")
work=$(mktemp -d)
trap 'rm -rf "$work"' EXIT
[ -x "$program" ] || { echo 'bench/journal.sh: the program is not built: run rt ci first' >&2; exit 1; }
cd "$work"

# load COUNT: a table with a key and so many rows, of which each transaction inserts up to 199,999
load() {
    awk -v count="$1" 'BEGIN {
        print "CREATE TABLE t (id NUMBER PRIMARY KEY, v VARCHAR2(30), n NUMBER);\nCREATE TABLE fill (first NUMBER, last NUMBER);"
        print "CREATE TRIGGER f AFTER INSERT ON fill FOR EACH ROW BEGIN FOR i IN :NEW.first .. :NEW.last LOOP INSERT INTO t VALUES (i, \047x\047, i); END LOOP; END;\n/"
        for (first = 1; first <= count; first += 199999)
            printf "INSERT INTO fill VALUES (%d, %d);\nCOMMIT;\n", first, first + 199998 < count ? first + 199998 : count
    }' >1.sql
}

# commits COUNT: scripts that insert so many rows, each by a statement and a commit, 20,000 of them in a script
commits() {
    awk -v count="$1" 'BEGIN {
        for (i = 1; i <= count; i++) {
            script = (int((i - 1) / 20000) + 1) ".sql"
            if (i == 1) print "CREATE TABLE t (id NUMBER PRIMARY KEY, v VARCHAR2(30), n NUMBER);" >script
            printf "INSERT INTO t VALUES (%d, \047x\047, %d);\nCOMMIT;\n", i, i >script
        }
    }'
}

# timed WORDS: seconds by the clock, processor seconds and memory of a run
timed() {
    /usr/bin/time -o timed -f '%e %U %S %M' "$program" "$@" >/dev/null
    awk '{ printf "%.2f s, %.2f s of a processor, %d MB", $1, $2 + $3, $4 / 1024 }' timed
}

# started KIND COUNT: a journal of the kind, and a start over it for a session that asks nothing
started() {
    rm -f journal ./*.sql ./*.out
    "$1" "$2"
    "$program" rehearse journal /dev/null ./[1-9].sql >/dev/null
    printf 'SELECT COUNT(*) FROM t;\n' >none.sql
    printf '| %s %s | %d | %s | %s |\n' "$1" "$2" "$(stat -c %s journal)" "$(timed rehearse journal /dev/null none.sql)" "$(timed dump journal)"
    [ "$(head -n 1 none.sql.out)" = "$2" ] || { echo "there are $(head -n 1 none.sql.out) rows" >&2; exit 1; }
}

echo '| Journal | bytes | a start | dump |'
echo '|---|---|---|---|'
started load 10000
started load 100000
started commits 10000
started commits 100000

# The least that single commits take: each is a write, a sync, a write of one byte, and a sync.
limit() {
    python3 - "$1" "$2" <<'LIMIT'
import os, sys, time
count, size = int(sys.argv[1]), int(sys.argv[2])
file, at, piece = os.open("limit", os.O_RDWR | os.O_CREAT | os.O_TRUNC), 0, b"x" * size
began = time.perf_counter()
for _ in range(count):
    os.pwrite(file, piece, at)
    os.fdatasync(file)
    os.pwrite(file, b"\1", at)
    os.fdatasync(file)
    at += size
print(f"{time.perf_counter() - began:.2f} s")
LIMIT
}

echo
echo '| 10,000 commits | time |'
echo '|---|---|'
rm -f journal ./*.sql ./*.out
commits 10000
printf '| `rehearse` | %s |\n' "$(timed rehearse journal /dev/null 1.sql)"
printf '| the same writes and syncs alone | %s |\n' "$(limit 10000 $(($(stat -c %s journal) / 10000)))"
