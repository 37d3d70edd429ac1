#!/bin/sh
# Makes the figures of scripts, code and rows of bench/RESULTS.md: for each kind of script and each size the processor time, the least of
# some runs, and the memory that `ebrd` takes; and, where valgrind is there, instructions. Run it by hand, as `bench/measure.sh` at the
# top of the repository; it wants GNU time and bash. Nothing here is a test.
set -eu
top=$(dirname -- "$(readlink -f -- "$0")")/..
program=$top/crates/ebrd/out/ebrd
work=$(mktemp -d)
trap 'rm -rf "$work"' EXIT
[ -x "$program" ] || { echo 'bench/measure.sh: the program is not built: run rt ci first' >&2; exit 1; }

# as_many SIZE KIND: lines of the kind, as many whole pieces as fit into the size
as_many() {
    awk -v size="$1" -v kind="$2" '
        function add(text) { if (used + length(text) > size) exit; used += length(text); printf "%s", text; count++ }
        BEGIN {
            if (kind == "called") add("CREATE PROCEDURE a IS BEGIN DBMS_OUTPUT.PUT_LINE(\047a\047); END;\n/\n")
            for (i = 0; ; i++) {
                if (kind == "blocks") add("BEGIN NULL; END;\n/\n")
                else if (kind == "units") add("CREATE OR REPLACE PROCEDURE p IS BEGIN NULL; END;\n/\n")
                else if (kind == "queries") add("SELECT a" i ", b + 1 FROM t WHERE c = " i ";\n")
                else if (kind == "semicolons") add(";")
                else if (kind == "called") add("CALL a();\n")
                else if (kind == "savepoints") add("SAVEPOINT s" i ";\n")
            }
        }'
}

# repeated SIZE HEAD PART TAIL: one piece, with as many parts as fit into the size
repeated() {
    awk -v size="$1" -v head="$2" -v part="$3" -v tail="$4" 'BEGIN {
        printf "%s", head
        for (used = length(head) + length(tail); used + length(part) <= size; used += length(part)) printf "%s", part
        printf "%s", tail
    }'
}

# procedures COUNT KIND: so many procedures that print a line, of different names; with a call of each behind all of them, or
# behind its definition
procedures() {
    awk -v count="$1" -v kind="$2" 'BEGIN {
        for (i = 0; i < count; i++) {
            printf "CREATE PROCEDURE p%d IS BEGIN DBMS_OUTPUT.PUT_LINE(\047x\047); END;\n/\n", i
            if (kind == "called_at_once") printf "CALL p%d();\n", i
        }
        for (i = 0; i < count && kind == "called_after"; i++) printf "CALL p%d();\n", i
    }'
}

# rows COUNT KIND: a table of three columns with a key; its rows by a block, or each by a statement and a commit, and then perhaps
# a query of all; and behind the block an UPDATE or a query of all, or a loop over them; or the same UPDATE where a trigger does nothing before each row, changes
# it, or writes a line of a log after it
rows() {
    awk -v count="$1" -v kind="$2" 'BEGIN {
        print "CREATE TABLE t (id NUMBER PRIMARY KEY, v VARCHAR2(30), n NUMBER);"
        if (kind ~ /^statements/) {
            for (i = 1; i <= count; i++) printf "INSERT INTO t VALUES (%d, \047x\047, %d);\nCOMMIT;\n", i, i
            if (kind == "statements_select") print "SELECT * FROM t;"
            exit
        }
        printf "BEGIN FOR i IN 1 .. %d LOOP INSERT INTO t VALUES (i, \047text of a row\047, i); END LOOP; COMMIT; END;\n/\n", count
        if (kind == "empty") print "CREATE TRIGGER b BEFORE UPDATE ON t FOR EACH ROW BEGIN NULL; END;\n/"
        if (kind == "before") print "CREATE TRIGGER b BEFORE UPDATE ON t FOR EACH ROW BEGIN :NEW.n := :NEW.n + 1; END;\n/"
        if (kind == "after") print "CREATE TABLE log_t (id NUMBER, n NUMBER);\nCREATE TRIGGER a AFTER UPDATE ON t FOR EACH ROW BEGIN INSERT INTO log_t VALUES (:NEW.id, :NEW.n); END;\n/"
        if (kind ~ /^(update|empty|before|after)$/) print "UPDATE t SET n = n + 1;\nCOMMIT;"
        if (kind == "select") print "SELECT * FROM t;"
        if (kind == "sorted") print "SELECT * FROM t ORDER BY n;"
        if (kind == "joined") print "SELECT a.id, b.id FROM t a, t b WHERE a.n = b.id;"
        if (kind == "product") print "SELECT a.id, b.v FROM t a, t b;"
        if (kind == "sorted_product") print "SELECT a.id, b.v FROM t a, t b ORDER BY a.n + b.n;"
        if (kind == "loop") print "DECLARE s NUMBER := 0; BEGIN FOR r IN (SELECT * FROM t) LOOP s := s + r.n; END LOOP; DBMS_OUTPUT.PUT_LINE(s); END;\n/"
    }'
}

# loaded COUNT KIND: a table with a key, and so many rows in one transaction, which is committed or rolled back. A session makes at
# most 50,000 requests, so a trigger inserts the rows, each by a statement of its own; behind 199,999 rows a transaction is full, and
# another one goes on. Behind them an UPDATE of all, or one row by its key, and a row whose key is taken
loaded() {
    awk -v count="$1" -v kind="$2" 'BEGIN {
        print "CREATE TABLE t (id NUMBER PRIMARY KEY, v VARCHAR2(30), n NUMBER);\nCREATE TABLE fill (first NUMBER, last NUMBER);"
        print "CREATE TRIGGER f AFTER INSERT ON fill FOR EACH ROW BEGIN FOR i IN :NEW.first .. :NEW.last LOOP INSERT INTO t VALUES (i, \047x\047, i); END LOOP; END;\n/"
        for (first = 1; first <= count; first += 199999) {
            last = first + 199998 < count ? first + 199998 : count
            printf "INSERT INTO fill VALUES (%d, %d);\n", first, last
            print kind == "rolled_back" ? "ROLLBACK;" : "COMMIT;"
        }
        if (kind == "updated") print "UPDATE t SET n = n + 1;\nCOMMIT;"
        if (kind == "searched") print "INSERT INTO t VALUES (" count ", \047x\047, 0);\nUPDATE t SET n = 0 WHERE id = " count ";\nCOMMIT;"
    }'
}

# committed COUNT: the scripts 1.sql, 2.sql and so on, which insert so many rows into a table with a key, each by a statement and a
# commit, 20,000 of them in a script; by an order that is empty one runs after the other
committed() {
    rm -f "$work"/[1-9].sql
    : >"$work/order"
    awk -v count="$1" -v work="$work" 'BEGIN {
        for (i = 1; i <= count; i++) {
            script = work "/" (int((i - 1) / 20000) + 1) ".sql"
            if (i == 1) print "CREATE TABLE t (id NUMBER PRIMARY KEY, v VARCHAR2(30), n NUMBER);" >script
            printf "INSERT INTO t VALUES (%d, \047x\047, %d);\nCOMMIT;\n", i, i >script
        }
    }'
}

# large SIZE: a procedure of so many bytes, most of them in texts of 1,000
large() {
    text=$(printf '%1000s' '' | tr ' ' x)
    repeated "$1" 'CREATE PROCEDURE p IS BEGIN ' "DBMS_OUTPUT.PUT_LINE('$text'); " 'END;'
}

# named SIZE KIND: one piece with as many different names as fit into the size: a query with a column of each of its sources; a
# block that raises the last of its exceptions, which one handler catches with all others, or each exception has a handler
named() {
    awk -v size="$1" -v kind="$2" '
        function parts(i) {
            if (kind == "sources") { first = (i ? ", " : "") "a" i ".x"; second = (i ? ", " : "") "t a" i }
            else first = "e" i " EXCEPTION; "
            if (kind == "handled") second = (i ? " OR " : "WHEN ") "e" i
            if (kind == "handlers") second = "WHEN e" i " THEN NULL; "
        }
        BEGIN {
            head = kind == "sources" ? "CREATE TABLE t (x NUMBER);\nINSERT INTO t VALUES (1);\nSELECT " : "DECLARE "
            used = length(head) + 48
            for (count = 0; ; count++) {
                parts(count)
                used += length(first) + length(second)
                if (used > size) break
            }
            printf "%s", head
            for (i = 0; i < count; i++) { parts(i); printf "%s", first }
            printf "%s", kind == "sources" ? " FROM " : "BEGIN RAISE e" count - 1 "; EXCEPTION "
            for (i = 0; i < count; i++) { parts(i); printf "%s", second }
            if (kind == "handled") printf " THEN NULL; "
            print (kind == "sources" ? ";" : "END;\n/")
        }'
}

# script SIZE KIND: a script of a kind, as large as the size allows
script() {
    case $2 in
        sum) repeated "$1" 'SELECT 1' ' + b' ' FROM t;' ;;
        ifs) repeated "$1" 'BEGIN ' 'IF a = 1 THEN NULL; END IF; ' 'END;' ;;
        sources | handled | handlers) named "$1" "$2" ;;
        *) as_many "$1" "$2" ;;
    esac
}

# turns COUNT KIND: the scripts 1.sql, 2.sql and 3.sql of so many statements each, which are queries, or an INSERT and a COMMIT by
# turns; and the order in which one after the other makes one, behind a table that the first one makes
turns() {
    for session in 1 2 3; do
        awk -v count="$1" -v kind="$2" -v session="$session" 'BEGIN {
            if (session == 1) print "CREATE TABLE t (id NUMBER PRIMARY KEY, v VARCHAR2(30), n NUMBER);"
            for (i = 1; i <= count; i++) {
                if (kind == "queries") print "SELECT 1 FROM dual;"
                else if (i % 2) printf "INSERT INTO t VALUES (%d, \047x\047, %d);\n", 3 * i + session, i
                else print "COMMIT;"
            }
        }' >"$work/$session.sql"
    done
    awk -v count="$1" 'BEGIN { print 1; for (i = 1; i <= count; i++) print "1 2 3" }' >"$work/order"
}

# loop_of LOOP: a function, and a block with a loop that may call it
loop_of() {
    printf 'CREATE FUNCTION f(x NUMBER) RETURN NUMBER IS BEGIN RETURN x + 1; END;\n/\n'
    printf 'DECLARE x NUMBER := 0; BEGIN %s; END;\n/\n' "$1"
}

# measured RUNS WORDS: the least processor time in seconds of so many runs, and the memory in MB
measured() {
    runs=$1
    shift
    for _ in $(seq "$runs"); do
        rm -f "$work/journal"
        /usr/bin/time -f '%U %S %M' "$program" "$@" 2>&1 >/dev/null
    done | awk '{ t = $1 + $2; if (NR == 1 || t < least) least = t; memory = $3 } END { printf "%.2f s, %d MB", least, memory / 1024 }'
}

# least RUNS SCRIPT: the least processor time of so many runs in ms; for runs so short that other work on the machine shows
least() {
    for _ in $(seq "$1"); do
        bash -c 'TIMEFORMAT="%3U %3S"; time "$0" try "$1" >/dev/null' "$program" "$2" 2>&1
    done | awk '{ t = ($1 + $2) * 1000; if (NR == 1 || t < least) least = t } END { printf "%.0f", least }'
}

# instructions WORDS: how many instructions a run takes
instructions() {
    rm -f "$work/journal"
    valgrind --tool=callgrind --callgrind-out-file=/dev/null "$program" "$@" 2>&1 >/dev/null | awk '/Collected/ { print $NF }'
}

echo '| Script | 256 KiB | 512 KiB | 1 MiB |'
echo '|---|---|---|---|'
for kind in blocks units queries sum ifs semicolons called savepoints sources handled handlers; do
    printf '| %s' "$kind"
    for size in 262144 524288 1048576; do
        script "$size" "$kind" >"$work/$kind.sql"
        printf ' | %s' "$(measured 3 try "$work/$kind.sql")"
    done
    echo ' |'
done

echo
echo '| Script | 1,024 | 2,048 | 4,096 |'
echo '|---|---|---|---|'
for kind in made called_after called_at_once; do
    printf '| %s' "$kind"
    for count in 1024 2048 4096; do
        procedures "$count" "$kind" >"$work/$kind.sql"
        printf ' | %s' "$(measured 3 try "$work/$kind.sql")"
    done
    echo ' |'
done

echo
echo '| Loop | Steps | Time | A step |'
echo '|---|---|---|---|'
while read -r steps loop; do
    loop_of "$loop" >"$work/loop.sql"
    awk -v loop="$loop" -v steps="$steps" -v ms="$(least 7 "$work/loop.sql")" \
        'BEGIN { printf "| `%s` | %d | %d ms | %.2f us |\n", loop, steps, ms, ms * 1000 / steps }'
done <<'LOOPS'
999981 FOR i IN 1 .. 499990 LOOP NULL; END LOOP
999981 FOR i IN 1 .. 499990 LOOP x := x + i * 2 - 1; END LOOP
999981 WHILE x < 499990 LOOP x := x + 1; END LOOP
999991 FOR i IN 1 .. 333330 LOOP x := f(i); END LOOP
LOOPS

# kinds SIZES KINDS: a line for each kind
kinds() {
    for kind in $2; do
        printf '| %s' "$kind"
        for count in $1; do
            rows "$count" "$kind" >"$work/$kind.sql"
            printf ' | %s' "$(measured 3 try "$work/$kind.sql")"
        done
        echo ' |'
    done
}

echo
echo '| Script | 10,000 rows | 20,000 rows |'
echo '|---|---|---|'
kinds '10000 20000' 'block update select sorted loop'

echo
echo '| Script | 5,000 rows | 10,000 rows | 20,000 rows |'
echo '|---|---|---|---|'
kinds '5000 10000 20000' 'statements statements_select'

# short_kinds SIZES KINDS: the same of runs so short that other work on the machine shows
short_kinds() {
    for kind in $2; do
        printf '| %s' "$kind"
        for count in $1; do
            rows "$count" "$kind" >"$work/$kind.sql"
            printf ' | %s ms' "$(least 40 "$work/$kind.sql")"
        done
        echo ' |'
    done
}

echo
echo '| Script | 1,000 rows | 2,000 rows |'
echo '|---|---|---|'
short_kinds '1000 2000' 'block update empty before after'

echo
echo '| Script | 200 rows | 400 rows |'
echo '|---|---|---|'
short_kinds '200 400' 'block select sorted joined product sorted_product'

# The block as it is; the UPDATE over the block; the triggers over the UPDATE.
if command -v valgrind >/dev/null; then
    echo
    echo '| 1,000 rows | instructions for a row |'
    echo '|---|---|'
    before=0
    for kind in block update empty before after; do
        rows 1000 "$kind" >"$work/$kind.sql"
        count=$(instructions try "$work/$kind.sql")
        printf '| %s | %d |\n' "$kind" $(((count - before) / 1000))
        case $kind in block | update) before=$count ;; esac
    done
fi

echo
echo '| Each of three sessions | 1,000 statements | 2,000 statements |'
echo '|---|---|---|'
for kind in queries inserts; do
    printf '| %s' "$kind"
    for count in 1000 2000; do
        turns "$count" "$kind"
        printf ' | %s' "$(measured 20 rehearse "$work/journal" "$work/order" "$work/1.sql" "$work/2.sql" "$work/3.sql")"
    done
    echo ' |'
done

# of_load COUNT KIND COMMAND: makes a load, and has the command run it
of_load() {
    count=$1
    kind=$2
    shift 2
    if [ "$kind" = committed ]; then
        committed "$count"
        "$@" rehearse "$work/journal" "$work/order" "$work"/[1-9].sql
    else
        loaded "$count" "$kind" >"$work/$kind.sql"
        "$@" try "$work/$kind.sql"
    fi
}

# loads SIZES KINDS: a line for each kind
loads() {
    for kind in $2; do
        printf '| %s' "$kind"
        for count in $1; do
            printf ' | %s' "$(of_load "$count" "$kind" measured 3)"
        done
        echo ' |'
    done
}

echo
echo '| Load | 10,000 rows | 30,000 rows | 100,000 rows |'
echo '|---|---|---|---|'
loads '10000 30000 100000' 'committed one_transaction updated rolled_back'

echo
echo '| Load | 100,000 rows | 1,000,000 rows |'
echo '|---|---|---|'
loads '100000 1000000' 'searched'

# The UPDATE over the rows that were inserted in one transaction.
if command -v valgrind >/dev/null; then
    echo
    echo '| Instructions for a row | 10,000 rows | 30,000 rows | 100,000 rows |'
    echo '|---|---|---|---|'
    for kind in committed one_transaction rolled_back updated; do
        printf '| %s' "$kind"
        for count in 10000 30000 100000; do
            before=0
            [ "$kind" = updated ] && before=$(of_load "$count" one_transaction instructions)
            all=$(of_load "$count" "$kind" instructions)
            printf ' | %d' $(((all - before) / count))
        done
        echo ' |'
    done
fi

# What may be copied: the rows of a query in a block, over the block that inserts them; the changes of a transaction; the text of a
# procedure of 100 KiB.
if command -v valgrind >/dev/null; then
    echo
    echo '| Script | instructions | time and memory |'
    echo '|---|---|---|'
    rows 10000 block >"$work/block.sql"
    rows 10000 loop >"$work/queried.sql"
    rows 1000 block >"$work/inserted.sql"
    large 102400 >"$work/procedure.sql"
    before=$(instructions try "$work/block.sql")
    for kind in queried inserted procedure; do
        count=$(instructions try "$work/$kind.sql")
        printf '| %s | %d | %s |\n' "$kind" $((count - before)) "$(measured 3 try "$work/$kind.sql")"
        before=0
    done
fi
