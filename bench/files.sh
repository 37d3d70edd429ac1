#!/bin/sh
# Tries what the program does with its files: which it refuses, what is in each afterwards, and whom it locks out. Run it by hand, as
# `bench/files.sh PROGRAM`; without a word it takes the program that `rt ci` has built. It prints a line for each case, and the status
# is 1 where one differs. It wants flock, timeout and mkfifo; as root it wants setpriv, and with strace there are more cases.
set -u
top=$(dirname -- "$(readlink -f -- "$0")")/..
built=$(readlink -f -- "${1-$top/crates/ebrd/out/ebrd}")
[ -x "$built" ] || { echo 'bench/files.sh: the program is not built: run rt ci first' >&2; exit 1; }
work=$(mktemp -d) || exit 1
trap 'rm -rf "$work"' EXIT
chmod 755 "$work"
cp "$built" "$work/ebrd" || exit 1
program=$work/ebrd
# How long the program may take, in seconds: what is built for a first look is slow.
limit=120
cases=0
failed=0

# begin NAME: a case, in a folder of its own, with a script `s.sql`, an order, and a journal `J` of three records with its copy `J.was`
begin() {
    name=$1
    differs=
    cases=$((cases + 1))
    mkdir "$work/$cases"
    chmod 777 "$work/$cases"
    cd "$work/$cases" || exit 1
    umask 0
    printf 'CREATE TABLE t (a NUMBER(9));\nINSERT INTO t VALUES (1);\nCOMMIT;\nCREATE EDITION v2;\n' >s.sql
    "$program" run J s.sql >made 2>&1 || differs="; the journal was not made"
    printf 'SELECT a FROM t;\n' >s.sql
    printf '1 1\n' >order
    rm -f s.sql.out made
    cp J J.was
    cp s.sql s.was
    umask 022
}

# is WHAT WANTED CAME
is() {
    [ "$2" = "$3" ] || differs="$differs; $1: came '$3', wanted '$2'"
}

# kept FILE COPY: the file is as it was
kept() {
    cmp -s "$1" "$2" || differs="$differs; $1 has changed"
}

# none FILE: there is no such file
none() {
    [ ! -e "$1" ] && [ ! -h "$1" ] || differs="$differs; there is a file $1"
}

# ran STATUS LAST WORDS: a run ends with the status, and its last line is this one
ran() {
    status=$1
    last=$2
    shift 2
    timeout "$limit" "$program" "$@" >report
    is "status of $1 $2" "$status" $?
    is "report of $1 $2" "$last" "$(tail -n 1 report)"
}

# has_records: the journal is as it was, and is no damaged one
has_records() {
    kept J J.was
    timeout "$limit" "$program" dump J >lines
    is 'status of dump' 0 $?
    is 'records' 'table T commit 1 edition V2' "$(tr '\n' ' ' <lines | sed 's/ $//')"
}

end() {
    if [ -z "$differs" ]; then
        echo "$name: as wanted"
    else
        echo "$name: ${differs#; }"
        failed=1
    fi
}

# as_nobody WORDS: runs it as one who may not do everything
as_nobody() {
    if [ "$(id -u)" -eq 0 ]; then
        timeout "$limit" setpriv --reuid=65534 --regid=65534 --clear-groups "$program" "$@"
    else
        timeout "$limit" "$program" "$@"
    fi
}

# waits FILE: until a file has something in it
waits() {
    turns=0
    while [ ! -s "$1" ] && [ "$turns" -lt "$limit" ]; do
        sleep 1
        turns=$((turns + 1))
    done
}

# --- the journal ---

begin 'a new journal in a folder that cannot be read, so that it cannot be synced, is not made'
mkdir -m 333 folder
as_nobody run folder/J s.sql >report
is status 3 $?
is report 'host fault: folder/J' "$(tail -n 1 report)"
none folder/J
end

begin 'a new journal by a name that is not UTF-8, or by a link to one, is not made'
odd=$(printf 'odd\377')
mkdir "$odd"
ln -s "$odd/J" link
ran 3 "host fault: $odd.J" run "$odd.J" s.sql
ran 3 'host fault: link' run link s.sql
none "$odd.J"
none "$odd/J"
end

begin 'a new journal is made in a current folder whose name is not UTF-8, and behind a link'
mkdir "$odd" other
cp s.sql "$odd"
ln -s other/J link
(cd "$odd" && exec timeout "$limit" "$program" run J s.sql >/dev/null)
is status 0 $?
[ -s "$odd/J" ] || differs="$differs; no journal"
timeout "$limit" "$program" run link s.sql >/dev/null
is status 0 $?
[ -s other/J ] || differs="$differs; no journal behind the link"
end

for file in fifo /dev/zero /dev/null /dev/full folder; do
    begin "a journal that is no regular file is a host fault: $file"
    mkfifo fifo
    mkdir folder
    limit=20
    ran 3 "host fault: $file" dump "$file"
    ran 3 "host fault: $file" run "$file" s.sql
    ran 3 "host fault: $file" rehearse "$file" order s.sql
    limit=120
    end
done

# --- dump ---

begin 'dump of a journal that is not there makes none'
ran 3 'host fault: other' dump other
none other
end

begin 'dump of a journal that may be read and not written'
chmod 444 J
as_nobody dump J >report
is status 0 $?
is records 3 "$(wc -l <report)"
kept J J.was
end

begin 'dump of an empty file'
: >empty
ran 0 '' dump empty
is size 0 "$(stat -c %s empty)"
end

begin 'dump beside a program that reads the journal, and none beside one that writes it'
timeout "$limit" flock -s J "$program" dump J >report
is 'status beside a reader' 0 $?
is records 3 "$(wc -l <report)"
timeout "$limit" flock -s J "$program" run J s.sql >report
is 'status of run beside a reader' 3 $?
timeout "$limit" flock -x J "$program" dump J >report
is 'status beside a writer' 3 $?
is report 'host fault: J' "$(tail -n 1 report)"
has_records
end

# --- the standard output ---

begin 'standard output is the journal'
ln J hard
ln -s J soft
for words in 'run J s.sql' 'run hard s.sql' 'run soft s.sql' 'rehearse J order s.sql' 'dump J' 'dump soft'; do
    timeout "$limit" "$program" $words 1<>J
    is "status of $words" 3 $?
    timeout "$limit" "$program" $words >>J
    is "status of $words, appended" 3 $?
done
has_records
end

begin 'standard output is the journal, and something else is wrong before it'
printf '9\n' >order
timeout "$limit" "$program" run J missing.sql 1<>J
is 'status of a missing script' 3 $?
timeout "$limit" "$program" rehearse J order s.sql 1<>J
is 'status of a wrong order' 9 $?
timeout "$limit" "$program" runs J s.sql 1<>J
is 'status of a wrong command' 2 $?
has_records
end

begin 'standard output is a script'
ln s.sql hard.sql
timeout "$limit" "$program" try s.sql 1<>s.sql
is 'status of try' 3 $?
timeout "$limit" "$program" try hard.sql 1<>s.sql
is 'status of try by another name' 3 $?
timeout "$limit" "$program" try /dev/stdin <s.sql 1<>s.sql
is 'status of try of the standard input' 3 $?
timeout "$limit" "$program" run other s.sql 1<>s.sql
is 'status of run' 3 $?
kept s.sql s.was
none other
none s.sql.out
end

begin 'standard output is the order'
cp order order.was
timeout "$limit" "$program" rehearse other order s.sql 1<>order
is status 3 $?
kept order order.was
none other
none s.sql.out
end

begin 'standard output is the file of a session'
printf 'what was there\n' >s.sql.out
cp s.sql.out out.was
cp s.sql r.sql
for words in 'run J s.sql' 'run J r.sql s.sql' 'rehearse J order s.sql'; do
    timeout "$limit" "$program" $words 1<>s.sql.out
    is "status of $words" 3 $?
    timeout "$limit" "$program" $words >>s.sql.out
    is "status of $words, appended" 3 $?
done
kept s.sql.out out.was
has_records
end

begin 'standard output has no other use: by names like those of sessions, a device, or the same as standard error'
timeout "$limit" "$program" run J s.sql >J.out
is 'status of run > J.out' 0 $?
[ -s J.out ] || differs="$differs; no summary"
timeout "$limit" "$program" try s.sql >s.sql.out
is 'status of try > s.sql.out' 0 $?
[ -s s.sql.out ] || differs="$differs; no replies"
timeout "$limit" "$program" rehearse J /dev/null s.sql >/dev/null
is 'status of an order that is /dev/null' 0 $?
timeout "$limit" "$program" run J s.sql >both 2>&1
is 'status of > both 2>&1' 0 $?
end

begin 'standard output is closed'
timeout "$limit" "$program" run J s.sql >&-
is status 5 $?
timeout "$limit" "$program" run J s.sql <&- >&- 2>&-
is 'status where all three are' 5 $?
has_records
is 'replies' '1 1 rows' "$(tr '\n' ' ' <s.sql.out | sed 's/ $//')"
end

# --- the files of sessions, and other programs ---

begin 'the file of a session is the journal, a script or the order'
ln J l.sql.out
ln s.sql m.sql.out
ln order n.sql.out
cp order order.was
cp s.sql l.sql
cp s.sql m.sql
cp s.sql n.sql
ran 3 'host fault: l.sql' run J l.sql
ran 3 'host fault: m.sql' run J s.sql m.sql
ran 3 'host fault: n.sql' rehearse J order n.sql
kept s.sql s.was
kept order order.was
has_records
end

# Program 1 runs a.sql and b.sql over J, and waits in the midst: the file of a.sql's session is a FIFO of which nothing is read yet.
begin 'what another program has in use is not emptied, and is a host fault'
awk 'BEGIN { for (i = 0; i < 8000; i++) print "SELECT a FROM t;" }' >a.sql
cp s.sql b.sql
cp s.sql c.sql
mkfifo a.sql.out go
{ read -r _ <go; cat >got; } <a.sql.out &
reader=$!
"$program" run J a.sql b.sql >first &
first=$!
waits b.sql.out
cp b.sql.out b.was
ran 3 'host fault: J' run J c.sql
ran 3 'host fault: J' dump J
ln J c2.sql.out
cp c.sql c2.sql
ran 3 'host fault: c2.sql' run other c2.sql
ln b.sql.out c3.sql.out
cp c.sql c3.sql
ran 3 'host fault: c3.sql' run other c3.sql
ran 3 'host fault: b.sql' run J b.sql
ran 3 'host fault: b.sql.out' run b.sql.out c.sql
kept b.sql.out b.was
none other
[ -s b.was ] || differs="$differs; the other session printed nothing"
kill -0 "$first" || differs="$differs; the other program has ended"
echo >go
wait "$first"
is 'status of the other program' 0 $?
wait "$reader"
is 'replies of the other program' 16000 "$(wc -l <got)"
has_records
timeout "$limit" "$program" run J b.sql >report
is 'status of a run behind it' 0 $?
end

begin 'a file that was longer is emptied, and several sessions may print to one device'
awk 'BEGIN { for (i = 0; i < 1000; i++) print "what was there" }' >s.sql.out
cp s.sql r.sql
cp s.sql q.sql
ln -s /dev/null r.sql.out
ln -s /dev/null q.sql.out
timeout "$limit" "$program" run J s.sql r.sql q.sql >/dev/null
is status 0 $?
is 'replies' '1 1 rows' "$(tr '\n' ' ' <s.sql.out | sed 's/ $//')"
end

# --- what waits, and limits ---

begin 'a file of a session that is a FIFO without a reader is waited for'
mkfifo s.sql.out
timeout 10 "$program" run other s.sql >report
is status 124 $?
none other
end

begin 'a limit on the sizes of files ends the program by its signal, and nothing acknowledged is lost'
awk 'BEGIN { for (i = 0; i < 100; i++) print "INSERT INTO t VALUES (" i ");\nCOMMIT;" }' >s.sql
(
    (ulimit -f 2 && exec timeout --foreground "$limit" "$program" run J s.sql) >report
    exit $?
) 2>/dev/null
# (the shell tells the signal SIGXFSZ, 25, as 153)
is status 153 $?
acknowledged=$(grep -c OK s.sql.out)
timeout "$limit" "$program" dump J >lines
is 'status of dump' 0 $?
records=$(($(wc -l <lines) - 3))
[ "$acknowledged" -gt 0 ] || differs="$differs; nothing was acknowledged"
[ "$records" -eq "$acknowledged" ] || [ "$records" -eq $((acknowledged + 1)) ] || differs="$differs; $acknowledged acknowledged, $records records"
end

# --- what only strace tells and does ---

# traced WORDS: the program, whose calls strace writes to `calls`, with the options in $how
traced() {
    timeout "$limit" strace -f -y -o calls $how "$program" "$@"
}

if command -v strace >/dev/null; then
    begin 'the folder of a journal is synced where it is made, and where it was empty'
    how='-e trace=openat,fsync,fdatasync'
    mkdir folder
    traced run folder/J s.sql >report
    is 'status' 0 $?
    is 'made' 2 "$(grep -c "fsync([0-9]*<[^>]*/folder>) = 0" calls)"
    : >folder/J
    traced run folder/J s.sql >report
    is 'status' 0 $?
    is 'empty' 2 "$(grep -c "fsync([0-9]*<[^>]*/folder>) = 0" calls)"
    traced run folder/J s.sql >report
    is 'with records' 0 "$(grep -c "fsync([0-9]*<[^>]*/folder>)" calls)"
    end

    begin 'where the folder cannot be synced no journal is made'
    how='-e trace=fsync -e inject=fsync:error=EIO:when=1'
    traced run other s.sql >report
    is 'status' 3 $?
    is 'report' 'host fault: other' "$(tail -n 1 report)"
    none other
    end

    begin 'where it can be before the journal is made and not then, an empty file stays'
    how='-e trace=fsync -e inject=fsync:error=EIO:when=2'
    traced run other s.sql >report
    is 'status' 3 $?
    is 'report' 'host fault: other' "$(tail -n 1 report)"
    is 'size' 0 "$(stat -c %s other)"
    timeout "$limit" "$program" run other s.sql >report
    is 'status of the next run' 0 $?
    end

    begin 'a sync of the journal that fails: the request is answered by it, and what was acknowledged is there'
    printf 'INSERT INTO t VALUES (2);\nCOMMIT;\nINSERT INTO t VALUES (3);\nCOMMIT;\nINSERT INTO t VALUES (4);\nCOMMIT;\n' >s.sql
    how='-e trace=fdatasync -e inject=fdatasync:error=EIO:when=4'
    traced run J s.sql >report
    is 'status' 4 $?
    is 'report' 'disk fault' "$(tail -n 1 report)"
    acknowledged=$(grep -c OK s.sql.out)
    timeout "$limit" "$program" dump J >lines
    is 'status of dump' 0 $?
    records=$(($(wc -l <lines) - 3))
    [ "$acknowledged" -gt 0 ] || differs="$differs; nothing was acknowledged"
    [ "$records" -eq "$acknowledged" ] || [ "$records" -eq $((acknowledged + 1)) ] || differs="$differs; $acknowledged acknowledged, $records records"
    printf 'SELECT COUNT(*) FROM t;\n' >s.sql
    timeout "$limit" "$program" run J s.sql >report
    is 'status of the next run' 0 $?
    is 'rows' "$((records + 1))" "$(head -n 1 s.sql.out)"
    end
else
    echo 'four cases want strace: not tried'
fi

echo "files: $cases cases"
exit "$failed"
