#!/usr/bin/env bash
# Measures how long the search for the least code of a query takes, of 1 to 12 tables in a chain (each joined to the next), a star (the
# first joined to each other) and a clique (each two joined, by 64 equalities at most); beside PostgreSQL's planning of the same query up
# to 8 tables; and of 8 and 12 tables with an index on each of 64 columns, the search alone.
# usage: bench/plan.sh [RUNS], with 20 runs where nothing is said; of each time the middle one is given.
# `rt` must be on the path. The program `times` is proved and built first, if it is not yet. PostgreSQL is left out where its
# programs are not in POSTGRESQL, or /usr/lib/postgresql/15/bin; it runs in a folder of its own, on a socket alone.
set -eu
runs=${1:-20}
bin=${POSTGRESQL:-/usr/lib/postgresql/15/bin}
. "$(dirname "$0")/measure.sh"
times=$top/crates/times/out/times
(cd "$top/crates/times" && rt run -- plan chain 3 1 1) > "$work/built"

# A server does not run as root.
as_owner() {
    if [ "$(id -u)" = 0 ]; then setpriv --reuid=postgres --regid=postgres --clear-groups "$@"; else "$@"; fi
}
stop() {
    if [ -f "$work/data/postmaster.pid" ]; then as_owner "$bin/pg_ctl" -D "$work/data" -m fast stop > "$work/stop" || true; fi
    rm -rf "$work"
}
ask() {
    as_owner "$bin/psql" -h "$work" -d postgres -qAtX "$@"
}
start() {
    trap stop EXIT
    cd "$work"
    [ "$(id -u)" != 0 ] || chown postgres "$work"
    as_owner "$bin/initdb" -D "$work/data" -A trust --no-sync > "$work/initdb"
    as_owner "$bin/pg_ctl" -D "$work/data" -l "$work/log" -w -o "-k '$work' -c listen_addresses= -c autovacuum=off -c fsync=off" start > "$work/start"
}

# The tables of `times plan`: an id and a column for each table, each with 1000 numbers, all different since 1009 is prime, in an
# order of its own.
make_tables() {
    local i j columns values
    for i in $(seq 8); do
        columns='id bigint' values=n
        for j in $(seq 8); do
            columns+=", c$j bigint" values+=", (n * $((10 * i + j)) % 1009)"
        done
        echo "CREATE TABLE t$i ($columns);"
        echo "INSERT INTO t$i SELECT $values FROM generate_series(1, 1000) AS n;"
        echo "CREATE INDEX ON t$i (id);"
        echo "ANALYZE t$i;"
    done
}

# The joins of a shape: the column of the one table for the other, and the id of that.
query() {
    awk -v shape="$1" -v n="$2" 'BEGIN {
        from = "t1"
        for (j = 2; j <= n; j++) {
            from = from ", t" j
            for (i = 1; i < j; i++)
                if (shape == "clique" || (shape == "star" && i == 1) || (shape == "chain" && i + 1 == j)) {
                    where = where (where == "" ? " WHERE " : " AND ") "t" i ".c" j " = t" j ".id"
                }
        }
        print "SELECT t1.id FROM " from where
    }'
}
middle() {
    sort -g | awk '{ x[NR] = $1 } END { print x[int((NR + 1) / 2)] }'
}

# PostgreSQL's own planning time and that of the statement as its client sees it, in milliseconds.
postgresql() {
    {
        echo 'SET join_collapse_limit = 12; SET from_collapse_limit = 12; SET geqo = off;'
        echo '\timing on'
        for _ in $(seq "$runs"); do
            echo "EXPLAIN (SUMMARY) $(query "$1" "$2");"
        done
    } > "$work/explain.sql"
    ask -f - < "$work/explain.sql" > "$work/explained"
    planning=$(awk '/^Planning Time:/ { print $3 }' "$work/explained" | middle)
    client=$(awk '/^Time:/ { print $2 }' "$work/explained" | middle)
}

# Nanoseconds of the processor's clock for so many searches, with so many indexes of each table.
search() {
    local from to
    from=$(date +%s%N)
    "$times" plan "$1" "$2" "$3" "$4" > "$work/cost"
    to=$(date +%s%N)
    echo $((to - from))
}

# The time of one search, in milliseconds: of runs with many searches and with one, the difference, divided. There are so many
# that a run takes a twentieth of a second or more.
rowplan() {
    local many=1
    while [ "$(search "$1" "$2" "$many" "$3")" -lt 50000000 ]; do many=$((many * 2)); done
    search_time=$(for _ in $(seq "$runs"); do
        few=$(search "$1" "$2" 1 "$3")
        all=$(search "$1" "$2" $((many + 1)) "$3")
        awk -v few="$few" -v all="$all" -v n="$many" 'BEGIN { printf "%.6f\n", (all - few) / n / 1e6 }'
    done | middle)
}

if [ -x "$bin/initdb" ]; then
    start
    make_tables | ask -f - > "$work/made"
fi
printf '%-8s %8s %16s %22s %24s\n' shape entries 'the search, ms' 'PostgreSQL, plan, ms' 'PostgreSQL, client, ms'
for shape in chain star clique; do
    for entries in $(seq 12); do
        planning=- client=-
        rowplan "$shape" "$entries" 1
        if [ -x "$bin/initdb" ] && [ "$entries" -le 8 ]; then postgresql "$shape" "$entries"; fi
        printf '%-8s %8d %16.4f %22s %24s\n' "$shape" "$entries" "$search_time" "$planning" "$client"
    done
done
printf '\n%-8s %8s %16s, with 64 indexes of each table\n' shape entries 'the search, ms'
for shape in chain star clique; do
    for entries in 8 12; do
        rowplan "$shape" "$entries" 64
        printf '%-8s %8d %16.4f\n' "$shape" "$entries" "$search_time"
    done
done
