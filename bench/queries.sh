#!/usr/bin/env bash
# Measures how long `rowplan` takes for two queries, their tables loaded from files: a join of a large table, under a policy that is
# tested on each row, with a smaller one by a key, grouped by a column of 50 values; and a chain of eight tables joined by their keys.
# sqlite3 answers the same from the same files, with the indexes that it makes itself, and where psql reaches a server (PGHOST and the
# like) PostgreSQL, whose client's time on the clock is shown.
# usage: bench/queries.sh [ROWS [KEYS [CHAIN [RUNS]]]], with 1000000 rows of the large table, 100000 keys of the smaller one, 10000 rows
# of each of the eight tables, and 5 runs where nothing is said. Times are of the processor; of the runs the middle one is printed.
# `rt` must be on the path. The program is proved and built first, if it is not yet.
set -eu -o pipefail
rows=${1:-1000000}
keys=${2:-100000}
chain=${3:-10000}
runs=${4:-5}
. "$(dirname "$0")/measure.sh"
chmod 755 "$work"

# A number, an item, one of 50 regions, and an amount.
awk -v n="$rows" -v k="$keys" 'BEGIN {
    print "id,item,region,amount"
    for (i = 1; i <= n; i++) printf "%d,%d,%d,%d\n", i, (i * 7919) % k + 1, (i * 31) % 50, (i * 104729) % 1000003 - 500000
}' > "$work/deal.csv"
awk -v k="$keys" 'BEGIN { print "id,name"; for (i = 1; i <= k; i++) printf "%d,n%d\n", (i * 7919) % k + 1, i % 7 }' > "$work/item.csv"
for t in 1 2 3 4 5 6 7 8; do
    awk -v n="$chain" -v t="$t" 'BEGIN { print "id,val"; for (i = 1; i <= n; i++) printf "%d,%d\n", (i * 7919 + 37 * t) % n + 1, i }' > "$work/t$t.csv"
done
cat > "$work/schema.sql" <<'SQL'
CREATE ROLE reader; CREATE ROLE outsider;
CREATE TABLE deal (id bigint, item bigint, region bigint, amount bigint);
ALTER TABLE deal ENABLE ROW LEVEL SECURITY;
CREATE POLICY known ON deal USING (region >= 0);
CREATE TABLE item (id bigint, name text);
GRANT SELECT ON deal TO reader; GRANT SELECT ON item TO reader;
SQL
mkdir "$work/chain"
for t in 1 2 3 4 5 6 7 8; do
    echo "CREATE TABLE t$t (id bigint, val bigint);"
    mv "$work/t$t.csv" "$work/chain/"
done > "$work/chain/schema.sql"
build

grouped='SELECT d.region, count(*) AS deals, sum(d.amount) AS total FROM deal d, item i WHERE d.item = i.id GROUP BY d.region ORDER BY region'
chained='SELECT count(*) AS n FROM t1'
for t in 2 3 4 5 6 7 8; do chained="$chained JOIN t$t ON t$((t - 1)).id = t$t.id"; done

{
    sqlite_tables 'deal id INTEGER, item INTEGER, region INTEGER, amount INTEGER' 'item id INTEGER, name TEXT'
    echo "$grouped;"
} > "$work/grouped.sql"
{
    for t in 1 2 3 4 5 6 7 8; do echo "CREATE TABLE t$t (id INTEGER, val INTEGER);"; echo ".import --csv --skip 1 $work/chain/t$t.csv t$t"; done
    printf '.headers on\n%s;\n' "$chained"
} > "$work/chained.sql"
cat > "$work/grouped.psql" <<SQL
CREATE TEMP TABLE deal (id bigint, item bigint, region bigint, amount bigint);
CREATE TEMP TABLE item (id bigint, name text);
\\copy deal FROM '$work/deal.csv' CSV HEADER
\\copy item FROM '$work/item.csv' CSV HEADER
$grouped;
SQL
{
    for t in 1 2 3 4 5 6 7 8; do echo "CREATE TEMP TABLE t$t (id bigint, val bigint);"; echo "\\copy t$t FROM '$work/chain/t$t.csv' CSV HEADER"; done
    echo "$chained;"
} > "$work/chained.psql"

# The answer is the same one each time; the first line is a heading, which PostgreSQL's client is asked to leave out.
same_rows() {
    if [ -f "$work/$1.rows" ]; then cmp "$work/$1.rows" "$work/out.rows"; else cp "$work/out.rows" "$work/$1.rows"; fi
}
# The middle one of the runs of a command.
timed() {
    label=$1 query=$2
    shift 2
    for _ in $(seq "$runs"); do
        processor "$@"
        tail -n +2 "$work/out" > "$work/out.rows"
        same_rows "$query"
    done | sort -n | sed -n "$(((runs + 1) / 2))p" > "$work/middle"
    printf '%-36s %8s s of the processor\n' "$label" "$(cat "$work/middle")"
}
echo "$rows rows, $(stat -c %s "$work/deal.csv") bytes; $keys keys; 8 tables of $chain rows"
timed 'rowplan, grouped join, as reader' grouped "$rowplan" query --schema "$work/schema.sql" --dir "$work" --role reader "$grouped"
timed 'rowplan, grouped join, as root' grouped "$rowplan" query --schema "$work/schema.sql" --dir "$work" --role root "$grouped"
timed 'rowplan, load alone' denied "$rowplan" query --schema "$work/schema.sql" --dir "$work" --role outsider 'SELECT id FROM deal'
timed 'rowplan, chain of eight' chained "$rowplan" query --schema "$work/chain/schema.sql" --dir "$work/chain" --role root "$chained"
if command -v sqlite3 > /dev/null; then
    timed 'sqlite3, grouped join' grouped sqlite3 -init "$work/grouped.sql" :memory: .quit
    timed 'sqlite3, chain of eight' chained sqlite3 -init "$work/chained.sql" :memory: .quit
fi
if command -v psql > /dev/null && psql -Atc 'SELECT 1' > "$work/none" 2>&1; then
    for query in grouped chained; do
        for _ in $(seq "$runs"); do
            from=$(date +%s.%N)
            psql -qAt -F , -f "$work/$query.psql" > "$work/out.rows"
            awk -v a="$from" -v b="$(date +%s.%N)" 'BEGIN { printf "%.3f\n", b - a }'
            same_rows "$query"
        done | sort -n | sed -n "$(((runs + 1) / 2))p" > "$work/middle"
        printf '%-36s %8s s on the clock\n' "PostgreSQL, $query" "$(cat "$work/middle")"
    done
fi
