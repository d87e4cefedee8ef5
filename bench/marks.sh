#!/usr/bin/env bash
# Measures queries whose expressions over one entry of FROM are computed once a row, beside sqlite3 over the same files, and beside the
# same with an expression over both, which is computed on each combination: of all pairs of rows of two tables, a sum of it, their number,
# and their number where a condition that may fault keeps one row in a hundred; of a large table joined by a key of 50, of which each row
# comes once, the least values of an expression, and the number of rows.
# usage: bench/marks.sh [ROWS [LARGE [RUNS]]], with 1000 rows of each of the two tables, 1000000 of the large one, and 5 runs where
# nothing is said. Times are of the processor, the load subtracted; the programs take turns, and of the runs the middle one is printed.
# `rt` and sqlite3 must be on the path. The program is proved and built first, if it is not yet.
set -eu -o pipefail
rows=${1:-1000}
large=${2:-1000000}
runs=${3:-5}
. "$(dirname "$0")/measure.sh"

# So many rows of a number, each once and in an order of its own, and of two others.
numbered() {
    awk -v n="$1" -v by="$2" 'BEGIN { print "id,x,y"; for (i = 1; i <= n; i++) printf "%d,%d,%d\n", (i * by) % n + 1, (i * 31) % 1009, i % 13 }'
}
mkdir "$work/pairs" "$work/keyed"
numbered "$rows" 7919 > "$work/pairs/a.csv"
numbered "$rows" 104729 > "$work/pairs/b.csv"
awk -v n="$large" 'BEGIN { print "region,a"; for (i = 1; i <= n; i++) printf "%d,%d\n", i % 50 + 1, (i * 7919) % 1000003 }' > "$work/keyed/f.csv"
awk 'BEGIN { print "id,two"; for (i = 1; i <= 50; i++) printf "%d,2\n", i }' > "$work/keyed/d.csv"
echo 'CREATE TABLE a (id bigint, x bigint, y bigint); CREATE TABLE b (id bigint, x bigint, y bigint);' > "$work/pairs/schema.sql"
echo 'CREATE TABLE f (region bigint, a bigint); CREATE TABLE d (id bigint, two bigint);' > "$work/keyed/schema.sql"
build

# The number of the rows is asked for its load.
pairs_load='SELECT count(*) AS n FROM b'
pairs_sum='SELECT sum(a.x * 2 + a.y) AS total FROM a, b'
pairs_both='SELECT sum(a.x * 2 + b.y) AS total FROM a, b'
pairs_count='SELECT count(*) AS n FROM a, b'
pairs_few='SELECT count(*) AS n FROM a, b WHERE a.id % 100 = 0'
keyed_load='SELECT count(*) AS n FROM d'
keyed_items='SELECT f.a * 2 AS twice FROM f, d WHERE f.region = d.id ORDER BY twice LIMIT 10'
keyed_both='SELECT f.a * d.two AS twice FROM f, d WHERE f.region = d.id ORDER BY twice LIMIT 10'
keyed_count='SELECT count(*) AS n FROM f, d WHERE f.region = d.id'
queries='pairs_load pairs_sum pairs_both pairs_count pairs_few keyed_load keyed_items keyed_both keyed_count'

# The commands of sqlite3 for each query.
import_tables() {
    printf '%s\n' '.mode csv' '.separator , "\n"' "$(sed 's/bigint/INTEGER/g' "$work/$1/schema.sql")"
    for table in "$work/$1"/*.csv; do echo ".import --skip 1 $table $(basename "$table" .csv)"; done
}
for query in $queries; do
    { import_tables "${query%_*}"; echo "${!query};"; } > "$work/$query.sql"
done

# Both programs in turn; their answers are compared.
for _ in $(seq "$runs"); do
    for query in $queries; do
        of=$work/${query%_*}
        processor "$rowplan" query --schema "$of/schema.sql" --dir "$of" --role root "${!query}" >> "$work/$query.rowplan"
        tail -n +2 "$work/out" > "$work/answer"
        processor sqlite3 -init "$work/$query.sql" :memory: .quit >> "$work/$query.sqlite"
        cmp "$work/out" "$work/answer"
    done
done
# The middle one of the numbers of a file.
middle() { sort -n "$1" | sed -n "$(((runs + 1) / 2))p"; }
shown() {
    awk -v load="$(middle "$work/${1%_*}_load.$2")" -v all="$(middle "$work/$1.$2")" -v what="$2, $3" 'BEGIN { printf "%-62s %8.3f s\n", what, all - load }'
}
for by in rowplan sqlite; do
    shown pairs_sum "$by" "$rows x $rows, a sum over one table"
    shown pairs_both "$by" "$rows x $rows, a sum over both"
    shown pairs_count "$by" "$rows x $rows, their number"
    shown pairs_few "$by" "$rows x $rows, one row in a hundred"
    shown keyed_items "$by" "$large by a key of 50, items over one table"
    shown keyed_both "$by" "$large by a key of 50, items over both"
    shown keyed_count "$by" "$large by a key of 50, their number"
done
