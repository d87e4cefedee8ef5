#!/usr/bin/env bash
# Measures joins whose equality alone leaves many pairs, beside sqlite3 over the same files: of two tables by two equalities, the
# first of 50 values; of two tables by an inequality alone; and of one row of a table, found by an index, with its 10 rows of a large
# one, found by an index, asked many times in one session.
# usage: bench/pairs.sh [ROWS [FEW [LARGE [RUNS]]]], with 100000 rows of each table of the first join, 3000 of the second, 1000000 rows
# of the large table, and 5 runs where nothing is said. Times are of the processor, the load subtracted; the programs take turns, and of
# the runs the middle one is printed. `rt` and sqlite3 must be on the path. The program is proved and built first, if it is not yet.
set -eu -o pipefail
rows=${1:-100000}
some=${2:-3000}
large=${3:-1000000}
runs=${4:-5}
asks=20000
. "$(dirname "$0")/measure.sh"

# So many rows of a key, each once and in an order of its own, and one of 50 regions.
keyed() {
    awk -v n="$1" -v by="$2" 'BEGIN { print "region,id"; for (i = 1; i <= n; i++) { id = (i * by) % n + 1; printf "%d,%d\n", id % 50, id } }'
}
# A line, so many times as one asks.
repeated() { awk -v n="$asks" -v line="$1" 'BEGIN { for (i = 1; i <= n; i++) print line }'; }
mkdir "$work/two" "$work/less" "$work/few"
keyed "$rows" 7919 > "$work/two/a.csv"
keyed "$rows" 104729 > "$work/two/b.csv"
keyed "$some" 7919 > "$work/less/a.csv"
keyed "$some" 104729 > "$work/less/b.csv"
awk -v n="$((large / 10))" 'BEGIN { print "id,item"; for (i = 1; i <= n; i++) printf "%d,%d\n", i, (i * 7919) % n + 1 }' > "$work/few/deal.csv"
awk -v n="$large" 'BEGIN { print "item,amount"; for (i = 1; i <= n; i++) printf "%d,%d\n", i % (n / 10) + 1, (i * 104729) % 1000003 }' > "$work/few/part.csv"
for join in two less; do
    echo 'CREATE TABLE a (region bigint, id bigint); CREATE TABLE b (region bigint, id bigint);' > "$work/$join/schema.sql"
done
echo 'CREATE TABLE deal (id bigint, item bigint); CREATE TABLE part (item bigint, amount bigint);
CREATE INDEX deal_id ON deal (id); CREATE INDEX part_item ON part (item);' > "$work/few/schema.sql"
build

two='SELECT count(*) AS n FROM a, b WHERE a.region = b.region AND a.id = b.id'
less='SELECT count(*) AS n FROM a, b WHERE a.id < b.id'
few='SELECT count(*) AS n, sum(p.amount) AS total FROM deal d, part p WHERE d.id = 77 AND d.item = p.item'
{ echo 'login root'; repeated "ask 0 $few"; } > "$work/few/script"
echo 'login root' > "$work/few/nothing"

for join in two less; do
    { echo '.mode csv'
      for t in a b; do echo "CREATE TABLE $t (region INTEGER, id INTEGER);"; echo ".import --skip 1 $work/$join/$t.csv $t"; done; } > "$work/$join/load.sql"
    { cat "$work/$join/load.sql"; echo "${!join};"; } > "$work/$join/ask.sql"
done
{ echo '.mode csv'
  echo 'CREATE TABLE deal (id INTEGER, item INTEGER); CREATE TABLE part (item INTEGER, amount INTEGER);'
  for t in deal part; do echo ".import --skip 1 $work/few/$t.csv $t"; done
  echo 'CREATE INDEX deal_id ON deal (id); CREATE INDEX part_item ON part (item);'; } > "$work/few/load.sql"
{ cat "$work/few/load.sql"; repeated "$few;"; } > "$work/few/ask.sql"

# The middle one of the numbers of a file.
middle() { sort -n "$1" | sed -n "$(((runs + 1) / 2))p"; }
# What two commands differ by, the second with the first's load; the answers of a join are compared.
for run in $(seq "$runs"); do
    for join in two less; do
        ask=("$rowplan" query --schema "$work/$join/schema.sql" --dir "$work/$join" --role root)
        processor "${ask[@]}" 'SELECT count(*) AS n FROM a' >> "$work/$join.rowplan.load"
        processor "${ask[@]}" "${!join}" >> "$work/$join.rowplan"
        tail -n 1 "$work/out" > "$work/answer"
        processor sqlite3 -init "$work/$join/load.sql" :memory: .quit >> "$work/$join.sqlite.load"
        processor sqlite3 -init "$work/$join/ask.sql" :memory: .quit >> "$work/$join.sqlite"
        tail -n 1 "$work/out" | cmp - "$work/answer"
    done
    session=("$rowplan" session --schema "$work/few/schema.sql" --dir "$work/few")
    processor "${session[@]}" "$work/few/nothing" >> "$work/few.rowplan.load"
    processor "${session[@]}" "$work/few/script" >> "$work/few.rowplan"
    processor sqlite3 -init "$work/few/load.sql" :memory: .quit >> "$work/few.sqlite.load"
    processor sqlite3 -init "$work/few/ask.sql" :memory: .quit >> "$work/few.sqlite"
done
shown() { awk -v a="$(middle "$work/$1.load")" -v b="$(middle "$work/$1")" -v n="$2" -v what="$3" 'BEGIN { printf "%-52s %10.4f ms\n", what, (b - a) * 1000 / n }'; }
for by in rowplan sqlite; do
    shown "two.$by" 1 "$by, $rows x $rows by two equalities"
    shown "less.$by" 1 "$by, $some x $some by an inequality"
    shown "few.$by" "$asks" "$by, one row and its ten of $large"
done
