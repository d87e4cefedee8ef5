#!/usr/bin/env bash
# Measures how long `rowplan` takes for a left join of two tables on a key, of which half the rows of the first have a match, beside an
# inner join of the same tables, and sqlite3 with the same left join over the same files, with the index that it makes itself.
# usage: bench/left.sh [ROWS [RUNS]], with 100000 rows a table and 5 runs where nothing is said. Times are of the processor; the runs
# take turns, and of each the middle one is printed. `rt` must be on the path. The program is proved and built first, if it is not yet.
set -eu -o pipefail
rows=${1:-100000}
runs=${2:-5}
. "$(dirname "$0")/measure.sh"

# The keys 1 to n of the first table, each once, and the odd keys up to 2n of the second.
make_table() {
    awk -v n="$1" -v step="$2" -v times="$3" -v heading="$4" 'BEGIN {
        print "id," heading
        for (i = 1; i <= n; i++) printf "%d,%s%d\n", ((i * step) % n + 1) * times - (times - 1), substr(heading, 1, 1), i % 7
    }'
}
make_table "$rows" 7919 1 owner > "$work/a.csv"
make_table "$rows" 104729 2 name > "$work/b.csv"
cat > "$work/schema.sql" <<'SQL'
CREATE TABLE a (id bigint, owner text);
CREATE TABLE b (id bigint, name text);
SQL
build
left='SELECT a.id AS k, b.name FROM a LEFT JOIN b ON a.id = b.id ORDER BY k'
inner='SELECT a.id AS k, b.name FROM a JOIN b ON a.id = b.id ORDER BY k'
{
    sqlite_tables 'a id INTEGER, owner TEXT' 'b id INTEGER, name TEXT'
    printf '%s\n' '.nullvalue \\N' "$left;"
} > "$work/left.sql"
ask() {
    "$rowplan" query --schema "$work/schema.sql" --dir "$work" --role root "$1"
}
middle() {
    sort -n | awk '{ a[NR] = $1 } END { print a[int((NR + 1) / 2)] }'
}
ask "$left" > "$work/ours"
sqlite3 :memory: < "$work/left.sql" | tr -d '\r' > "$work/theirs"
cmp "$work/ours" "$work/theirs"
for _ in $(seq "$runs"); do
    processor "$rowplan" query --schema "$work/schema.sql" --dir "$work" --role root "$left" >> "$work/left.times"
    processor "$rowplan" query --schema "$work/schema.sql" --dir "$work" --role root "$inner" >> "$work/inner.times"
    processor sqlite3 -init "$work/left.sql" :memory: .quit >> "$work/sqlite.times"
done
printf '%s rows a table: left join %s s, inner join %s s; sqlite3, left join %s s\n' "$rows" \
    "$(middle < "$work/left.times")" "$(middle < "$work/inner.times")" "$(middle < "$work/sqlite.times")"
