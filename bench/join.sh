#!/usr/bin/env bash
# Measures how long a join of two tables on a key takes by each method of the executor, beside sqlite3 with the index that it makes
# itself and without. `times run` makes the tables in memory and runs one code; sqlite3 imports the same tables into memory. `none` and
# `import alone` join nothing, so the time of a join is the difference. Of at most 10000 rows both also run nested loops. `rowplan` is
# asked too, which loads the tables, joins them by its best plan and writes all rows.
# usage: bench/join.sh [ROWS [RUNS]], with 100000 rows a table and 5 runs where nothing is said.
# `rt` must be on the path. The programs are proved and built first, if they are not yet.
set -eu
rows=${1:-100000}
runs=${2:-5}
. "$(dirname "$0")/measure.sh"
times=$top/crates/times/out/times
(cd "$top/crates/times" && rt run -- run hash 100) > "$work/built"
methods='hash merge merge-indexed'
[ "$rows" -gt 10000 ] || methods="$methods nested"

# The keys 1 to n, each once, in another order in each table: multiples of a number that has no divisor in common with n.
make_table() {
    awk -v n="$1" -v step="$2" -v heading="$3" -v letter="$4" 'BEGIN {
        print "id," heading
        for (i = 1; i <= n; i++) printf "%d,%s\n", (i * step) % n + 1, letter i % 7
    }'
}
make_table "$rows" 7919 owner o > "$work/a.csv"
make_table "$rows" 104729 name n > "$work/b.csv"

# The policy of the first table shows the role `reader` every row, so that each is tested; `root` bypasses it.
cat > "$work/schema.sql" <<'SQL'
CREATE ROLE reader;
CREATE TABLE a (id bigint, owner text);
CREATE TABLE b (id bigint, name text);
ALTER TABLE a ENABLE ROW LEVEL SECURITY;
CREATE POLICY named ON a USING (owner <> CURRENT_USER);
GRANT SELECT ON a TO reader;
GRANT SELECT ON b TO reader;
SQL
build

# The commands of sqlite3: the import alone, and with the join.
if command -v sqlite3 > /dev/null; then
    cat > "$work/import.sql" <<SQL
CREATE TABLE a (id INTEGER, owner TEXT);
CREATE TABLE b (id INTEGER, name TEXT);
.import --csv --skip 1 $work/a.csv a
.import --csv --skip 1 $work/b.csv b
SQL
    count='SELECT count(*) FROM a, b WHERE a.id = b.id;'
    { cat "$work/import.sql" && echo "$count"; } > "$work/indexed.sql"
    { cat "$work/import.sql" && echo 'PRAGMA automatic_index = OFF;' && echo "$count"; } > "$work/nested.sql"
fi

# Fails unless the join that was measured last found each row of a once, of which it printed the number.
found_all() {
    read -r found _ < "$work/out"
    [ "$found" = "$rows" ]
}
sqlite() {
    measure "sqlite3, $1" sqlite3 -init "$work/$2.sql" :memory: .quit
}
ask() {
    measure "$1" "$rowplan" query --schema "$work/schema.sql" --dir "$work" --role "$2" "$3"
    [ "$(wc -l < "$work/out")" = $((rows + 1)) ]
}
echo "$rows rows in each of two tables"
for _ in $(seq "$runs"); do
    measure 'times run, none' "$times" run none "$rows"
    for method in $methods; do
        measure "times run, $method" "$times" run "$method" "$rows"
        found_all
    done
    if [ -f "$work/import.sql" ]; then
        sqlite 'import alone' import
        sqlite 'with an index of its own' indexed
        found_all
        if [ "$rows" -le 10000 ]; then
            sqlite 'by nested loops' nested
            found_all
        fi
    fi
    ask 'rowplan, as root' root 'SELECT a.id, b.name FROM a, b WHERE a.id = b.id'
    ask 'rowplan, under a policy' reader 'SELECT a.id, b.name FROM a JOIN b ON a.id = b.id'
    ask 'rowplan, and a fragile condition' reader 'SELECT a.id, b.name FROM a JOIN b ON a.id = b.id WHERE a.id + b.id > 0'
done
