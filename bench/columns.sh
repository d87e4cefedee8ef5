#!/usr/bin/env bash
# Measures a load of a table of five columns with one query: 2,000 rows that a policy shows, a count and a sum in 50 groups, the
# first 10 rows by a column, and all rows by that column, each beside sqlite3's .import of the same file with the same query. Where R
# with data.table is there, its fread of the file on one thread is measured beside the load.
# usage: bench/columns.sh [ROWS [RUNS]], with 1000000 rows and 5 runs where nothing is said. Times are of the processor, in seconds;
# of the runs, which take turns, the middle one counts. Memory is the most of any run.
# `rt` must be on the path. The program is proved and built first, if it is not yet.
set -eu
rows=${1:-1000000}
runs=${2:-5}
. "$(dirname "$0")/measure.sh"

deal_rows "$rows" 500 > "$work/deal.csv"

# `few` sees 2,000 rows of 1,000,000 by a comparison of numbers, `one_owner` by one of texts, `root` all of them; `lone` may not read.
cat > "$work/schema.sql" <<SQL
CREATE ROLE few; CREATE ROLE one_owner; CREATE ROLE lone;
CREATE TABLE deal (id bigint, owner text, region bigint, amount bigint, parts bigint);
ALTER TABLE deal ENABLE ROW LEVEL SECURITY;
CREATE POLICY first_rows ON deal TO few USING (id <= 2000);
CREATE POLICY own ON deal TO one_owner USING (owner = 'owner-7');
GRANT SELECT ON deal TO few;
GRANT SELECT ON deal TO one_owner;
SQL
build
seen='SELECT id, amount FROM deal'
groups='SELECT region, count(*), sum(amount) FROM deal GROUP BY region ORDER BY region'
sorted='SELECT id, amount FROM deal ORDER BY amount'
first="$sorted LIMIT 10"
declare -A beside=([few]="$seen WHERE id <= 2000" [one_owner]="$seen WHERE owner = 'owner-7'" [groups]=$groups [first]=$first [sorted]=$sorted)
for name in few one_owner groups first sorted; do
    cat > "$work/$name.sql" <<SQL
CREATE TABLE deal (id INTEGER, owner TEXT, region INTEGER, amount INTEGER, parts INTEGER);
.import --csv --skip 1 $work/deal.csv deal
${beside[$name]};
SQL
done

# Runs a command, and adds its processor time and its greatest memory in KB to a file of that name.
note() {
    /usr/bin/time -f '%U %S %M' -o "$work/time" "${@:2}" > "$work/out" 2> "$work/errors" || [ $? = 4 ]
    tail -n 1 "$work/time" | awk '{ printf "%.2f %d\n", $1 + $2, $3 }' >> "$work/$1.times"
}
ask() { "$rowplan" query --schema "$work/schema.sql" --dir "$work" --role "$1" "$2"; }
middle() { sort -n "$work/$1.times" | sed -n "$(((runs + 1) / 2))p" | cut -d ' ' -f 1; }
most() { awk '$2 > most { most = $2 } END { printf "%d", most / 1024 + 0.5 }' "$work/$1.times"; }
export rowplan work
export -f ask
for _ in $(seq "$runs"); do
    note load bash -c 'ask lone "SELECT id FROM deal"'
    note few bash -c "ask few \"$seen\""
    note one_owner bash -c "ask one_owner \"$seen\""
    note groups bash -c "ask root \"$groups\""
    note first bash -c "ask root \"$first\""
    note sorted bash -c "ask root \"$sorted\""
    if Rscript -e 'library(data.table)' > "$work/out" 2>&1; then
        note fread Rscript -e "library(data.table); setDTthreads(1); rows <- fread('$work/deal.csv', na.strings = '\\\\N')"
    fi
    for name in few one_owner groups first sorted; do
        note "sqlite-$name" sqlite3 -init "$work/$name.sql" :memory: .quit
    done
done
echo "$rows rows, $(stat -c %s "$work/deal.csv") bytes"
printf '%-12s %6s s %20s %6s MiB\n' load "$(middle load)" '' "$(most load)"
if [ -f "$work/fread.times" ]; then
    printf '%-12s %6s s %20s %6s MiB\n' fread "$(middle fread)" '' "$(most fread)"
fi
for name in few one_owner groups first sorted; do
    ours=$(middle "$name")
    theirs=$(middle "sqlite-$name")
    printf '%-12s %6s s, %s of sqlite3 (%s s) %6s MiB\n' "$name" "$ours" \
        "$(awk -v a="$ours" -v b="$theirs" 'BEGIN { printf "%.2f", a / b }')" "$theirs" "$(most "$name")"
done
