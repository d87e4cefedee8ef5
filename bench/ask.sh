#!/usr/bin/env bash
# Measures how long a query takes whose tables are loaded, and how long its plan: `times ask` makes tables t1, t2, .. in memory, each
# with an index on its key, and asks so many texts of one query, no two the same: for their rows in one session, or for their plans,
# while what was counted of the tables is kept. What it takes without asking is subtracted. One table is asked for the row of a key; of
# more tables the combinations of a chain, each joined with the next by its key, are counted. `times known` asks as many texts in the
# same way, each for the row of a key, as a role that sees one row in 500; the first text is told apart from the later ones. Beside it
# sqlite3 looks up the same row.
# usage: bench/ask.sh [ROWS [RUNS]], with 1000000 rows of the one table and 5 runs where nothing is said. Times are of the processor,
# in milliseconds for each time that is asked; of the runs the middle one counts.
# `rt` must be on the path. The program is proved and built first, if it is not yet.
set -eu -o pipefail
rows=${1:-1000000}
runs=${2:-5}
. "$(dirname "$0")/measure.sh"
times=$top/crates/times/out/times
(cd "$top/crates/times" && rt run -- ask rows 3 100 2) > "$work/built"

# The middle one of the runs of a command, in seconds.
middle() {
    for _ in $(seq "$runs"); do processor "$@"; done | sort -n | sed -n "$(((runs + 1) / 2))p"
}
# What one time takes beyond none, in milliseconds.
each() {
    awk -v all="$1" -v none="$2" -v times="$3" 'BEGIN { printf "%.4f", (all - none) * 1000 / times }'
}
# The rows or the plan of so many tables of so many rows, asked so many times.
ask() {
    local none all
    none=$(middle "$times" ask "$1" "$2" "$3" 0)
    all=$(middle "$times" ask "$1" "$2" "$3" "$4")
    printf '%-10s %s tables of %8d rows: %10s ms each, beside %s s for the tables\n' "$1" "$2" "$3" "$(each "$all" "$none" "$4")" "$none"
}
ask plan 1 "$rows" 200000
ask rows 1 "$rows" 200000
ask plan 1 1000 20000
ask rows 1 1000 20000
ask plan 3 1000 5000
ask rows 3 1000 200
ask plan 8 1000 500
ask rows 8 1000 50
# The first of the texts of a role under a policy, and each later one.
known() {
    local none one all
    none=$(middle "$times" known "$1" "$2" 0)
    one=$(middle "$times" known "$1" "$2" 1)
    all=$(middle "$times" known "$1" "$2" "$3")
    printf '%-10s under a policy on %8d rows: %10s ms the first text, %10s ms each later one\n' "$1" "$2" "$(each "$one" "$none" 1)" "$(each "$all" "$one" $(($3 - 1)))"
}
known plan "$rows" 200001
known rows "$rows" 200001
if command -v sqlite3 > /dev/null; then
    awk -v n="$rows" 'BEGIN { print "id,val"; for (i = 1; i <= n; i++) printf "%d,%d\n", (i * 7919) % n + 1, i }' > "$work/t1.csv"
    cat > "$work/none.sql" <<SQL
CREATE TABLE t1 (id INTEGER, val INTEGER);
CREATE INDEX t1_id ON t1 (id);
.import --csv --skip 1 $work/t1.csv t1
SQL
    { cat "$work/none.sql" && for _ in $(seq 200000); do echo 'SELECT val FROM t1 WHERE id = 77;'; done; } > "$work/all.sql"
    none=$(middle sqlite3 -init "$work/none.sql" :memory: .quit)
    all=$(middle sqlite3 -init "$work/all.sql" :memory: .quit)
    printf '%-10s 1 tables of %8d rows: %10s ms each, beside %s s for the tables\n' sqlite3 "$rows" "$(each "$all" "$none" 200000)" "$none"
fi
