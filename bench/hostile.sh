#!/usr/bin/env bash
# Measures what inputs cost that are made to cost much: wall time, processor time and the greatest memory of a run of the program for each.
# usage: bench/hostile.sh
# `rt` must be on the path. The program is proved and built first, if it is not yet.
set -eu
. "$(dirname "$0")/measure.sh"
build
cd "$work"
mkdir plain many wide
sales=$top/examples/sales/schema.sql

# What is refused, a table that is, and an audit that runs out of memory.
is_expected() {
    [ "$1" = 3 ] || [ "$1" = 6 ] || [ "$1" = 7 ]
}

# A text so many times.
repeated() {
    awk -v n="$1" -v text="$2" 'BEGIN { for (i = 0; i < n; i++) printf "%s", text }'
}
# So many parts between commas, each with its number in place of `#`.
listed() {
    awk -v n="$1" -v part="$2" -v of="${3:-$1}" 'BEGIN {
        for (i = 0; i < n; i++) { text = part; gsub("#", i % of + 1, text); printf "%s%s", (i > 0 ? ", " : ""), text }
    }'
}
audit() {
    measure "$1" "$rowplan" verify --schema "$sales" --role audit --plan "$2" "$3"
}
filtered() {
    printf 'cost 5\nfilter 1 %s\nfirst deal full\ntrail\n9 0\n' "$1" > plan
}

echo 'Audits of plans of a megabyte or less'
word=$(repeated 4000 0123456789abcdef)
{ printf "cost 5\nfilter 1 (deal.owner = '%s')\nfirst deal full\ntrail\n" "$word"; repeated 4093 '10- . 0
'; } > plan
audit 'a condition of 64 KB, copied' plan "SELECT id FROM deal WHERE owner = '$word'"
listed=$(listed 8000 "'#'" 10)
{ printf 'cost 5\nfilter 1 (deal.owner IN (%s))\nfirst deal full\ntrail\n' "$listed"; repeated 4093 '10- . 0
'; } > plan
audit 'an IN of 8,000 texts, copied' plan "SELECT id FROM deal WHERE owner IN ($listed)"
first=$(listed 640 "'#'" 10) second="'x'"
{ printf 'cost 5\nfilter 1 (deal.owner IN (%s))\nfilter 2 (deal.owner IN (%s))\nfirst deal full\ntrail\n3 .\n' "$first, 'y'" "$first, $second"; repeated 1900 '10- . 0
'; for _ in $(seq 1000); do printf '10- . 1901\n10 .\n'; done; } > plan
audit 'a list of 640 compared with 1,900' plan "SELECT id FROM deal WHERE owner IN ($first, 'y') AND owner IN ($first, $second)"
{ printf 'cost 5\nfilter 1 (deal.id = 3)\nfirst deal full\ntrail\n'; repeated 2000 '10- . 0
'; for _ in $(seq 400); do printf '3 %s\n' "$(repeated 1900 0)"; done; } > plan
audit 'paths of 1,900 digits' plan 'SELECT id FROM deal WHERE id = 3'
{ printf "cost 5\nfilter 1 (deal.id = 3)\nfilter 2 (deal.owner = 'bob')\nfirst deal full\ntrail\n"; repeated 4000 '10- . 0
'; repeated 12384 '3 .
'; } > plan
audit '16,384 steps over 4,002 filters' plan "SELECT id FROM deal WHERE id = 3 AND owner = 'bob'"
filtered "deal.id = 3$(repeated 260000 ' + 0')"
audit 'a sum of 260,000 numbers' plan 'SELECT id FROM deal WHERE id = 3'
filtered "$(repeated 512 '(')deal.id = 3$(repeated 512 ')')"
audit '512 parentheses' plan 'SELECT id FROM deal WHERE id = 3'
filtered "deal.id = 3$(repeated 65000 ' AND deal.id = 3')"
audit 'an AND of 65,000' plan 'SELECT id FROM deal WHERE id = 3'
filtered "deal.id = 3$(repeated 65000 ' OR deal.id = 3')"
audit 'an OR of 65,000' plan 'SELECT id FROM deal WHERE id = 3'
filtered "deal.id IN (3$(repeated 340000 ', 3'))"
audit 'an IN of 340,000 numbers' plan 'SELECT id FROM deal WHERE id = 3'

echo; echo 'Plans: eight tables with an index on each of 64 columns, each two joined'
for t in $(seq 8); do
    echo "CREATE TABLE t$t ($(listed 64 'c# bigint'));"
    for c in $(seq 64); do echo "CREATE INDEX i${t}_$c ON t$t (c$c);"; done
    listed 64 'c#' | tr -d ' ' > "many/t$t.csv"
    echo >> "many/t$t.csv"
done > many.sql
clique=$(awk 'BEGIN { for (i = 1; i <= 8; i++) for (j = 1; j < i; j++) printf "%st%d.c%d = t%d.c%d", (n++ ? " AND " : ""), j, i, i, j }')
measure 'a clique of eight' "$rowplan" explain --schema many.sql --dir many --role root "SELECT t1.c1 FROM $(listed 8 't#') WHERE $clique"

echo; echo 'Rights: 200 users in 45 groups, 1,045 memberships, 64 columns granted to 20 groups'
{
    for u in $(seq 200); do echo "CREATE ROLE u$u;"; done
    for g in $(seq 45); do echo "CREATE ROLE g$g;"; done
    for g in $(seq 45); do [ "$g" = 45 ] || echo "GRANT g$((g + 1)) TO g$g;"; done
    echo 'GRANT g6 TO u1;'
    awk 'BEGIN { for (u = 1; u <= 200; u++) for (k = 0; k < 5; k++) printf "GRANT g%d TO u%d;\n", (u * 7 + k * 9) % 45 + 1, u }'
    echo "CREATE TABLE t ($(listed 64 'c# bigint'));"
    echo "GRANT SELECT ($(listed 64 'c#')) ON t TO $(listed 20 'g#');"
} > rights.sql
listed 64 'c#' | tr -d ' ' > wide/t.csv
echo >> wide/t.csv
ask() {
    measure "$1" "$rowplan" query --schema rights.sql --dir wide --role u1 "$2"
}
ask 'one column' 'SELECT c1 FROM t'
ask 'SELECT * of 64 columns' 'SELECT * FROM t'
ask '64 conjuncts' "SELECT c1 FROM t WHERE $(awk 'BEGIN { for (i = 1; i <= 64; i++) printf "%sc%d = c%d", (i > 1 ? " AND " : ""), i, i }')"
ask '2,079 references' "SELECT $(for _ in $(seq 33); do awk 'BEGIN { for (i = 1; i <= 63; i++) printf "%sc%d", (i > 1 ? " + " : ""), i }'; echo; done | paste -sd,) FROM t"

echo; echo 'Statements: 250 roles with grants of 64 columns'
{
    for u in $(seq 250); do echo "CREATE ROLE u$u;"; done
    echo "CREATE TABLE t ($(listed 64 'c# bigint'));"
} > few.sql
{ cat few.sql; echo "GRANT SELECT ($(listed 64 'c#')) ON t TO $(listed 250 'u#');"; } > grants.sql
state() {
    { cat "$2"; echo "$3"; } > stated.sql
    measure "$1" "$rowplan" query --schema stated.sql --dir wide --role root 'SELECT c1 FROM t'
}
state 'no grant' few.sql ''
state '16,000 grants' grants.sql ''
state 'and a GRANT of 400 to 400' grants.sql "GRANT SELECT ($(listed 400 'c#' 64)) ON t TO $(listed 400 'u#' 250);"
state 'and a GRANT of 60 KB' grants.sql "GRANT SELECT ($(listed 6000 'c#' 64)) ON t TO $(listed 6000 'u#' 250);"
state 'and a REVOKE of 60 KB' grants.sql "REVOKE SELECT ($(listed 6000 'c#' 64)) ON t FROM $(listed 6000 'u#' 250);"

echo; echo 'Data'
echo 'CREATE TABLE t (id bigint, name text);' > pair.sql
{ echo id,name; printf '1,'; repeated 1048576 0123456789abcdef; echo; } > plain/t.csv
measure 'a cell of 16 MB' "$rowplan" query --schema pair.sql --dir plain --role root 'SELECT id FROM t'
{ echo id,name; printf 1; repeated 999999 ,1; echo; } > plain/t.csv
measure 'a record of 1,000,000 fields' "$rowplan" query --schema pair.sql --dir plain --role root 'SELECT id FROM t'
