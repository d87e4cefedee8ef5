#!/usr/bin/env bash
# Measures what three comparisons of numbers cost on each row of a table: as conditions of a query and as that of a policy, which
# are evaluated for all rows at once, and within a CASE, which is evaluated row by row. Loading, which a denied query does alone,
# is subtracted.
# usage: bench/filter.sh [ROWS [RUNS]], with 1000000 rows and 5 runs where nothing is said. Times are of the processor, in
# milliseconds; of the runs the middle one counts.
# `rt` must be on the path. The program is proved and built first, if it is not yet.
set -eu -o pipefail
rows=${1:-1000000}
runs=${2:-5}
. "$(dirname "$0")/measure.sh"
wanted='amount >= 0 AND amount < 2000 AND parts <> 3'

deal_rows "$rows" 97 > "$work/deal.csv"
cat > "$work/schema.sql" <<SQL
CREATE ROLE reader; CREATE ROLE teller; CREATE ROLE lone;
CREATE TABLE deal (id bigint, owner text, region bigint, amount bigint, parts bigint);
ALTER TABLE deal ENABLE ROW LEVEL SECURITY;
CREATE POLICY wanted ON deal TO reader USING ($wanted);
CREATE POLICY told ON deal TO teller USING (CASE WHEN $wanted THEN TRUE ELSE FALSE END);
GRANT SELECT ON deal TO reader;
GRANT SELECT ON deal TO teller;
SQL
build

# The middle one of the runs of a query as a role, in seconds.
middle() {
    for _ in $(seq "$runs"); do
        processor "$rowplan" query --schema "$work/schema.sql" --dir "$work" --role "$1" "$2"
    done | sort -n | sed -n "$(((runs + 1) / 2))p"
}
load=$(middle lone 'SELECT count(*) FROM deal')
at_once=$(middle root "SELECT count(*) FROM deal WHERE $wanted")
cp "$work/out" "$work/answer"
policy=$(middle reader 'SELECT count(*) FROM deal')
cmp "$work/answer" "$work/out"
by_rows=$(middle teller 'SELECT count(*) FROM deal')
cmp "$work/answer" "$work/out"
awk -v load="$load" -v at_once="$at_once" -v policy="$policy" -v by_rows="$by_rows" 'BEGIN {
    printf "load alone: %.0f ms; for all rows at once: %.1f ms, as a policy %.1f ms; row by row: %.1f ms; %.2f of it\n",
        load * 1000, (at_once - load) * 1000, (policy - load) * 1000, (by_rows - load) * 1000, (at_once - load) / (by_rows - load)
}'
